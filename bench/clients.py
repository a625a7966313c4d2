"""What the measures have in common: a delivery, and a session that idles."""

import os
import sys

sys.path.insert(0, os.path.join(os.path.dirname(os.path.abspath(__file__)), os.pardir, "tests"))

from serving_house import House, connect, end_by_exit, processor_seconds  # noqa: E402,F401


def read_until(stream, end):
    """Reads to these bytes; a stream that ends before them is an error."""
    text = b""
    while not text.endswith(end):
        piece = stream.recv(65536)
        if not piece:
            raise RuntimeError(f"a connection was closed after {text!r}")
        text += piece
    return text


def idle(stream):
    """Has a session select its mailbox and idle."""
    stream.sendall(b"s SELECT INBOX\r\ni IDLE\r\n")
    read_until(stream, b"+ idling\r\n")
    return stream


def greet(stream):
    """Says LHLO on a mail connection."""
    stream.sendall(b"LHLO c.example\r\n")
    read_until(stream, b"250 8BITMIME\r\n")
    return stream


def begin(stream, user):
    """Begins a message to this user: all but its data."""
    stream.sendall(b"MAIL FROM:<s@a.example>\r\nRCPT TO:<%s@example.org>\r\nDATA\r\n" % user.encode())
    read_until(stream, b"354 Start mail input\r\n")


# The data of a message of 1 KB, with the dot.
DATA = b"Subject: one\r\n\r\n" + (b"x" * 70 + b"\r\n") * 14 + b".\r\n"
DELIVERED = b"250 2.1.5 Delivered\r\n"
