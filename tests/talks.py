"""Clients of a server that say one thing after another and compare what they are told, for the checks that are written in Python.

A talk ends by an exception where it can't go on: `Over` where the other side has gone, `Silent` where it says nothing, `Wrong` where it says something else.
"""

import contextlib
import re
import select
import signal
import socket
import struct

# So many seconds a talk waits for a line. The machine may be busy with other things.
PATIENCE = 10.0

GREETING = b"220 mx.example.org LMTP ready"
HELLO = [b"250-mx.example.org", b"250-PIPELINING", b"250-ENHANCEDSTATUSCODES", b"250 8BITMIME"]
SENDER_OK, RECIPIENT_OK, START_INPUT = b"250 2.1.0 Sender OK", b"250 2.1.5 Recipient OK", b"354 Start mail input"
DELIVERED = b"250 2.1.5 Delivered"
OUT_OF_MEMORY, NO_MEMORY = b"451 4.3.0 Out of memory", b"NO Out of memory"
PREAUTH = b"* PREAUTH IMAP4rev2 server ready"
FETCH_ALL = b"UID FETCH 1:* (BODY.PEEK[])"
FLAGS = rb"(\Answered \Flagged \Deleted \Seen \Draft)"


class Over(Exception):
    """The other side has closed the connection, or reset it."""


class Silent(Exception):
    """The other side says nothing for too long."""


class Wrong(Exception):
    """What was read isn't what it has to be."""


class TooLate(Exception):
    """Something took too long, wherever it stood."""


@contextlib.contextmanager
def no_longer_than(seconds, what):
    """Ends what is done within by `TooLate` where it takes longer; for the script's first thread, and not one within another."""

    def bark(*_):
        raise TooLate(f"{what} took more than {seconds:.0f} s")

    before = signal.signal(signal.SIGALRM, bark)
    signal.setitimer(signal.ITIMER_REAL, seconds)
    try:
        yield
    finally:
        signal.setitimer(signal.ITIMER_REAL, 0)
        signal.signal(signal.SIGALRM, before)


def reset(stream):
    """Closes a connection so that the other side is told of a reset, and what it hasn't read is lost."""
    stream.setsockopt(socket.SOL_SOCKET, socket.SO_LINGER, struct.pack("ii", 1, 0))
    stream.close()


class Talk:
    """One connection."""

    def __init__(self, stream, patience=PATIENCE):
        stream.settimeout(patience)
        self.stream, self.patience = stream, patience
        self.was_read = bytearray()

    def say(self, text):
        """Sends these bytes."""
        try:
            self.stream.sendall(text)
        except TimeoutError:
            raise Silent("nothing more can be sent") from None
        except OSError as error:
            raise Over(f"it was closed before all was sent: {error.strerror}") from None

    def more(self):
        """Reads what is there; nothing at the end."""
        try:
            return self.stream.recv(1 << 16)
        except TimeoutError:
            raise Silent(f"nothing came for {self.patience:.0f} s behind {bytes(self.was_read[-60:])!r}") from None
        except ConnectionError:
            return b""

    def fill(self):
        """Reads more, which has to come."""
        piece = self.more()
        if not piece:
            raise Over(f"it was closed behind {bytes(self.was_read[-60:])!r}")
        self.was_read += piece

    def line(self):
        """The next line, without its CR and LF."""
        while (end := self.was_read.find(b"\r\n")) < 0:
            self.fill()
        return self.take(end + 2)[:-2]

    def take(self, count):
        """So many bytes."""
        while len(self.was_read) < count:
            self.fill()
        text = bytes(self.was_read[:count])
        del self.was_read[:count]
        return text

    def rest(self):
        """All that comes up to the connection's end."""
        while piece := self.more():
            self.was_read += piece
        return self.take(len(self.was_read))

    def expect(self, *wanted):
        """Reads these lines."""
        for line in wanted:
            if (came := self.line()) != line:
                raise Wrong(f"{came!r} came in place of {line!r}")

    def has_more(self, seconds):
        """Whether something comes within so many seconds, the connection's end too."""
        return bool(self.was_read) or bool(select.select([self.stream], [], [], seconds)[0])

    def expect_end(self):
        """Reads the connection's end, and nothing before it."""
        if rest := self.rest():
            raise Wrong(f"{rest[:80]!r} came last")
        self.close()

    def close(self):
        """Closes it in good order."""
        self.stream.close()

    def reset(self):
        """Closes it by a reset."""
        reset(self.stream)


def envelope(users):
    """The commands before a message to these users."""
    return b"MAIL FROM:<s@a.example>\r\n" + b"".join(b"RCPT TO:<%s@example.org>\r\n" % user.encode() for user in users) + b"DATA\r\n"


def data_of(name, lines=1):
    """A message's data: its name, and so many lines."""
    return b"Subject: %s\r\n\r\n" % name.encode() + b"".join(b"line %d of it\r\n" % number for number in range(lines))


def sized_data(name, size):
    """The data of a message of which so many bytes stand. Each of its lines says which one of which message it is."""
    data, line = data_of(name, 0), b" of " + name.encode().rjust(60, b"-") + b"\r\n"
    count = max(0, (size - len(standing(data))) // (len(line) + 9) - 1)
    data += b"".join(b"%09d" % number + line for number in range(count))
    data += b"x" * (size - len(standing(data)) - 2) + b"\r\n"
    if len(standing(data)) != size:
        raise Wrong(f"a message can't have {size} bytes")
    return data


def standing(data):
    """The text that stands of these data."""
    return b"Return-Path: <s@a.example>\r\n" + data


def name_of(text):
    """The name of a message that stands; None where it isn't one of ours."""
    found = re.match(rb"Return-Path: <s@a\.example>\r\nSubject: ([!-~]+)\r\n\r\n", text)
    return found[1].decode() if found else None


class MailTalk(Talk):
    """One connection over LMTP."""

    def open(self):
        """Is greeted, and says LHLO."""
        self.expect(GREETING)
        self.say(b"LHLO c.example\r\n")
        self.expect(*HELLO)
        return self

    def deliver(self, users, data):
        """Sends a message, without dots at the heads of its lines, and gives the line that was said of each copy."""
        self.say(envelope(users) + data + b".\r\n")
        self.expect(SENDER_OK, *[RECIPIENT_OK] * len(users), START_INPUT)
        return [self.line() for _ in users]

    def note(self):
        """Asks for nothing, and is answered."""
        self.say(b"NOOP\r\n")
        self.expect(b"250 2.0.0 OK")

    def quit(self):
        """Ends it."""
        self.say(b"QUIT\r\n")
        self.expect(b"221 2.0.0 Bye")
        self.expect_end()


class ImapTalk(Talk):
    """One session. A response is a line, or a line with literals in it."""

    def open(self):
        """Is greeted."""
        self.expect(PREAUTH)
        self.tag = 0
        return self

    def response(self):
        """The next response, without its last CR and LF."""
        text = self.line()
        while literal := re.search(rb"\{(\d+)\}$", text):
            text += b"\r\n" + self.take(int(literal[1])) + self.line()
        return text

    def start(self, command):
        """Says a command, under a tag of its own, which it gives."""
        self.tag += 1
        tag = b"t%d" % self.tag
        self.say(tag + b" " + command + b"\r\n")
        return tag

    def finish(self, tag):
        """The responses up to the tagged one, and that one without its tag."""
        untagged = []
        while not (text := self.response()).startswith(tag + b" "):
            untagged.append(text)
        return untagged, text[len(tag) + 1 :]

    def ask(self, command):
        """Says a command, and gives the responses before the tagged one, and that one without its tag."""
        return self.finish(self.start(command))

    def expect_answer(self, command, *untagged):
        """Says a command, which is answered with these responses and OK."""
        answer = self.ask(command)
        verb = b" ".join(command.split(b" ")[: 2 if command.startswith(b"UID ") else 1])
        wanted = (list(untagged), b"OK " + (b"[READ-WRITE] " if verb == b"SELECT" else b"") + verb + b" completed")
        if answer != wanted:
            raise Wrong(f"{answer!r} came in place of {wanted!r}")

    def select(self):
        """Selects INBOX, and gives how many messages there are, and the next UID."""
        untagged, tagged = self.ask(b"SELECT INBOX")
        numbers = re.fullmatch(rb"\* (\d+) EXISTS\n.*\[UIDNEXT (\d+)\].*", b"\n".join(untagged[1:]), re.DOTALL)
        if not numbers or tagged != b"OK [READ-WRITE] SELECT completed":
            raise Wrong(f"SELECT was answered {untagged!r} and {tagged!r}")
        count, following = int(numbers[1]), int(numbers[2])
        if untagged != opening(count, following):
            raise Wrong(f"SELECT was answered {untagged!r}")
        return count, following

    def messages(self):
        """All messages: UID and text of each."""
        return read_messages(*self.ask(FETCH_ALL))

    def quit(self):
        """Ends it."""
        self.expect_answer(b"LOGOUT", b"* BYE Logging out")
        self.expect_end()


def read_messages(untagged, tagged):
    """UID and text of each message, of the answer to `FETCH_ALL`."""
    found = [re.fullmatch(rb"\* \d+ FETCH \(UID (\d+) BODY\[\] \{\d+\}\r\n(.*)\)", text, re.DOTALL) for text in untagged]
    if not all(found) or tagged != b"OK UID FETCH completed":
        raise Wrong(f"a FETCH was answered with {len(untagged)} responses and {tagged!r}")
    return [(int(row[1]), row[2]) for row in found]


def opening(count, following):
    """The six lines that tell of a mailbox with so many messages and this next UID (its UIDVALIDITY is 7)."""
    return [
        b"* FLAGS " + FLAGS,
        b"* %d EXISTS" % count,
        b"* OK [UIDVALIDITY 7] UIDs valid",
        b"* OK [UIDNEXT %d] Predicted next UID" % following,
        b"* OK [PERMANENTFLAGS " + FLAGS + b"] Flags kept",
        b'* LIST () "/" INBOX',
    ]


def _connected(connect, *which):
    try:
        return connect(*which)
    except OSError as error:
        raise Over(f"no connection can be had: {error}") from None


def mail(house):
    """A connection over LMTP that was greeted and has said LHLO."""
    return MailTalk(_connected(house.connect_lmtp)).open()


def session(house, user=0):
    """A session of this user that was greeted."""
    return ImapTalk(_connected(house.connect_imap, user)).open()
