"""Peers of a server that are attended all at once: mail connections that send copies, sessions, and what was sent and answered for each mailbox."""

import re
import selectors
import socket
import time

USERS = ("alice", "bob", "carol", "dave")


class Ledger:
    """What was sent and answered for each user's mailbox, and what went wrong."""

    def __init__(self, users):
        self.failures = []
        # Of each mailbox: texts by name, names answered with 250, names refused, and when each 250 was read.
        self.sent = [{} for _ in range(users)]
        self.stored = [set() for _ in range(users)]
        self.refused = [set() for _ in range(users)]
        self.times = [[] for _ in range(users)]
        self.counted = 0
        self.latest = 0.0

    def fail(self, text):
        if text not in self.failures:
            self.failures.append(text)

    def answer(self, user, name, reply):
        """Notes the reply to a copy."""
        if reply == b"250 2.1.5 Delivered":
            self.stored[user].add(name)
            self.times[user].append(time.monotonic())
        elif reply in (b"452 4.3.1 Shard full", b"452 4.2.2 Mailbox full"):
            self.refused[user].add(name)
        else:
            self.fail(f"a copy was answered {reply!r}")


class Peer:
    """One connection: what is to be written, and the lines that were read."""

    reads = True

    def __init__(self, stream, ledger):
        stream.setblocking(False)
        self.stream, self.ledger = stream, ledger
        self.to_write, self.was_read = b"", b""
        self.is_over = False
        # Whether it ended by a close of the other side, and not by a reset.
        self.was_closed = False

    def wanted(self):
        """The events that it waits for."""
        self.fill()
        return (selectors.EVENT_READ if self.reads else 0) | (selectors.EVENT_WRITE if self.to_write else 0)

    def fill(self):
        """Adds what is to be written, if there is more now."""

    def meet(self, events):
        """Does what can be done without waiting."""
        try:
            if events & selectors.EVENT_WRITE:
                self.to_write = self.to_write[self.stream.send(self.to_write[: 1 << 16]) :]
            if events & selectors.EVENT_READ:
                self.take(self.stream.recv(1 << 16))
        except BlockingIOError:
            pass
        except OSError:
            self.is_over = True

    def hang_up(self):
        """Closes this end, which the program waits a little for."""
        try:
            self.stream.shutdown(socket.SHUT_RDWR)
        except OSError:
            pass

    def take(self, piece):
        """Takes what came: nothing at the end."""
        if not piece:
            self.is_over = self.was_closed = True
            return
        self.was_read += piece
        while (used := self.read(self.was_read)) > 0:
            self.was_read = self.was_read[used:]

    def read(self, text):
        """Reads a line, and says how many bytes it has; 0 where it isn't whole."""
        end = text.find(b"\r\n")
        if end < 0:
            return 0
        self.line(text[:end])
        return end + 2

    def line(self, line):
        """One line that was read."""
        raise NotImplementedError


class Sender(Peer):
    """Sends copies over LMTP and keeps a few messages under way."""

    GREETING = [rb"220 mx\.example\.org LMTP ready", rb"250-mx\.example\.org", rb"250-PIPELINING", rb"250-ENHANCEDSTATUSCODES", rb"250 8BITMIME"]

    def __init__(self, stream, ledger, number, chance):
        super().__init__(stream, ledger)
        self.number, self.chance = number, chance
        self.window, self.sent, self.under_way = chance.randint(1, 8), 0, 0
        # What is still to be read: a pattern, or the user and name of a copy.
        self.awaited = [(pattern, None) for pattern in self.GREETING]
        self.to_write = b"LHLO c.example\r\n"
        self.is_dismissed = False

    def fill(self):
        while self.under_way < self.window and not self.to_write[1 << 16 :]:
            self.under_way += 1
            self.to_write += self.message()

    def message(self):
        """The next message: what is written for it, its copies noted as sent and its replies as awaited."""
        name = f"{self.number}-{self.sent}"
        self.sent += 1
        users = self.chance.sample(range(len(self.ledger.sent)), self.chance.randint(1, len(self.ledger.sent)))
        lines = [b"." * self.chance.randint(0, 2) + b"x" * self.chance.randint(0, 70) for _ in range(self.chance.randint(0, 60))]
        head = f"Subject: {name}\r\n\r\n".encode()
        for user in users:
            self.ledger.sent[user][name] = b"Return-Path: <s@a.example>\r\n" + head + b"".join(line + b"\r\n" for line in lines)
        self.expect(users, name)
        to = b"".join(b"RCPT TO:<%s@example.org>\r\n" % USERS[user].encode() for user in users)
        body = b"".join((b"." if line.startswith(b".") else b"") + line + b"\r\n" for line in lines)
        return b"MAIL FROM:<s@a.example>\r\n" + to + b"DATA\r\n" + head + body + b".\r\n"

    def expect(self, users, name):
        """Notes the replies to a message."""
        self.awaited += [(rb"250 2\.1\.0 Sender OK", None)]
        self.awaited += [(rb"250 2\.1\.5 Recipient OK", None)] * len(users)
        self.awaited += [(rb"354 Start mail input", None)]
        self.awaited += [(None, (user, name)) for user in users]

    def line(self, line):
        if self.is_dismissed:
            self.ledger.fail(f"{line!r} came after the 421")
        elif line == b"421 4.3.2 Shutting down":
            self.is_dismissed = True
        elif not self.awaited:
            self.ledger.fail(f"{line!r} came unasked")
        else:
            self.reply(line, *self.awaited.pop(0))

    def reply(self, line, pattern, copy):
        """One reply, and what it had to be."""
        if copy is None:
            if not re.fullmatch(pattern, line):
                self.ledger.fail(f"{line!r} came in place of {pattern!r}")
            return
        self.ledger.answer(*copy, line)
        # The last copy of its message.
        if not self.awaited or self.awaited[0][1] is None:
            self.under_way -= 1


class Session(Peer):
    """A session that reads its lines and is dismissed at the end."""

    def __init__(self, stream, ledger, user):
        super().__init__(stream, ledger)
        self.user = user
        self.is_greeted = self.is_dismissed = False
        self.messages = 0
        self.to_write = b"s SELECT INBOX\r\n"

    def line(self, line):
        exists = re.fullmatch(rb"\* (\d+) EXISTS", line)
        if self.is_dismissed:
            self.ledger.fail(f"{line!r} came after the BYE")
        elif line == b"* BYE Shutting down":
            self.is_dismissed = True
        elif exists:
            self.told(int(exists[1]))
        elif line == b"* PREAUTH IMAP4rev2 server ready":
            self.is_greeted = True
        elif not line.startswith(b"* "):
            self.tagged(line)

    def told(self, messages):
        """It was told that there are so many messages."""
        self.messages = messages

    def tagged(self, line):
        """A line that isn't untagged."""
        raise NotImplementedError

    def expect_whole(self):
        """At the end: a session that was greeted was dismissed, and no line is cut off."""
        if self.is_greeted and not (self.is_dismissed and self.was_closed and not self.was_read):
            self.ledger.fail(f"a session of {USERS[self.user]} ended without its BYE, with {self.was_read[-80:]!r}")


class Attendance:
    """Peers that are attended together."""

    def __init__(self):
        self.peers = []
        self.selector = selectors.DefaultSelector()

    def attend(self, until, end=None, all_over=False):
        """Has the peers read and write until then, or until the program has ended, or until none that reads is left."""
        while (left := until - time.monotonic()) > 0:
            self.register()
            if all_over and all(peer.is_over or not peer.reads for peer in self.peers):
                return
            if not self.meet_all(self.selector.select(min(left, 0.02)), end):
                return

    def meet_all(self, ready, end):
        """Has each peer do what it can, and says whether the program still runs."""
        for key, events in ready:
            if key.fd == end:
                return False
            key.data.meet(events)
        return True

    def register(self):
        """Has the selector watch what each peer waits for."""
        watched = self.selector.get_map()
        for peer in self.peers:
            wanted = 0 if peer.is_over else peer.wanted()
            known = peer.stream.fileno() in watched
            if not wanted and known:
                self.selector.unregister(peer.stream)
            elif wanted and not known:
                self.selector.register(peer.stream, wanted, peer)
            elif wanted and self.selector.get_key(peer.stream).events != wanted:
                self.selector.modify(peer.stream, wanted, peer)
            if peer.is_over:
                peer.hang_up()
