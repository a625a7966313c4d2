#!/usr/bin/env python3
"""A server that is stopped under load, again and again: what was answered `250` stands, nothing stands twice, and it ends at once.

    tests/stops.py PROGRAM [--rounds 100] [--seed N]

Each round starts the program with settings of its own and puts load on it: LMTP connections that send copies without waiting for replies, more of them in
some rounds than there are workers, and some that never read a reply; for each user one session that counts, one that idles, and in some rounds one that
asks and never reads. At a random moment the program's input is closed. Checked is:

- Each copy that was answered `250` stands. Mailboxes end with the program, so a copy is looked for while it runs, up to the stop: the counting session sends
  NOOP and a UID FETCH of what it hasn't seen; what had been answered before that was sent must stand in the answer, with its text. What was answered
  later than the last such command can't be looked for by anybody; how many these were is printed.
- What stands was sent, was not refused, and stands once; UIDs rise by one, and each connection's copies are in the order in which it sent them.
- The idling session is told `* n EXISTS`, n rising by one, no later than half a second after the nth copy was answered, up to the `* BYE`.
- What is read on a connection are whole replies in order; after a `421` comes nothing. A session that reads is told `* BYE Shutting down` last.
- The program ends with status 0 within six seconds, says nothing on standard error, and leaves no process and no listener.

A failure is printed with its round's seed: `--seed N --rounds 1` runs that round again, with the same settings and what the peers mean to send; what
happens when is the machine's.
"""

import argparse
import os
import random
import re
import selectors
import socket
import sys
import time

from peers import USERS, Attendance, Ledger, Sender, Session
from serving_house import House, end_by_exit, share

# So many seconds the program has to end in.
PATIENCE = 6.0
# So many seconds behind an answer an idling session may be told: the machine may be busy with other things.
LATENESS = 0.5
ROOM = ("--messages", "32768", "--ring", "65536", "--uidvalidity", "7")


class DeafSender(Sender):
    """Sends copies, and between them commands with long replies, and never reads: soon the program can't write to it any more."""

    reads = False

    def fill(self):
        if not self.to_write:
            self.to_write = self.message() + b"LHLO c.example\r\n" * 500
            # Nothing of it will be read.
            self.awaited.clear()


class Counter(Session):
    """Looks for each copy that was answered, by command after command."""

    def __init__(self, stream, ledger, user):
        super().__init__(stream, ledger, user)
        # Names of what stands, in the order of the UIDs from 1 on, and the last number of each connection.
        self.names, self.known, self.last_of = [], set(), {}
        # What had to stand once the command that is under way is answered.
        self.owed = set()
        self.row = None

    def tagged(self, line):
        if line in (b"s OK [READ-WRITE] SELECT completed", b"f OK UID FETCH completed"):
            self.check()
            self.ask()
        elif line != b"n OK NOOP completed":
            self.ledger.fail(f"a counting session was answered {line!r}")

    def ask(self):
        """Asks for what it hasn't seen."""
        self.owed = self.ledger.stored[self.user] - self.known
        self.to_write += b"n NOOP\r\nf UID FETCH %d:* (BODY.PEEK[])\r\n" % (len(self.names) + 1)

    def check(self):
        """What was answered before the command stands in the answer."""
        self.ledger.counted += len(self.owed)
        for name in sorted(self.owed - self.known)[:3]:
            self.ledger.fail(f"copy {name} of {USERS[self.user]} was answered 250 and doesn't stand")

    def read(self, text):
        """Reads a line, or a message with the line that it stands in."""
        found = re.match(rb"\* \d+ FETCH \(UID (\d+) BODY\[\] \{(\d+)\}\r\n", text)
        if not found:
            return super().read(text)
        end = found.end() + int(found[2])
        if len(text) < end + 3:
            return 0
        if text[end : end + 3] != b")\r\n":
            self.ledger.fail(f"{text[end : end + 3]!r} came behind a message")
        self.message(int(found[1]), text[found.end() : end])
        return end + 3

    def message(self, uid, text):
        """A message that stands under this UID."""
        subject = re.match(rb"Return-Path: <s@a\.example>\r\nSubject: (\d+)-(\d+)\r\n", text)
        name = f"{int(subject[1])}-{int(subject[2])}" if subject else None
        user = USERS[self.user]
        if uid <= len(self.names) and self.names[uid - 1] == name:
            # `n:*` gives the last message where nothing is new.
            return
        if uid != len(self.names) + 1:
            self.ledger.fail(f"UID {uid} of {user} comes after {len(self.names)}")
        if self.ledger.sent[self.user].get(name) != text:
            self.ledger.fail(f"UID {uid} of {user} isn't what was sent as {name}")
        if name in self.known:
            self.ledger.fail(f"copy {name} of {user} stands twice")
        if name in self.ledger.refused[self.user]:
            self.ledger.fail(f"copy {name} of {user} was refused, and stands")
        self.names.append(name)
        self.known.add(name)
        if subject:
            self.in_order(int(subject[1]), int(subject[2]))

    def in_order(self, connection, number):
        """A connection's copies come in the order in which it sent them."""
        if number < self.last_of.get(connection, 0):
            self.ledger.fail(f"copy {connection}-{number} comes after {connection}-{self.last_of[connection]}")
        self.last_of[connection] = number


class Idler(Session):
    """Idles, and is told of each copy."""

    def __init__(self, stream, ledger, user):
        super().__init__(stream, ledger, user)
        self.to_write += b"i IDLE\r\n"
        self.idles_since = None

    def tagged(self, line):
        if line == b"+ idling":
            self.idles_since = time.monotonic()
        elif line != b"s OK [READ-WRITE] SELECT completed":
            self.ledger.fail(f"an idling session was answered {line!r}")

    def told(self, messages):
        if self.idles_since is None:
            self.messages = messages
            return
        if messages != self.messages + 1:
            self.ledger.fail(f"an idling session was told {messages} after {self.messages}")
        self.messages = messages
        self.late(messages)

    def late(self, messages):
        """It is only now told that there are so many messages, or is dismissed and wasn't told."""
        times = self.ledger.times[self.user]
        if self.idles_since is None or len(times) < messages:
            return
        lateness = time.monotonic() - max(times[messages - 1], self.idles_since)
        self.ledger.latest = max(self.ledger.latest, lateness)
        if lateness > LATENESS:
            self.ledger.fail(f"message {messages} of {USERS[self.user]} was told {lateness:.2f} s late, or never")

    def line(self, line):
        super().line(line)
        if self.is_dismissed:
            self.late(self.messages + 1)


class DeafSession(Session):
    """Asks for all messages again and again, a hundred times a second, and never reads."""

    reads = False
    asked = 0.0

    def fill(self):
        if not self.to_write and time.monotonic() > self.asked + 0.01:
            self.asked = time.monotonic()
            self.to_write = b"n NOOP\r\nf UID FETCH 1:* (BODY.PEEK[])\r\n"

    def expect_whole(self):
        pass


def deaf(stream):
    """The connection, with little room for what isn't read."""
    stream.setsockopt(socket.SOL_SOCKET, socket.SO_RCVBUF, 4096)
    return stream


class Round(Attendance):
    """One start, load, stop and look."""

    def __init__(self, program, seed):
        super().__init__()
        chance = random.Random(seed)
        self.chance = chance
        self.workers = chance.randint(1, 8)
        self.users = USERS[: chance.randint(1, len(USERS))]
        self.load_seconds = chance.uniform(0, 1.2)
        options = [*ROOM, "--workers", str(self.workers), "--sessions", "3"]
        options += ["--shards", str(chance.randint(1, 4)), "--depth", str(chance.choice((1, 4, 64)))]
        self.ledger = Ledger(len(self.users))
        self.house = House(program, self.users, options)
        self.peers = self.senders() + self.sessions()
        self.stop_seconds = None

    def senders(self):
        """The LMTP connections: a few that read; in two rounds of five some that don't."""
        count = self.chance.randint(1, self.workers + 2)
        deaf_ones = self.chance.choice((0, 0, 0, 1, 2))
        connect, ledger = self.house.connect_lmtp, self.ledger
        peers = [DeafSender(deaf(connect()), ledger, 100 + number, self.chance) for number in range(deaf_ones)]
        peers += [Sender(connect(), ledger, number, self.chance) for number in range(count)]
        self.chance.shuffle(peers)
        return peers

    def sessions(self):
        """Two sessions of each user, and in a round of five a deaf one of the first user."""
        peers = [Counter(self.house.connect_imap(user), self.ledger, user) for user in range(len(self.users))]
        peers += [Idler(self.house.connect_imap(user), self.ledger, user) for user in range(len(self.users))]
        if self.chance.random() < 0.2:
            peers.append(DeafSession(deaf(self.house.connect_imap(0)), self.ledger, 0))
        return peers

    def has_deaf(self):
        """Whether some peer never reads."""
        return not all(peer.reads for peer in self.peers)

    def run(self):
        """The whole round; what it found stands in the ledger."""
        try:
            self.attend(until=time.monotonic() + self.load_seconds)
            self.stop()
            for peer in self.peers:
                if isinstance(peer, Session):
                    peer.expect_whole()
                elif peer.reads and peer.was_closed and peer.was_read:
                    self.ledger.fail(f"a connection ended within a reply, with {peer.was_read[-80:]!r}")
        finally:
            self.end()

    def stop(self):
        """Closes the program's input and waits for its end."""
        started = time.monotonic()
        end = os.pidfd_open(self.house.pid)
        self.selector.register(end, selectors.EVENT_READ)
        self.house.close_input()
        self.attend(until=started + PATIENCE, end=end)
        self.stop_seconds = time.monotonic() - started
        self.selector.unregister(end)
        os.close(end)
        self.look_behind()
        # What the program wrote last lies with the connections.
        self.attend(until=time.monotonic() + 1.0, all_over=True)

    def look_behind(self):
        """The status, and what is left."""
        status = self.house.process.poll()
        if status != 0:
            self.ledger.fail(f"the status is {status} after {self.stop_seconds:.2f} s" if status is not None else "it runs six seconds after the stop")
        elif not self.house.leaves_nothing():
            self.ledger.fail("a process or a listener is left")
        if self.house.faults():
            self.ledger.fail(f"standard error: {self.house.faults()!r}")

    def end(self):
        """Nothing of the round is left."""
        for peer in self.peers:
            peer.stream.close()
        self.selector.close()
        self.house.kill()


class Summary:
    """What all rounds came to."""

    def __init__(self):
        self.passed = self.failed = self.stored = self.counted = 0
        self.latest = 0.0
        # How long stops took, without and with peers that never read.
        self.quick, self.slow = [], []

    def add(self, one, name):
        """Adds a round of this name, and prints the first ten of what failed."""
        ledger = one.ledger
        for text in ledger.failures[:10]:
            print(f"{name}: {text}", flush=True)
        self.failed += bool(ledger.failures)
        self.passed += not ledger.failures
        self.stored += sum(map(len, ledger.stored))
        self.counted += ledger.counted
        self.latest = max(self.latest, ledger.latest)
        (self.slow if one.has_deaf() else self.quick).append(one.stop_seconds)

    def print(self):
        """Prints what was seen, and the numbers of rounds last."""
        print(f"{self.stored} copies were answered 250; {self.counted} of them before a command that looked for them")
        print(f"an idling session was told at most {self.latest * 1000:.0f} ms after the answer")
        for name, seconds in (("of readers", self.quick), ("with deaf peers", self.slow)):
            if seconds:
                print(f"{len(seconds)} stops {name}: p50 {share(seconds, 0.5) * 1000:.0f} ms, longest {max(seconds) * 1000:.0f} ms")
        print(f"{self.passed} passed, {self.failed} failed")


def run_rounds(program, rounds, seed):
    """Runs the rounds, whose seeds follow one another, and says whether nothing failed."""
    summary = Summary()
    for number in range(rounds):
        one = Round(program, seed + number)
        one.run()
        summary.add(one, f"round {number}, --seed {seed + number}")
    summary.print()
    if summary.counted == 0:
        print("no copy was looked for: nothing was shown")
    return summary.failed == 0 and summary.counted > 0


def main():
    reader = argparse.ArgumentParser(description="Stops a server under load, again and again.")
    reader.add_argument("program")
    reader.add_argument("--rounds", type=int, default=100)
    reader.add_argument("--seed", type=int, default=None)
    words = reader.parse_args()
    end_by_exit()
    seed = random.SystemRandom().randrange(1 << 31) if words.seed is None else words.seed
    print(f"--seed {seed} --rounds {words.rounds}", flush=True)
    sys.exit(0 if run_rounds(words.program, words.rounds, seed) else 1)


if __name__ == "__main__":
    main()
