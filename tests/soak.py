#!/usr/bin/env python3
"""A server under load for a while: mail that comes and goes, peers that vanish, and sessions that idle, read, set flags and remove messages.

    tests/soak.py SECONDS PROGRAM [--seed N]

Eight mail connections send copies to four users; four of them vanish in the middle, again and again, in good order or by a reset, and come back. Each user has four
sessions: one reads each new message, has the old ones marked \\Deleted and expunges them; one idles; one sets flags and takes them away between short
idles; one removes single messages, closes its mailbox, vanishes and comes back. Behind the load what is under way is awaited. Checked is:

- Each copy that was answered `250` was read by its user's first session, once, under the next UID and with the text that was sent; what it read besides are
  copies of peers that vanished behind the end of their data; and each connection's copies come in the order in which it sent them.
- Each session keeps a mirror: the list of messages, made of the lines that it was shown since its SELECT. Each line fits to the mirror as it is then, and at the
  end the mirror has the UIDs and flags that a new session fetches, as far as it was told them, and as many messages.
- What each session saw come and go adds up to the copies that were accepted: what stands, and what was expunged.
- No session is told BYE but as the server stops, the program ends with status 0 within six seconds and says nothing on standard error.

`--seed` gives the same choices, though not the same run: what happens when is the machine's.
"""

import argparse
import collections
import random
import re
import socket
import sys
import time

from peers import USERS, Attendance, Ledger, Sender, Session
from serving_house import House, end_by_exit
from talks import Over, Silent, Wrong, reset, session

# So many seconds the program has to end in, and so many what is under way.
PATIENCE, REST = 6.0, 20.0
OPTIONS = ("--messages", "4096", "--ring", "65536", "--uidvalidity", "7", "--workers", "8", "--sessions", "4", "--shards", "3")
# So many mail connections, of which so many vanish.
CONNECTIONS, VANISHING = 8, 4
# So many messages a mailbox has before the old ones are expunged, and so many stay.
MANY, FEW = 300, 150
FLAGS = (b"\\Answered", b"\\Flagged", b"\\Draft", b"\\Seen")


class Account(Ledger):
    """What was sent and answered, what may stand without an answer, and what was seen."""

    def __init__(self):
        super().__init__(len(USERS))
        # Names of copies that weren't answered, of peers that vanished behind the end of their data.
        self.unanswered = [set() for _ in USERS]
        # How many messages of each user were read, which others may then remove.
        self.read = [0 for _ in USERS]
        self.counts = collections.Counter()

    def vanish(self, user, name, is_whole):
        """A peer vanished that had sent this copy, whole or not, and hadn't read what became of it."""
        (self.unanswered if is_whole else self.refused)[user].add(name)


class PacedSender(Sender):
    """Sends messages with pauses."""

    def __init__(self, stream, account, number, chance):
        super().__init__(stream, account, number, chance)
        self.next_at, self.is_closing = 0.0, False

    def fill(self):
        if not self.is_closing and not self.to_write and time.monotonic() >= self.next_at and self.under_way < self.window:
            self.next_at = time.monotonic() + self.chance.uniform(0, 0.08)
            self.under_way += 1
            self.to_write = self.message()


class Vanisher(PacedSender):
    """Sends messages, and vanishes behind some byte."""

    def __init__(self, stream, account, number, chance):
        super().__init__(stream, account, number, chance)
        self.written, self.last, self.leaves = 0, chance.randint(1, 60_000), False
        # Where each message ends, with its copies, and where the last one does.
        self.ends, self.message_end = [], None

    def message(self):
        known = len(self.awaited)
        text = super().message()
        copies = [copy for _, copy in self.awaited[known:] if copy]
        self.message_end = self.written + len(self.to_write) + len(text)
        self.ends.append((self.message_end, copies))
        return text

    def meet(self, events):
        """Writes no further than to its last byte; behind that it vanishes, and behind some messages."""
        whole = self.to_write
        self.to_write = whole[: max(0, self.last - self.written)]
        allowed = len(self.to_write)
        super().meet(events)
        sent = allowed - len(self.to_write)
        self.written += sent
        self.to_write = whole[sent:]
        is_behind_message = sent > 0 and self.written == self.message_end and self.chance.random() < 0.1
        self.leaves = self.written >= self.last or is_behind_message
        self.is_over = self.is_over or self.leaves

    def hang_up(self):
        """How it goes is settled as it vanishes."""

    def settle(self):
        """Notes what may stand of what it sent."""
        unanswered = {copy for _, copy in self.awaited if copy}
        for position, copies in self.ends:
            for copy in unanswered.intersection(copies):
                self.ledger.vanish(*copy, is_whole=position <= self.written)

    def vanish(self):
        """Goes, by a reset or in good order."""
        self.ledger.counts["peers that vanished"] += 1
        if self.chance.random() < 0.5:
            reset(self.stream)
        else:
            self.stream.close()


class Row:
    """A message of a mirror: its UID and flags, as far as they were told."""

    def __init__(self):
        self.uid = self.flags = None


class Mirror(Session):
    """A session that keeps the list of messages, and does one thing after another."""

    def __init__(self, stream, account, user, chance):
        super().__init__(stream, account, user)
        self.chance, self.rows = chance, []
        self.tag, self.is_selected, self.is_idling, self.is_closing, self.is_quiet = b"s", False, False, False, False
        self.number, self.next_at = 0, 0.0
        # Copies that the mailbox had accepted at SELECT, and messages that came and went since then.
        self.accepted = self.came = self.went = 0
        self.plan = []

    # ---- what it is told

    def read(self, text):
        """Reads a line, or a message with the line that it stands in."""
        found = re.match(rb"\* (\d+) FETCH \(UID (\d+) FLAGS \(([^)]*)\) BODY\[\] \{(\d+)\}\r\n", text)
        if not found:
            return super().read(text)
        end = found.end() + int(found[4])
        if len(text) < end + 3:
            return 0
        if text[end : end + 3] != b")\r\n":
            self.ledger.fail(f"{text[end : end + 3]!r} came behind a message")
        self.show(int(found[1]), int(found[2]), found[3])
        self.message(int(found[2]), text[found.end() : end])
        return end + 3

    def message(self, uid, text):
        """A message that it read."""

    def line(self, line):
        number = re.fullmatch(rb"\* (\d+) (EXISTS|EXPUNGE)", line)
        fetched = re.fullmatch(rb"\* (\d+) FETCH \((?:UID (\d+))? ?(?:FLAGS \(([^)]*)\))?\)", line)
        if self.is_dismissed:
            self.ledger.fail(f"{line!r} came behind the BYE")
        elif number:
            (self.come if number[2] == b"EXISTS" else self.go)(int(number[1]))
        elif fetched:
            self.show(int(fetched[1]), fetched[2] and int(fetched[2]), fetched[3])
        elif line == b"* PREAUTH IMAP4rev2 server ready":
            self.is_greeted = True
        elif line == b"* BYE Shutting down":
            self.is_dismissed = True
        elif line == b"+ idling" and self.tag:
            self.is_idling = True
        elif self.tag and line.startswith(self.tag + b" "):
            self.tagged(line[len(self.tag) + 1 :])
        elif not self.tells_of_mailbox(line):
            self.ledger.fail(f"a session was told {line!r} under {self.tag!r}")

    def tells_of_mailbox(self, line):
        """Whether a line is one of those that a SELECT is answered with."""
        following = re.fullmatch(rb"\* OK \[UIDNEXT (\d+)\] Predicted next UID", line)
        if following:
            self.accepted = int(following[1]) - 1
        return not self.is_selected and line.startswith((b"* FLAGS ", b"* OK [", b"* LIST "))

    def come(self, count):
        """There are so many messages."""
        if not self.is_selected:
            self.rows = [Row() for _ in range(count)]
            return
        self.rows.append(Row())
        self.came += 1
        if count != len(self.rows):
            self.ledger.fail(f"a session was told of {count} messages where it had {len(self.rows) - 1}")

    def go(self, position):
        """The message at this position is gone."""
        self.went += 1
        if not 1 <= position <= len(self.rows):
            self.ledger.fail(f"a session was told that message {position} of {len(self.rows)} is gone")
        else:
            del self.rows[position - 1]

    def show(self, position, uid, flags):
        """What the message at this position is."""
        if not 1 <= position <= len(self.rows):
            self.ledger.fail(f"a session was told of message {position} of {len(self.rows)}")
            return
        row = self.rows[position - 1]
        if uid is not None and row.uid not in (None, uid):
            self.ledger.fail(f"message {position} had UID {row.uid} and has UID {uid}")
        row.uid = row.uid if uid is None else uid
        row.flags = row.flags if flags is None else flags

    def tagged(self, text):
        """The answer to its command."""
        if re.fullmatch(rb"OK (\[READ-WRITE\] )?[A-Z ]+ completed", text):
            self.is_selected = self.is_selected and b"CLOSE" not in text or b"SELECT" in text
        elif text != b"NO [EXPUNGEISSUED] Some messages are gone":
            self.ledger.fail(f"a command was answered {text!r}")
        self.tag, self.is_idling = None, False
        self.ledger.counts["commands"] += 1

    # ---- what it does

    def fill(self):
        """Says the next thing, where nothing is under way."""
        if not self.is_greeted or self.is_quiet or self.is_over or self.to_write or time.monotonic() < self.next_at and not self.is_closing:
            return
        if self.is_idling:
            self.to_write, self.is_idling = b"DONE\r\n", False
        elif self.tag is None:
            self.say(*self.next_command())

    def say(self, command, pause):
        """Says a command; so many seconds later comes the next, or DONE."""
        self.number += 1
        self.tag = b"t%d" % self.number
        self.to_write = self.tag + b" " + command + b"\r\n"
        self.next_at = time.monotonic() + pause

    def next_command(self):
        """The next command, and the pause behind it. At the end it asks for nothing, and is told what there is."""
        if not self.is_selected:
            self.rows, self.came, self.went = [], 0, 0
            return b"SELECT INBOX", 0.0
        if self.is_closing:
            self.is_quiet = True
            return b"NOOP", 0.0
        if not self.plan:
            self.plan = self.make_plan()
        planned = self.plan.pop(0)
        return planned() if callable(planned) else planned

    def make_plan(self):
        """What it does next: commands with the pauses behind them."""
        raise NotImplementedError

    def ask_unknown(self):
        """Asks for what it doesn't know of its messages, if there is any."""
        unknown = [position for position, row in enumerate(self.rows, 1) if row.uid is None or row.flags is None]
        return [(b"FETCH %d:%d (UID FLAGS)" % (unknown[0], unknown[-1]), 0.0)] if unknown else []

    def some(self, count):
        """Some UIDs that it knows, of messages that were read."""
        known = [row.uid for row in self.rows if row.uid is not None and row.uid <= self.ledger.read[self.user]]
        return self.chance.sample(known, min(count, len(known)))


class Keeper(Mirror):
    """Reads each new message, and expunges the old ones."""

    def __init__(self, stream, account, user, chance):
        super().__init__(stream, account, user, chance)
        self.last, self.last_of = 0, {}

    def message(self, uid, text):
        account, user = self.ledger, self.user
        subject = re.match(rb"Return-Path: <s@a\.example>\r\nSubject: (\d+)-(\d+)\r\n", text)
        name = f"{int(subject[1])}-{int(subject[2])}" if subject else None
        if uid == self.last:
            # `n:*` gives the last message where nothing is new.
            return
        if uid != self.last + 1:
            account.fail(f"UID {uid} of {USERS[user]} comes after {self.last}")
        self.last = account.read[user] = uid
        if name in account.refused[user]:
            account.fail(f"copy {name} of {USERS[user]} was refused, or never whole, and stands")
        if account.sent[user].pop(name, None) != text:
            account.fail(f"UID {uid} of {USERS[user]} isn't what was sent as {name}, or stood before")
        account.counts["messages read"] += 1
        if subject and int(subject[2]) <= self.last_of.get(int(subject[1]), -1):
            account.fail(f"copy {name} comes after a later one of its connection")
        if subject:
            self.last_of[int(subject[1])] = int(subject[2])

    def make_plan(self):
        plan = [(b"NOOP", 0.0), (b"UID FETCH %d:* (FLAGS BODY.PEEK[])" % (self.last + 1), 0.1)]
        if len(self.rows) > MANY:
            old = [row.uid for row in self.rows[: len(self.rows) - FEW] if row.uid is not None and row.uid <= self.last]
            if old:
                plan += [(b"UID STORE %d:%d +FLAGS.SILENT (\\Deleted)" % (old[0], old[-1]), 0.0), (b"EXPUNGE", 0.0)]
        return plan


class Watcher(Mirror):
    """Idles."""

    def make_plan(self):
        return [*self.ask_unknown(), (b"IDLE", self.chance.uniform(0.5, 3))]


class Flagger(Mirror):
    """Sets flags and takes them away, and idles in between."""

    def flag(self):
        """Sets or takes flags of some messages."""
        uids = b",".join(b"%d" % uid for uid in self.some(3)) or b"1"
        sign, silent = self.chance.choice((b"+", b"-", b"")), self.chance.choice((b"", b".SILENT"))
        flags = b" ".join(self.chance.sample(FLAGS, self.chance.randint(1, 2)))
        return b"UID STORE %s %sFLAGS%s (%s)" % (uids, sign, silent, flags), 0.02

    def flag_by_position(self):
        """Sets a flag of a message by its position, of those that there are as it is said."""
        if not self.rows:
            return b"NOOP", 0.0
        return b"STORE %d +FLAGS (%s)" % (self.chance.randint(1, len(self.rows)), self.chance.choice(FLAGS)), 0.02

    def make_plan(self):
        plan = [*self.ask_unknown(), (b"IDLE", self.chance.uniform(0.02, 0.4)), self.flag(), self.flag()]
        return [*plan, self.flag_by_position]


class Remover(Flagger):
    """Removes single messages, closes its mailbox, and vanishes now and then, whatever it does."""

    def __init__(self, stream, account, user, chance):
        super().__init__(stream, account, user, chance)
        self.vanishes_at, self.leaves = time.monotonic() + chance.uniform(1, 8), False

    def fill(self):
        if not self.is_closing and time.monotonic() > self.vanishes_at:
            self.is_over = self.leaves = True
        super().fill()

    def hang_up(self):
        """How it goes is settled as it vanishes."""

    def make_plan(self):
        uids = self.some(2)
        plan = [*self.ask_unknown(), self.flag(), (b"IDLE", self.chance.uniform(0.02, 0.2))]
        for uid in uids:
            plan += [(b"UID STORE %d +FLAGS (\\Deleted)" % uid, 0.0), (b"UID EXPUNGE %d" % uid, 0.05)]
        if self.chance.random() < 0.1:
            plan += [(b"CLOSE", 0.0)]
        return plan


SESSIONS = (Keeper, Watcher, Flagger, Remover)


class Soak(Attendance):
    """The server, its load, and the look behind it."""

    def __init__(self, program, seed):
        super().__init__()
        self.chance, self.account = random.Random(seed), Account()
        self.house = House(program, USERS, OPTIONS)
        self.connections = 0
        for number in range(CONNECTIONS):
            self.peers.append(self.sender(Vanisher if number < VANISHING else PacedSender))
        for user in range(len(USERS)):
            self.peers += [self.visitor(kind, user) for kind in SESSIONS]

    def sender(self, kind):
        """A mail connection of this kind."""
        self.connections += 1
        return kind(self.house.connect_lmtp(), self.account, self.connections, random.Random(self.chance.random()))

    def visitor(self, kind, user):
        """A session of this kind."""
        visitor = kind(self.house.connect_imap(user), self.account, user, random.Random(self.chance.random()))
        visitor.to_write, visitor.tag = b"", None
        return visitor

    def of(self, kind):
        """The peers of a kind."""
        return [peer for peer in self.peers if isinstance(peer, kind)]

    def run(self, seconds):
        """The load, and what is under way at its end."""
        until = time.monotonic() + seconds
        while time.monotonic() < until:
            self.attend(until=min(until, time.monotonic() + 0.1))
            self.renew()
        self.await_all(PacedSender, lambda sender: not sender.under_way or sender.is_over)
        self.renew(comes_back=False)
        self.read_all()
        self.await_all(Mirror, lambda mirror: mirror.is_quiet and mirror.tag is None)

    def renew(self, comes_back=True):
        """Peers that are over are replaced where that is their way; that of others is a fault."""
        for position, peer in enumerate(self.peers):
            if peer.is_over and isinstance(peer, (Vanisher, Remover)) and peer.leaves:
                self.peers[position] = self.replace(peer, comes_back)
            elif peer.is_over:
                self.account.fail(f"a {type(peer).__name__} was closed, behind {peer.was_read[-60:]!r}")
        self.peers = list(filter(None, self.peers))

    def replace(self, peer, comes_back):
        """Lets a peer vanish, and gives the one that comes instead, if one does."""
        if peer.stream.fileno() in self.selector.get_map():
            self.selector.unregister(peer.stream)
        if isinstance(peer, Vanisher):
            peer.settle()
            peer.vanish()
            return self.sender(Vanisher) if comes_back else None
        self.account.counts["sessions that vanished"] += 1
        (reset if self.chance.random() < 0.5 else socket.socket.close)(peer.stream)
        return self.visitor(Remover, peer.user)

    def await_all(self, kind, is_done):
        """Has the peers of a kind come to an end of what they do."""
        for peer in self.of(kind):
            peer.is_closing = True
        until = time.monotonic() + REST
        while not all(map(is_done, self.of(kind))) and time.monotonic() < until:
            self.attend(until=time.monotonic() + 0.05)
            self.renew(comes_back=kind is Mirror)
            for peer in self.of(kind):
                peer.is_closing = True
        for peer in self.of(kind):
            if not is_done(peer):
                self.account.fail(f"a {type(peer).__name__} waits still, behind {peer.was_read[-60:]!r}")

    def read_all(self):
        """Has the first session of each user read to the end."""
        until = time.monotonic() + REST
        while time.monotonic() < until and any(self.owed(user) for user in range(len(USERS))):
            self.attend(until=time.monotonic() + 0.1)
            self.renew()
        for user in range(len(USERS)):
            for name in sorted(self.owed(user))[:3]:
                self.account.fail(f"copy {name} of {USERS[user]} was answered 250 and wasn't seen")

    def owed(self, user):
        """Names of copies that were answered 250 and not read."""
        return self.account.stored[user] & self.account.sent[user].keys()

    def look(self):
        """Compares with what a new session sees."""
        for user in range(len(USERS)):
            mirrors = [mirror for mirror in self.of(Mirror) if mirror.user == user]
            try:
                self.compare(user, mirrors, *self.fetch(user, next(mirror for mirror in mirrors if isinstance(mirror, Remover))))
            except (Over, Silent, Wrong, OSError) as fault:
                self.account.fail(f"a look at the mailbox of {USERS[user]} failed: {fault}")

    def fetch(self, user, leaver):
        """What a new session sees, in whose favour one leaves: how many copies were accepted, and the UIDs and flags."""
        if leaver.stream.fileno() in self.selector.get_map():
            self.selector.unregister(leaver.stream)
        self.peers.remove(leaver)
        leaver.stream.close()
        looking = session(self.house, user)
        count, following = looking.select()
        answer = looking.ask(b"UID FETCH 1:* (FLAGS)")
        rows = [re.fullmatch(rb"\* \d+ FETCH \(UID (\d+) FLAGS \(([^)]*)\)\)", line) for line in answer[0]]
        if not all(rows) or len(rows) != count:
            raise Wrong(f"{len(rows)} of {count} messages were fetched")
        looking.quit()
        return following - 1, [(int(row[1]), row[2]) for row in rows]

    def compare(self, user, mirrors, accepted, rows):
        """The mirrors of a user with what stands, and what came and went with what was accepted."""
        account = self.account
        account.counts["copies accepted"] += accepted
        account.counts["messages that stand"] += len(rows)
        stored, unanswered = len(account.stored[user]), len(account.unanswered[user])
        if not stored <= accepted <= stored + unanswered:
            account.fail(f"{accepted} copies of {USERS[user]} were accepted; {stored} were answered 250, {unanswered} weren't answered")
        for mirror in mirrors:
            if mirror.accepted + mirror.came != accepted:
                account.fail(f"a {type(mirror).__name__} saw {mirror.came} copies come behind {mirror.accepted}, and {accepted} were accepted")
            self.compare_mirror(mirror, rows)

    def compare_mirror(self, mirror, rows):
        """A mirror with what stands, as far as it was told."""
        name = f"the mirror of a {type(mirror).__name__} of {USERS[mirror.user]}"
        if len(mirror.rows) != len(rows):
            self.account.fail(f"{name} has {len(mirror.rows)} messages of {len(rows)}")
            return
        for position, (row, (uid, flags)) in enumerate(zip(mirror.rows, rows), 1):
            if row.uid not in (None, uid) or row.flags not in (None, flags):
                self.account.fail(f"{name} has {row.uid} {row.flags!r} at {position}, where {uid} {flags!r} stands")
            self.account.counts["rows compared"] += row.uid is not None and row.flags is not None
            self.account.counts["rows of which not all was told"] += row.uid is None or row.flags is None

    def stop(self):
        """Stops the program, and gives how long that took."""
        for peer in self.peers:
            peer.is_quiet = True
        started = time.monotonic()
        self.house.close_input()
        self.attend(until=started + PATIENCE, all_over=True)
        while self.house.process.poll() is None and time.monotonic() < started + PATIENCE:
            time.sleep(0.01)
        seconds, status = time.monotonic() - started, self.house.process.poll()
        for mirror in self.of(Mirror):
            mirror.expect_whole()
        if status != 0 or self.house.faults():
            self.account.fail(f"the status is {status} after {seconds:.1f} s, and on standard error stands {self.house.faults()!r}")
        return seconds

    def end(self):
        """Nothing is left."""
        for peer in self.peers:
            peer.stream.close()
        self.selector.close()
        self.house.kill()


def soak(program, seconds, seed):
    """The whole of it, and the failures."""
    one = Soak(program, seed)
    try:
        one.run(seconds)
        memory = one.house.resident()
        one.look()
        took = one.stop()
    finally:
        one.end()
    account = one.account
    account.counts["copies answered 250"] = sum(map(len, account.stored))
    account.counts["copies whole and not answered"] = sum(map(len, account.unanswered))
    for name, count in sorted(account.counts.items()):
        print(f"{count:9} {name}")
    print(f"the program had {memory} KB resident at the end of the load, and ended in {took:.2f} s")
    return account.failures


def main():
    reader = argparse.ArgumentParser(description="Has a server under load for a while.")
    reader.add_argument("seconds", type=float)
    reader.add_argument("program")
    reader.add_argument("--seed", type=int, default=None)
    words = reader.parse_args()
    end_by_exit()
    seed = random.SystemRandom().randrange(1 << 31) if words.seed is None else words.seed
    print(f"--seed {seed}", flush=True)
    failures = soak(words.program, words.seconds, seed)
    for text in failures[:20]:
        print(f"FAILED: {text}")
    print(f"{int(not failures)} passed, {int(bool(failures))} failed")
    sys.exit(1 if failures else 0)


if __name__ == "__main__":
    main()
