#!/usr/bin/env python3
"""A server that is filled: what it refuses where `--memory` is reached, or where the system gives no more, what it keeps then, and when it takes mail again.

    tests/filled.py PROGRAM [--no-address-limit]

- Four relays bring mail until each is refused, under `--memory` and under a limit of address space. Each refusal is `451 4.3.0 Out of memory`. Meanwhile a session idles,
  and is told of each message, and another reads each. What was answered `250` stands once, as it was sent, and nothing else does. Behind an EXPUNGE just as much is taken
  as has room.
- The same by a limit of address space alone, where a connection may be lost too. A message whose answer wasn't read may stand then. Behind an EXPUNGE some mail is taken.
- A text counts once, for three recipients and a copy of COPY, until the last of these is gone.
- A text counts while it is sent to a client, though its last copy is gone: until the client has read it, or has gone away.
- An APPEND is told `NO Out of memory`. The session goes on, and the same APPEND is taken behind an EXPUNGE.
- Texts that make up just the limit are taken, and one byte more isn't. By `--memory 0` nothing is refused.

The server is never killed, and stops in good order. `--no-address-limit` is for a program that can't run under such a limit, as with checks built in: the second case
isn't tried then, and the others without one. It prints a line for a case that fails, and last how many of how many passed; the status is 1 where one fails.
"""

import argparse
import collections
import contextlib
import os
import random
import shlex
import sys
import tempfile
import threading
import time

from hostile.checks import ROOM, Copies, Tally, end, expect_standing
from serving_house import House, end_by_exit
from talks import DELIVERED, NO_MEMORY, OUT_OF_MEMORY, RECIPIENT_OK, SENDER_OK, START_INPUT
from talks import ImapTalk, Over, Silent, Wrong, mail, name_of, read_messages, session, sized_data, standing

USERS = ("alice", "bob", "carol", "dave")
# MB of addresses that a server may have: where `--memory` is reached first, and where nothing else is. Its threads' stacks take 168 of them.
BESIDE, ALONE = 2048, 640
# MB of texts in the first case, and how many bytes of a message stand, at least and at most.
TEXTS, LEAST, MOST = 32, 1_000, 150_000
# So often each relay is refused before it goes.
REFUSALS = 10
# So many seconds a client's going away, and what it held, may take to be noticed.
NOTICED = 10
BIG = 600_000


def expect(what, came, wanted):
    """This has to have come."""
    if came != wanted:
        raise Wrong(f"{what}: {came!r} came in place of {wanted!r}")


def expect_ok(talk, command):
    """Says a command, which is done."""
    if not (tagged := talk.ask(command)[1]).startswith(b"OK "):
        raise Wrong(f"{command!r} was answered {tagged!r}")


def selected(house, user):
    """A session that has selected INBOX."""
    talk = session(house, user)
    talk.select()
    return talk


class Limits:
    """How servers are started: the program, under a limit of address space or without."""

    def __init__(self, program, is_limited, folder):
        self.program, self.is_limited, self.folder = os.path.abspath(program), is_limited, folder

    def under(self, megabytes):
        """A command that is the program under this limit of address space."""
        if not self.is_limited:
            return self.program
        path = os.path.join(self.folder, f"under_{megabytes}")
        with open(path, "w", encoding="utf-8") as script:
            script.write(f'#!/bin/sh\nulimit -v {megabytes * 1024}\nexec {shlex.quote(self.program)} "$@"\n')
        os.chmod(path, 0o755)
        return path


# ---- mail, and what became of it


class Mailbox:
    """What was sent to one user's mailbox, and how many bytes each message has that was answered `250`."""

    def __init__(self, user):
        self.user, self.copies, self.sizes = user, Copies(), {}

    def bring(self, talk, name, size):
        """Brings a message, and gives the last line that was said to it."""
        data = sized_data(name, size)
        self.copies.send(name, data)
        for said, wanted in ((b"MAIL FROM:<s@a.example>", SENDER_OK), (b"RCPT TO:<%s@example.org>" % self.user.encode(), RECIPIENT_OK), (b"DATA", START_INPUT)):
            talk.say(said + b"\r\n")
            if (answer := talk.line()) == OUT_OF_MEMORY:
                talk.say(b"RSET\r\n")
                talk.line()
                return answer
            expect(said.decode(), answer, wanted)
        return self.finish(talk, name, size, data)

    def finish(self, talk, name, size, data):
        """Sends the text. Where no answer comes the message may stand."""
        try:
            talk.say(data + b".\r\n")
            answer = talk.line()
        except (Over, Silent):
            self.copies.settle(name, 0, 1)
            raise
        if answer not in (DELIVERED, OUT_OF_MEMORY):
            raise Wrong(f"a message was answered {answer!r}")
        if answer == DELIVERED:
            self.copies.settle(name, 1, 1)
            self.sizes[name] = size
        return answer

    def held(self):
        """How many bytes stand."""
        return sum(self.sizes.values())

    def look(self, talk):
        """Compares what stands with what was sent, and gives how many messages do."""
        expect_ok(talk, b"NOOP")
        messages = talk.messages()
        self.copies.expect(messages)
        return len(messages)

    def remove(self, talk, share):
        """Removes the first messages, this share of them, and nothing else; and says how many. May be called again where it doesn't come to its end."""
        rows = talk.messages()
        gone = rows[: int(len(rows) * share)]
        for command in (b"UID STORE 1:%d +FLAGS.SILENT (\\Deleted)", b"UID EXPUNGE 1:%d") if gone else ():
            expect_ok(talk, command % gone[-1][0])
        if (left := talk.messages()) != rows[len(gone) :]:
            raise Wrong(f"{len(left)} messages stand behind an EXPUNGE of {len(gone)} of {len(rows)}, or others")
        for name in set(self.copies.data) - {name_of(text) for _, text in left}:
            self.sizes.pop(name, None)
            self.copies.settle(name, -self.copies.least[name], -self.copies.most[name])
        return len(gone)


class Relay(threading.Thread):
    """Brings messages to one mailbox until it is refused so many times."""

    def __init__(self, house, number, mailbox=None):
        super().__init__(daemon=True)
        self.house, self.number, self.mailbox = house, number, mailbox or Mailbox(USERS[number])
        self.chance, self.refusals, self.fault = random.Random(number), collections.Counter(), None

    def run(self):
        try:
            while self.refusals.total() < REFUSALS:
                with contextlib.suppress(Over, Silent):
                    self.serve()
                    continue
                self.refusals["a connection was lost"] += 1
        except Wrong as fault:
            self.fault = fault

    def serve(self):
        """Brings messages on one connection."""
        talk = mail(self.house)
        with contextlib.closing(talk):
            while self.refusals.total() < REFUSALS:
                name = f"{self.number}-{len(self.mailbox.copies.data)}"
                if self.mailbox.bring(talk, name, self.chance.randint(LEAST, MOST)) == OUT_OF_MEMORY:
                    self.refusals["Out of memory"] += 1
            talk.quit()


# ---- sessions beside the relays


class Beside(threading.Thread):
    """A session that does something while mail comes, until it is told to end. It counts the messages that it is told of."""

    def __init__(self, house, user):
        super().__init__(daemon=True)
        self.talk, self.count, self.fault, self.is_ending = selected(house, user), 0, None, threading.Event()

    def run(self):
        try:
            self.act()
            self.talk.quit()
        except (Over, Silent, Wrong) as fault:
            self.fault = fault

    def act(self):
        """What it does."""
        raise NotImplementedError

    def finish(self):
        """Ends it."""
        self.is_ending.set()
        self.join()
        if self.fault:
            raise self.fault


class Idler(Beside):
    """Idles, and is told of each message."""

    def act(self):
        tag = self.talk.start(b"IDLE")
        self.talk.expect(b"+ idling")
        while not self.is_ending.is_set() or self.talk.has_more(0.5):
            if self.talk.has_more(0.1):
                self.count += 1
                self.talk.expect(b"* %d EXISTS" % self.count)
        self.talk.say(b"DONE\r\n")
        expect("IDLE", self.talk.finish(tag), ([], b"OK IDLE completed"))


class Reader(Beside):
    """Reads each message that comes, and looks whether it is what was sent."""

    def __init__(self, house, user, mailbox):
        super().__init__(house, user)
        self.mailbox = mailbox

    def act(self):
        while not self.is_ending.is_set() or self.read_more():
            self.read_more()
            time.sleep(0.01)

    def read_more(self):
        """Reads what came since, and says whether anything did."""
        self.talk.ask(b"NOOP")
        rows, tagged = self.talk.ask(b"UID FETCH %d:* (BODY.PEEK[])" % (self.count + 1))
        messages = read_messages([row for row in rows if not row.endswith(b" EXISTS")], tagged)
        # `n:*` gives the last message where nothing is new.
        fresh = [(uid, text) for uid, text in messages if uid > self.count]
        sent = self.mailbox.copies.data
        for uid, text in fresh:
            self.count += 1
            name = name_of(text)
            if uid != self.count or name not in sent or text != standing(sent[name]):
                raise Wrong(f"UID {uid} behind {self.count - 1} isn't what was sent: {text[:100]!r}")
        return bool(fresh)


# ---- filled by relays


class Filling:
    """A server that four relays fill. A session of each user is there before it is full; `patience` is for how many seconds it, or one that comes in its place, may be refused
    for want of memory."""

    def __init__(self, program, options, patience):
        self.house, self.patience = House(program, USERS, [*ROOM, "--workers", "5", *options]), patience
        self.relays = [Relay(self.house, number) for number in range(len(USERS))]
        self.sessions = [selected(self.house, number) for number in range(len(USERS))]

    def ask(self, number, act):
        """What is done by a user's session."""
        until = time.monotonic() + self.patience
        while True:
            try:
                if self.sessions[number] is None:
                    self.sessions[number] = selected(self.house, number)
                return act(self.sessions[number])
            except (Over, Wrong) as fault:
                is_lost = isinstance(fault, Over)
                if time.monotonic() >= until or not is_lost and "Out of memory" not in str(fault):
                    raise
                if is_lost:
                    self.sessions[number] = None
            time.sleep(0.1)

    def fill(self):
        """Fills it, and gives what the relays were refused by."""
        return bring_all(self.relays)

    def fill_beside(self):
        """The same, while one session idles and another reads: both are told of all that comes."""
        sessions = [Idler(self.house, 0), Reader(self.house, 1, self.relays[1].mailbox)]
        for one in sessions:
            one.start()
        refusals = self.fill()
        for one in sessions:
            one.finish()
        counts = [len(one.mailbox.sizes) for one in self.relays[:2]]
        expect("messages of which the sessions were told", [one.count for one in sessions], counts)
        return refusals

    def held(self):
        """How many bytes stand."""
        return sum(one.mailbox.held() for one in self.relays)

    def expect_all(self):
        """What stands is what was answered `250`."""
        return sum(self.ask(number, one.mailbox.look) for number, one in enumerate(self.relays))

    def remove(self, share):
        """Removes this share of the first user's messages, the first ones, and says how many."""
        return self.ask(0, lambda talk: self.relays[0].mailbox.remove(talk, share))

    def end(self):
        """Looks once more what stands, and ends it."""
        self.expect_all()
        for talk in self.sessions:
            talk.quit()
        end(self.house)

    def refill(self, limit):
        """One relay brings mail anew, until it is refused some times: each message is taken that has room. Gives how often it was."""
        mailbox, talk, chance = self.relays[2].mailbox, mail(self.house), random.Random(9)
        answers = collections.Counter()
        while answers[OUT_OF_MEMORY] < REFUSALS:
            held, size = self.held(), chance.randint(LEAST, MOST)
            answer = mailbox.bring(talk, f"again-{answers.total()}", size)
            expect(f"{size} bytes behind {held}", answer, DELIVERED if held + size <= limit else OUT_OF_MEMORY)
            answers[answer] += 1
        talk.quit()
        return answers[DELIVERED]


def bring_all(relays):
    """These relays bring what they do, all at once, and what they were refused by."""
    for one in relays:
        one.start()
    for one in relays:
        one.join()
    for fault in filter(None, (one.fault for one in relays)):
        raise fault
    return sum((one.refusals for one in relays), collections.Counter())


def fill_to_limit(limits):
    """Filled by relays, by --memory"""
    filling, limit = Filling(limits.under(BESIDE), ["--memory", f"{TEXTS}M"], 0), TEXTS << 20
    expect("what the relays were refused by", set(filling.fill_beside()), {"Out of memory"})
    held = filling.held()
    # Where four relays bring something at once each of these counts for a moment, also what is refused.
    if not limit - len(USERS) * MOST < held <= limit:
        raise Wrong(f"{held} bytes stand under a limit of {limit}")
    print(f"filled: {filling.expect_all()} messages of {held} bytes stood under --memory {TEXTS}M")
    print(f"filled: behind an EXPUNGE of {filling.remove(0.5)} {filling.refill(limit)} more were taken, each that had room")
    filling.end()


def fill_addresses(limits):
    """Filled by relays, by a limit of address space alone"""
    filling = Filling(limits.under(ALONE), [], NOTICED)
    refusals = dict(filling.fill())
    print(f"filled: {filling.expect_all()} messages of {filling.held()} bytes stood under {ALONE} MB of addresses; refusals: {refusals}")
    removed, mailbox = filling.remove(1), filling.relays[2].mailbox
    stood = len(mailbox.sizes)
    bring_all([Relay(filling.house, 2, mailbox)])
    taken = len(mailbox.sizes) - stood
    print(f"filled: behind an EXPUNGE of {removed} {taken} more were taken")
    if not taken:
        raise Wrong("no mail is taken again")
    filling.end()


# ---- what counts, and for how long


def expunge_first(talk):
    """Removes the first message of the mailbox that is selected."""
    expect("STORE", talk.ask(b"STORE 1 +FLAGS.SILENT (\\Deleted)")[1], b"OK STORE completed")
    expect("EXPUNGE", talk.ask(b"EXPUNGE")[1], b"OK EXPUNGE completed")


def log_in(house, user):
    """A session with the compatible profile, whose client has logged in."""
    talk = ImapTalk(house.connect_imap(house.users.index(user)))
    talk.line()
    talk.tag = 0
    expect("LOGIN", talk.ask(b"LOGIN %s x" % user.encode()), ([], b"OK LOGIN completed"))
    return talk


def count_once(limits):
    """A text counts once"""
    house = House(limits.program, ["alice", "bob"], [*ROOM, "--compatible", "--memory", "1M"], folders=["alice/Work"])
    relay, three = mail(house), ["alice", "bob", "alice+work"]
    expect("a message to three", relay.deliver(three, sized_data("first", BIG)), [DELIVERED] * 3)
    alice, bob = log_in(house, "alice"), log_in(house, "bob")
    alice.ask(b"SELECT INBOX")
    expect("COPY", alice.ask(b"COPY 1 Work")[1], b"OK [COPYUID 7 1 2] COPY completed")
    expect("a second message to three", relay.deliver(three, sized_data("second", BIG)), [OUT_OF_MEMORY] * 3)
    for talk, mailbox in ((alice, b"INBOX"), (bob, b"INBOX"), (alice, b"Work"), (alice, b"Work")):
        expect("the second while a copy of the first stands", relay.deliver(["bob"], sized_data("second", BIG)), [OUT_OF_MEMORY])
        talk.ask(b"SELECT " + mailbox)
        expunge_first(talk)
    expect("the second behind the last copy", relay.deliver(three, sized_data("second", BIG)), [DELIVERED] * 3)
    relay.quit()
    alice.ask(b"LOGOUT")
    bob.ask(b"LOGOUT")
    end(house)


class Slow:
    """A client that has begun to read a large message, whose last copy is removed then."""

    # More than the system keeps of it on its way to the client.
    SIZE = 15 << 20

    def __init__(self, house, name):
        self.text, self.talk, remover = sized_data(name, self.SIZE), selected(house, 0), selected(house, 0)
        self.talk.say(b"q FETCH 1 (BODY.PEEK[])\r\n")
        expect("how the answer begins", self.talk.line(), b"* 1 FETCH (BODY[] {%d}" % self.SIZE)
        expunge_first(remover)
        remover.quit()

    def read(self):
        """Reads all of it."""
        if self.talk.take(self.SIZE) != standing(self.text):
            raise Wrong("what was read isn't what was sent")
        self.talk.expect(b")", b"q OK FETCH completed")


def count_until_let_go(limits):
    """A text counts until it is let go"""
    house = House(limits.program, ["alice"], [*ROOM, "--max-message", str(16 << 20), "--memory", "20M"])
    relay, other = mail(house), sized_data("other", 8 << 20)
    for is_patient in (True, False):
        expect("a large message", relay.deliver(["alice"], sized_data("large", Slow.SIZE)), [DELIVERED])
        slow = Slow(house, "large")
        for _ in range(3):
            expect("one beside it while it is read", relay.deliver(["alice"], other), [OUT_OF_MEMORY])
        if is_patient:
            slow.read()
        else:
            slow.talk.reset()
        until = time.monotonic() + (0 if is_patient else NOTICED)
        while (answer := relay.deliver(["alice"], other)) == [OUT_OF_MEMORY] and time.monotonic() < until:
            time.sleep(0.05)
        expect("one behind it", answer, [DELIVERED])
        looking = selected(house, 0)
        expunge_first(looking)
        looking.quit()
        if is_patient:
            slow.talk.quit()
    relay.quit()
    end(house)


def append(talk, text):
    """Appends a message, and gives the tagged answer."""
    tag = talk.start(b"APPEND INBOX {%d}" % len(text))
    talk.expect(b"+ ready")
    talk.say(text + b"\r\n")
    return talk.finish(tag)[1]


def refuse_append(limits):
    """An APPEND that has no room"""
    house = House(limits.program, ["alice"], [*ROOM, "--memory", "1M"])
    talk, texts = selected(house, 0), [standing(sized_data(name, BIG)) for name in ("first", "second")]
    expect("the first", append(talk, texts[0]), b"OK [APPENDUID 7 1] APPEND completed")
    for _ in range(20):
        expect("the second", append(talk, texts[1]), NO_MEMORY)
    talk.expect_answer(b"NOOP")
    expect("what stands", talk.messages(), [(1, texts[0])])
    expunge_first(talk)
    expect("the second behind the first", append(talk, texts[1]), b"OK [APPENDUID 7 2] APPEND completed")
    expect("what stands then", talk.messages(), [(2, texts[1])])
    talk.quit()
    end(house)


def fill_exactly(limits):
    """Just the limit"""
    limit = 1_000_003
    house = House(limits.program, ["alice"], [*ROOM, "--memory", str(limit)])
    relay, talk, rest = mail(house), selected(house, 0), limit - BIG
    expect("the first", relay.deliver(["alice"], sized_data("first", BIG)), [DELIVERED])
    expect("one byte too many", relay.deliver(["alice"], sized_data("more", rest + 1)), [OUT_OF_MEMORY])
    expect("just as many", relay.deliver(["alice"], sized_data("rest", rest)), [DELIVERED])
    talk.ask(b"NOOP")
    expect("the bytes that stand", sum(len(text) for _, text in talk.messages()), limit)
    expect("a byte more", append(talk, b"x"), NO_MEMORY)
    expect("nothing but what delivery puts before it", relay.deliver(["alice"], b""), [OUT_OF_MEMORY])
    expunge_first(talk)
    expect("one byte too many, appended", append(talk, b"x" * (BIG + 1)), NO_MEMORY)
    expect("just as many, appended", append(talk, b"x" * BIG), b"OK [APPENDUID 7 3] APPEND completed")
    expect("a byte more than that", append(talk, b"x"), NO_MEMORY)
    relay.quit()
    talk.quit()
    end(house)


def have_no_limit(limits):
    """No limit"""
    house = House(limits.program, ["alice"], [*ROOM, "--memory", "0"])
    relay, mailbox = mail(house), Mailbox("alice")
    for number in range(40):
        expect("a megabyte more", mailbox.bring(relay, f"{number}", 1 << 20), DELIVERED)
    relay.quit()
    expect_standing(house, mailbox.copies)
    end(house)


def main():
    reader = argparse.ArgumentParser(description="Fills a server.")
    reader.add_argument("program")
    reader.add_argument("--no-address-limit", action="store_true")
    words = reader.parse_args()
    end_by_exit()
    tally = Tally()
    cases = [fill_to_limit, fill_addresses, count_once, count_until_let_go, refuse_append, fill_exactly, have_no_limit]
    if words.no_address_limit:
        cases.remove(fill_addresses)
    with tempfile.TemporaryDirectory() as folder:
        limits = Limits(words.program, not words.no_address_limit, folder)
        for case in cases:
            with tally.case(case.__doc__):
                case(limits)
    print(f"{tally.passed} of {tally.passed + tally.failed} filled")
    sys.exit(0 if tally.failed == 0 else 1)


if __name__ == "__main__":
    main()
