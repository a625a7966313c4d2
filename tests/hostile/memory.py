"""A server to which one thing is refused that it asks for: an allocation, or a thread."""

import collections
import contextlib
import os
import re
import shutil
import subprocess
import tempfile

from hostile.checks import STRIDE, end
from serving_house import DoesNotServe, House
from talks import DELIVERED, FETCH_ALL, NO_MEMORY, OUT_OF_MEMORY, RECIPIENT_OK, SENDER_OK, START_INPUT
from talks import Over, Wrong, data_of, envelope, mail, name_of, opening, read_messages, session, standing

# Each of so many allocations is refused in turn, behind them one of seven, up to this one.
EACH_REFUSED, MOST_REFUSED = 400, 2000
# So many lives that fail are enough.
ENOUGH = 10
# A server that can't start ends within so many seconds; and one that lost a connection for want of memory is looked at for so long, since there are many.
ENDS_WITHIN, LOOKED_AT = 6, 1


class Kept:
    """What a mailbox has to keep: UID and data of each message, and the next UID."""

    def __init__(self):
        self.rows, self.following = [], 1
        # Whether the first message was told to go, and what became of that wasn't read.
        self.is_doubtful = False

    def add(self, data):
        """A copy stands."""
        self.rows.append((self.following, data))
        self.following += 1

    def expect(self, messages):
        """These stand, and no others."""
        wanted = [(uid, standing(data)) for uid, data in self.rows]
        if messages != wanted and self.is_doubtful:
            del self.rows[0], wanted[0]
        if messages != wanted:
            shown = [(uid, name_of(text)) for uid, text in messages]
            raise Wrong(f"{shown} stand, not {[(uid, name_of(text)) for uid, text in wanted]}, or with other texts")
        self.is_doubtful = False


class Pair:
    """A mail connection and a session beside it, which say what clients say. Notes what is lost, by a connection's end or in one reply."""

    STEPS = (
        ("mail", "greet"),
        ("mail", "bring_two"),
        ("session", "enter"),
        ("session", "look"),
        ("session", "begin_to_idle"),
        ("mail", "bring_one"),
        ("session", "be_told"),
        ("session", "remove_first"),
        ("session", "leave"),
        ("mail", "part"),
    )

    def __init__(self, house, kept):
        self.house, self.kept = house, kept
        self.losses, self.gone = [], set()

    def run(self):
        """Both from the greeting to the end. One that is gone does no more."""
        for who, step in self.STEPS:
            if who not in self.gone:
                try:
                    getattr(self, step)()
                except Over as fault:
                    self.gone.add(who)
                    self.losses.append(f"a {who} connection, which would {step}: {fault}")

    def greet(self):
        """The mail connection's greeting, and LHLO."""
        self.mail = mail(self.house)

    def bring_two(self):
        """A message to one user, twice."""
        self.deliver(f"two-{self.kept.following}", 2)

    def bring_one(self):
        """A message to one user."""
        self.deliver(f"one-{self.kept.following}", 1)

    def deliver(self, name, recipients):
        """Sends a message of some length to one user, so many times over. A copy that isn't answered doesn't stand."""
        data = data_of(name, 200)
        self.mail.say(envelope(["alice"] * recipients) + data + b".\r\n")
        self.mail.expect(SENDER_OK, *[RECIPIENT_OK] * recipients, START_INPUT)
        lines = [self.mail.line() for _ in range(recipients)]
        if set(lines) - {DELIVERED, OUT_OF_MEMORY}:
            raise Wrong(f"a message was answered {lines!r}")
        for _ in range(lines.count(DELIVERED)):
            self.kept.add(data)
        # Memory that is refused for a message is refused for all of its copies.
        if OUT_OF_MEMORY in lines:
            self.losses.append(f"of a message to {recipients} {lines.count(OUT_OF_MEMORY)} copies, answered 451")

    def part(self):
        """The mail connection's end."""
        self.mail.quit()

    def answer(self, command):
        """Says a command, and once more where it is refused for memory, and gives what is answered, which is OK."""
        answer = self.session.ask(command)
        if answer[1] == NO_MEMORY:
            self.losses.append(f"{command.split()[0].decode()}, answered NO")
            answer = self.session.ask(command)
        if not answer[1].startswith(b"OK "):
            raise Wrong(f"{command!r} was answered {answer!r}")
        return answer

    def ask(self, command, *untagged):
        """Says a command, which is answered with these responses, if it isn't refused for memory."""
        lost = len(self.losses)
        answer = self.answer(command)
        if answer[0] != list(untagged) and len(self.losses) == lost:
            raise Wrong(f"{command!r} was answered {answer!r}, not with {untagged!r}")

    def enter(self):
        """The session's greeting, and SELECT."""
        self.session = session(self.house)
        self.ask(b"SELECT INBOX", *opening(len(self.kept.rows), self.kept.following))

    def look(self):
        """Fetches what stands, counts it, and lists mailboxes."""
        texts = enumerate(((uid, standing(data)) for uid, data in self.kept.rows), 1)
        rows = [b"* %d FETCH (UID %d FLAGS () BODY[] {%d}\r\n%s)" % (position, uid, len(text), text) for position, (uid, text) in texts]
        self.ask(b"UID FETCH 1:* (FLAGS BODY.PEEK[])", *rows)
        numbers = (len(self.kept.rows), self.kept.following)
        self.ask(b"STATUS INBOX (MESSAGES UIDNEXT)", b"* STATUS INBOX (MESSAGES %d UIDNEXT %d)" % numbers)
        self.ask(b'LIST "" *', b'* LIST () "/" INBOX')

    def begin_to_idle(self):
        """Begins to idle."""
        self.shown = len(self.kept.rows)
        self.idle_tag = self.session.start(b"IDLE")
        if (line := self.session.line()) == self.idle_tag + b" " + NO_MEMORY:
            self.losses.append("IDLE, answered NO")
            self.idle_tag = self.session.start(b"IDLE")
            line = self.session.line()
        if line != b"+ idling":
            raise Wrong(f"IDLE was answered {line!r}")

    def be_told(self):
        """Is told of what came, at the latest when it idles no more."""
        news = [b"* %d EXISTS" % len(self.kept.rows)] if len(self.kept.rows) > self.shown else []
        if news and self.session.has_more(1.0):
            self.session.expect(news.pop())
        elif news:
            self.losses.append("a line to one that idles, which came later")
        self.session.say(b"DONE\r\n")
        answer = self.session.finish(self.idle_tag)
        if answer[1] == NO_MEMORY:
            self.losses.append("DONE, answered NO")
            answer = (answer[0] + self.answer(b"NOOP")[0], b"OK IDLE completed")
        if answer != (news, b"OK IDLE completed"):
            raise Wrong(f"DONE was answered {answer!r}, not with {news!r}")

    def remove_first(self):
        """Has the first message marked \\Deleted, and expunges it."""
        if self.kept.rows:
            self.kept.is_doubtful = True
            told = b"* 1 FETCH (UID %d FLAGS (\\Deleted))" % self.kept.rows[0][0]
            self.ask(b"UID STORE %d +FLAGS (\\Deleted)" % self.kept.rows[0][0], told, told)
            self.ask(b"EXPUNGE", b"* 1 EXPUNGE")
            del self.kept.rows[0]
            self.kept.is_doubtful = False

    def leave(self):
        """The session's end."""
        self.ask(b"LOGOUT", b"* BYE Logging out")
        self.session.expect_end()


class Look(Pair):
    """A session that looks at what stands."""

    STEPS = (("session", "see"),)

    def see(self):
        """Compares what stands."""
        self.session = session(self.house)
        self.answer(b"SELECT INBOX")
        self.kept.expect(read_messages(*self.answer(FETCH_ALL)))
        # One that was to go, and whose session was gone before it did, has a flag still.
        self.answer(b"UID STORE 1:* FLAGS.SILENT ()")
        self.leave()


class RefusingHouse:
    """A server to which one thing is refused that it asks for, and the clients that it serves then."""

    # One of each, so that the next client comes where the one before was.
    OPTIONS = ("--workers", "1", "--sessions", "1", "--depth", "2", "--ring", "16", "--messages", "8", "--uidvalidity", "7")
    # By what is refused: the status where it can't start, and what it says then.
    REFUSALS = {"REFUSE_AT": (5, "post_house: out of memory\n"), "SPAWN_AT": (4, "post_house: device fault\n")}

    def __init__(self, program, library, kind, number):
        self.program, self.kind = program, kind
        self.met_at = library + ".met"
        self.environment = {"LD_PRELOAD": library, kind: str(number), "MET_AT": self.met_at}
        self.house, self.losses, self.kept = None, [], Kept()

    def was_met(self):
        """Whether it was refused by now."""
        return os.path.exists(self.met_at)

    def run(self):
        """A whole life, and what became of the refusal; None where it wasn't met."""
        with contextlib.suppress(FileNotFoundError):
            os.unlink(self.met_at)
        try:
            self.house = House(self.program, ["alice"], self.OPTIONS, self.environment)
            return self.serve()
        except DoesNotServe as fault:
            return self.not_served(fault)
        finally:
            if self.house:
                self.house.kill()

    def not_served(self, fault):
        """It ended before it said that it listens, and said why."""
        told = (fault.status, fault.faults)
        # Where the memory of a thread is refused there is no thread.
        if told not in (self.REFUSALS[self.kind], self.REFUSALS["SPAWN_AT"]) or fault.said or not self.was_met():
            raise Wrong(f"it doesn't serve; its status, and what it says: {told}, behind {fault.said!r}")
        return f"it doesn't start, and its status is {fault.status}"

    def serve(self):
        """Clients come, and others where the refusal is met by then; it is stopped."""
        self.come(Pair)
        self.come_and_look()
        if self.was_met():
            self.come(Pair)
            self.come_and_look()
        was_met = self.was_met()
        end(self.house)
        if self.losses:
            return re.sub(r":.*", "", self.losses[0])
        return ("nothing is lost" if was_met else "it is met at the end") if self.was_met() else None

    def come(self, kind):
        """Such clients come, and lose one thing at most, of all that come, and nothing where the refusal was met before. Gives what is lost."""
        was_met = self.was_met()
        pair = kind(self.house, self.kept)
        pair.run()
        if pair.gone and not self.kept.rows and self.has_ended(ENDS_WITHIN if self.kind == "SPAWN_AT" else LOOKED_AT):
            raise DoesNotServe(self.house)
        self.losses += pair.losses
        if pair.losses and (was_met or not self.was_met() or self.losses[1:]):
            raise Wrong(f"{self.losses} are lost" + (", the last behind the refusal" if was_met else ""))
        return pair.losses

    def come_and_look(self):
        """Looks whether the right messages stand."""
        if self.come(Look):
            self.come(Look)

    def has_ended(self, within):
        """Whether it ends by itself within so many seconds."""
        try:
            return self.house.process.wait(within) is not None
        except subprocess.TimeoutExpired:
            return False


def build_library(room):
    """Builds what refuses, and gives its path."""
    compiler = next(filter(None, map(shutil.which, (os.environ.get("CC") or "cc", "gcc", "clang"))), None)
    if not compiler:
        raise Wrong("there is no C compiler")
    source, library = os.path.join(os.path.dirname(__file__), os.pardir, "refuse.c"), os.path.join(room, "refuse.so")
    subprocess.run([compiler, "-O1", "-shared", "-fPIC", "-o", library, source, "-ldl"], check=True)
    return library


def refuse_each(tally, program, library, kind, stride):
    """Lives in which one is refused, one of so many in turn, until a life meets none."""
    outcomes, number, is_met = collections.Counter(), 1, True
    while is_met:
        # Where a case fails it isn't known whether there are more.
        outcome = "it fails"
        with tally.case(f"{kind}={number}", 90):
            outcome = RefusingHouse(program, library, kind, number).run()
        outcomes[outcome] += 1
        is_met = outcome is not None and number < MOST_REFUSED and outcomes["it fails"] < ENOUGH
        number += stride if number < EACH_REFUSED else max(stride, STRIDE)
    name = {"REFUSE_AT": "allocation", "SPAWN_AT": "thread"}[kind]
    print(f"memory: in turn one {name} was refused, in {sum(outcomes.values())} lives of a server:")
    for outcome, count in sorted(outcomes.items(), key=str):
        print(f"    {count:4} times: {outcome or 'none was met'}")


def refuse_memory(tally, program, is_quick):
    """Each allocation is refused, and each thread."""
    room = tempfile.mkdtemp()
    try:
        library = None
        with tally.case("memory: what refuses is built"):
            library = build_library(room)
        if library:
            refuse_each(tally, program, library, "REFUSE_AT", STRIDE if is_quick else 1)
            refuse_each(tally, program, library, "SPAWN_AT", 1)
    finally:
        shutil.rmtree(room)
