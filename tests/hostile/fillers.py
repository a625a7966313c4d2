"""Relays that bring more than the server may hold, as fast as they can; and who is served beside them."""

import random
import threading
import time

from hostile.checks import PATIENCE, end
from serving_house import House
from talks import DELIVERED, OUT_OF_MEMORY, Over, Silent, Wrong, envelope, mail, name_of, read_messages, session, sized_data, standing

# MB of texts that the server may hold; so many relays fill it, with messages of so many bytes.
TEXTS, FILLERS, LEAST, MOST = 32, 3, 100_000, 900_000
MEGABYTE = 1024
# As the unit of examples/ has them.
TUNABLES = {"GLIBC_TUNABLES": "glibc.malloc.mxfast=32:glibc.malloc.trim_threshold=1048576"}


class Peer(threading.Thread):
    """A peer that does one thing again and again until it is told to end. `fault` is what went wrong."""

    def __init__(self, house):
        super().__init__(daemon=True)
        self.house, self.fault, self.is_ending = house, None, threading.Event()
        self.start()

    def run(self):
        try:
            self.open()
            while not self.is_ending.is_set():
                self.go_on()
            self.leave()
        except (Over, Silent, Wrong) as fault:
            self.fault = fault

    def finish(self):
        """Ends it."""
        self.is_ending.set()
        self.join()
        if self.fault:
            raise self.fault


class Filler(Peer):
    """A relay that brings large messages, whatever it is answered."""

    def __init__(self, house, number):
        self.number, self.chance, self.count, self.refused, self.sizes = number, random.Random(number), 0, 0, {}
        super().__init__(house)

    def open(self):
        self.talk = mail(self.house)

    def go_on(self):
        self.count += 1
        name, size = f"{self.number}-{self.count}", self.chance.randint(LEAST, MOST)
        answers = self.talk.deliver(["alice"], sized_data(name, size))
        if answers == [DELIVERED]:
            self.sizes[name] = size
        elif answers == [OUT_OF_MEMORY]:
            self.refused += 1
        else:
            raise Wrong(f"a message was answered {answers!r}")

    def leave(self):
        self.talk.quit()


class Emptier(Peer):
    """A client that reads what the fillers brought, and removes it, again and again. What it has read it tells by name and size."""

    def open(self):
        self.talk, self.read, self.last = session(self.house), {}, 0
        self.talk.select()

    def go_on(self):
        time.sleep(0.3)
        self.empty()

    def leave(self):
        """All is read, since nobody brings any more."""
        self.empty()
        self.talk.quit()

    def empty(self):
        """Reads what came, and removes that."""
        self.ask(b"NOOP")
        rows = self.ask(b"UID FETCH %d:* (BODY.PEEK[])" % (self.last + 1))
        for uid, text in read_messages([row for row in rows if b" FETCH " in row[:30]], b"OK UID FETCH completed"):
            name = name_of(text)
            if uid <= self.last or name in self.read or text != standing(sized_data(name, len(text))):
                raise Wrong(f"UID {uid} behind {self.last} isn't what was sent, or stood before: {text[:100]!r}")
            self.read[name], self.last = len(text), uid
        if self.last:
            self.ask(b"UID STORE 1:%d +FLAGS.SILENT (\\Deleted)" % self.last)
            self.ask(b"UID EXPUNGE 1:%d" % self.last)

    def ask(self, command):
        """Says a command, which is done, and gives what it is answered with."""
        untagged, tagged = self.talk.ask(command)
        if not tagged.startswith(b"OK "):
            raise Wrong(f"{command!r} was answered {tagged!r}")
        return untagged


class Filled:
    """A server with these peers, with one that keeps a message under way, and with a relay and a client whose mail is small."""

    WORKERS = FILLERS + 2

    def __init__(self, program):
        options = ["--uidvalidity", "7", "--workers", str(self.WORKERS), "--memory", f"{TEXTS}M"]
        self.house = House(program, ["alice", "bob"], options, TUNABLES)
        self.relay, self.reader, self.keeper = mail(self.house), session(self.house, 1), mail(self.house)
        self.reader.select()
        self.at_first = self.house.resident()
        self.keeper.say(envelope(["alice"]) + sized_data("kept", 1_000_000))
        self.number = self.refused = 0
        self.longest = 0.0

    def room(self):
        """So many KB it may have resident: the texts, a quarter of these for what the C library loses, of each mail connection a message twice, as it grows, and a row of a
        client (OPERATING, "Memory")."""
        return self.at_first + (TEXTS * 5 // 4 + 2 * self.WORKERS + 1) * MEGABYTE

    def come(self):
        """The fillers come, and the client that takes out what they bring."""
        self.fillers, self.emptier = [Filler(self.house, number) for number in range(FILLERS)], Emptier(self.house)

    def go_on(self, seconds):
        """Small mail comes again until it is taken, as a relay does it; it is read and removed. On a machine with other work it takes longer till a filler is refused."""
        until = time.monotonic() + seconds
        while time.monotonic() < until or (not any(one.refused for one in self.fillers) and time.monotonic() < until + PATIENCE):
            started, self.number = time.monotonic(), self.number + 1
            data = sized_data(f"small-{self.number}", 1_000)
            while (answers := self.relay.deliver(["bob"], data)) == [OUT_OF_MEMORY] and time.monotonic() < started + PATIENCE:
                self.refused += 1
                time.sleep(0.02)
            if answers != [DELIVERED]:
                raise Wrong(f"a small message was answered {answers!r}")
            self.take_out(data)
            self.longest = max(self.longest, time.monotonic() - started)
            time.sleep(0.005)

    def take_out(self, data):
        """The client reads the message, and removes it."""
        self.reader.expect_answer(b"NOOP", b"* 1 EXISTS")
        if self.reader.messages() != [(self.number, standing(data))]:
            raise Wrong("a small message doesn't stand as it was sent")
        self.reader.ask(b"STORE 1 +FLAGS.SILENT (\\Deleted)")
        if (answer := self.reader.ask(b"EXPUNGE"))[1] != b"OK EXPUNGE completed":
            raise Wrong(f"EXPUNGE was answered {answer!r}")

    def leave(self):
        """The fillers go, and all that they were answered `250` for was read once."""
        for one in (*self.fillers, self.emptier):
            one.finish()
        brought = {name: size for one in self.fillers for name, size in one.sizes.items()}
        if brought != self.emptier.read:
            raise Wrong(f"{len(brought)} messages were answered 250, and {len(self.emptier.read)} were read, or others")
        count = sum(one.count for one in self.fillers)
        print(f"fillers: of {count} messages {len(brought)} were taken, {sum(brought.values()) >> 20} MB in all, where {TEXTS} may stand", flush=True)
        if len(brought) == count:
            raise Wrong("nothing was refused")


def fill_up(tally, program, is_quick):
    """Fillers, for as long as this runs."""
    filled = None
    with tally.case("fillers: a server"):
        filled = Filled(program)
    if filled is None:
        return
    with tally.case("fillers: small mail beside them"):
        filled.come()
        filled.go_on(3 if is_quick else 30)
        told = f"{filled.number} were taken and read, each within {filled.longest * 1000:.0f} ms, and {filled.refused} times one was to come again"
        print(f"fillers: of small messages beside them {told}", flush=True)
    with tally.case("fillers: what was answered 250"):
        filled.leave()
    with tally.case("fillers: memory"):
        most = filled.house.resident("VmHWM")
        print(f"fillers: KB resident at first {filled.at_first}, at most {most}, of {filled.room()} that may be", flush=True)
        if most > filled.room():
            raise Wrong(f"{most} KB were resident")
    with tally.case("fillers: the end"):
        filled.keeper.reset()
        filled.relay.quit()
        filled.reader.quit()
        end(filled.house)
