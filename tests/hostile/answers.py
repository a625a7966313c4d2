"""Answers that are hundreds of times as large as what they tell of: to clients that never read, that read a byte a second, and that read all."""

import contextlib
import hashlib
import socket
import time

from hostile.checks import ROOM, end
from serving_house import House
from talks import DELIVERED, Wrong, data_of, mail, session, standing

# So many messages of some 100 KB stand, and one line asks for each so many times: the longest line that is taken has room for them.
MESSAGES, TIMES = 30, 500
PIECE = b"x" * 998 + b"\r\n"
SESSIONS = 4
# So many KB more the server may have for all these answers at once: the room of four sessions' answers, and what the system does with its pages.
SPARE = 2048


def question(tag, times):
    """Asks for all messages, so many times over."""
    line = tag + b" FETCH 1:* (" + b" ".join([b"BODY.PEEK[]"] * times) + b")\r\n"
    if len(line) > 8192:
        raise Wrong("the line is too long")
    return line


def data(number):
    """The data of a message of some 100 KB."""
    return data_of(f"{number}") + PIECE * 100


def rows(times):
    """What is answered, row by row, by the grammar of FETCH (RFC 9051, 7.5.2)."""
    for number in range(1, MESSAGES + 1):
        text = standing(data(number))
        item = b"BODY[] {%d}\r\n" % len(text) + text
        yield b"* %d FETCH (" % number + b" ".join([item] * times) + b")\r\n"


class Filled:
    """A server with these messages, some sessions of whose user ask for too much; and a relay and a client of another user beside them."""

    def __init__(self, program):
        self.house = House(program, ["alice", "bob"], [*ROOM, "--sessions", str(SESSIONS), "--workers", "2"])
        bringing = mail(self.house)
        for number in range(1, MESSAGES + 1):
            if bringing.deliver(["alice"], data(number)) != [DELIVERED]:
                raise Wrong("a message wasn't delivered")
        bringing.quit()
        self.number = 0
        self.beside, self.relay = session(self.house, 1), mail(self.house)
        self.beside.select()
        self.asking = []

    def ask(self, count, times):
        """So many sessions ask, and read nothing yet. They have little room for what comes."""
        for _ in range(count):
            talk = session(self.house)
            talk.stream.setsockopt(socket.SOL_SOCKET, socket.SO_RCVBUF, 4096)
            talk.select()
            talk.say(question(b"q", times))
            self.asking.append(talk)

    def go_on(self, seconds):
        """Mail goes on meanwhile, and a client reads it: the longest that both took."""
        longest, until = 0.0, time.monotonic() + seconds
        while time.monotonic() < until:
            started, self.number = time.monotonic(), self.number + 1
            if self.relay.deliver(["bob"], data_of(f"{self.number}")) != [DELIVERED]:
                raise Wrong("a message wasn't delivered")
            self.beside.expect_answer(b"NOOP", b"* %d EXISTS" % self.number)
            longest = max(longest, time.monotonic() - started)
            time.sleep(0.01)
        return longest

    def close(self):
        """Closes what is left."""
        for talk in self.asking:
            with contextlib.suppress(OSError):
                talk.reset()
        self.asking = []


def within(filled, at_first, what, longest):
    """What the server has beyond its mailboxes may be no more than this."""
    more = filled.house.resident() - at_first
    print(f"answers: {what}: {more} KB more resident; mail beside it took {longest * 1000:.0f} ms at most", flush=True)
    if more > SPARE:
        raise Wrong(f"memory grew by {more} KB")


def be_deaf(filled, seconds):
    """Clients that ask for some 1.5 GB each and read nothing hold their own sessions, and memory for no more than a few rows."""
    at_first = filled.house.resident()
    filled.ask(SESSIONS, TIMES)
    within(filled, at_first, f"{SESSIONS} deaf clients", filled.go_on(seconds))
    filled.close()


def dribble(filled, seconds):
    """Clients that read a byte a second."""
    at_first = filled.house.resident()
    filled.ask(SESSIONS, TIMES)
    longest = 0.0
    for _ in range(seconds):
        for talk in filled.asking:
            talk.stream.recv(1)
        longest = max(longest, filled.go_on(1))
    within(filled, at_first, f"{SESSIONS} clients that read a byte a second", longest)
    filled.close()


def read_all(filled, times):
    """A client that reads all has all of it, and no more."""
    at_first, most = filled.house.resident(), 0
    talk = session(filled.house)
    talk.select()
    talk.say(question(b"q", times))
    wanted = hashlib.sha256()
    left = 0
    for row in rows(times):
        wanted.update(row)
        left += len(row)
    came = hashlib.sha256()
    while left:
        piece = talk.stream.recv(min(left, 1 << 20))
        if not piece:
            raise Wrong(f"the connection was closed before the last {left} bytes")
        came.update(piece)
        left -= len(piece)
        most = max(most, filled.house.resident() - at_first)
    talk.expect(b"q OK FETCH completed")
    talk.quit()
    print(f"answers: all messages {times} times over were read; {most} KB more resident meanwhile", flush=True)
    if came.digest() != wanted.digest():
        raise Wrong("the answer isn't what the messages say")
    if most > SPARE:
        raise Wrong(f"memory grew by {most} KB")


def answer_much(tally, program, is_quick):
    """The crowds, and one who reads all."""
    filled = None
    with tally.case("answers: a server"):
        filled = Filled(program)
    if filled is None:
        return
    with tally.case("answers: deaf clients"):
        be_deaf(filled, 2 if is_quick else 20)
    with tally.case("answers: a byte a second"):
        dribble(filled, 3 if is_quick else 30)
    with tally.case("answers: all of it"):
        read_all(filled, 50 if is_quick else TIMES)
    with tally.case("answers: the end"):
        filled.close()
        filled.relay.quit()
        filled.beside.quit()
        end(filled.house)
