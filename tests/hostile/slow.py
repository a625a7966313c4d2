"""Crowds of connections that keep a server busy, and who waits meanwhile."""

import collections
import contextlib
import errno
import socket
import time

from hostile.checks import PATIENCE, ROOM, end
from serving_house import ADDRESS, House
from talks import DELIVERED, GREETING, PREAUTH, ImapTalk, MailTalk, Wrong, data_of, envelope, mail, session


# So many connections to a port.
CROWD = 200


class Crowd:
    """Connections to one port that keep it busy: by turns one says nothing, one says a byte a second, one asks without end and never reads, and one says
    something that never ends."""

    KINDS = ("silent", "byte", "deaf", "endless")

    def __init__(self, port, talk, question, beginning):
        self.port, self.talk, self.question, self.beginning = port, talk, question, beginning
        self.peers, self.said_at, self.position = [], 0.0, 0

    def add(self, count):
        """So many connections more. Nobody waits here until one is made: the system may not have room."""
        for _ in range(count):
            peer = socket.socket()
            peer.setsockopt(socket.SOL_SOCKET, socket.SO_RCVBUF, 4096)
            peer.setblocking(False)
            peer.connect_ex((ADDRESS, self.port))
            self.peers.append(peer)
            if len(self.peers) % len(self.KINDS) == 0:
                self.send(peer, self.beginning)

    def of_kind(self, kind):
        """The peers of a kind."""
        return self.peers[self.KINDS.index(kind) :: len(self.KINDS)]

    def tick(self):
        """Says what is to be said now."""
        if time.monotonic() >= self.said_at + 1:
            self.said_at = time.monotonic()
            for peer in self.of_kind("byte"):
                self.send(peer, self.talk[self.position % len(self.talk) :][:1])
            self.position += 1
        for peer in self.of_kind("deaf"):
            self.send(peer, self.question)
        for peer in self.of_kind("endless"):
            self.send(peer, b"x" * 32768)

    def send(self, peer, text):
        """Sends what there is room for."""
        with contextlib.suppress(OSError):
            peer.send(text)

    def state(self, peer):
        """What the peer was told: nothing yet, something (which stays there to be read), the end, or that there is no connection."""
        try:
            return "greeted" if peer.recv(1, socket.MSG_PEEK) else "closed without a word"
        except BlockingIOError:
            return "waiting"
        except ConnectionRefusedError:
            return "refused"
        except OSError as error:
            return "never connected" if error.errno in (errno.ENOTCONN, errno.ETIMEDOUT) else "reset without a word"

    def states(self):
        """How many are in each state."""
        return collections.Counter(map(self.state, self.peers))

    def is_connected(self, peer):
        """Whether the system has made the connection."""
        try:
            peer.getpeername()
        except OSError:
            return False
        return True

    def await_greeted(self, count):
        """Waits until so many of them were greeted, and no more."""
        until = time.monotonic() + PATIENCE
        while self.states()["greeted"] < count and time.monotonic() < until:
            time.sleep(0.02)
        if self.states()["greeted"] != count:
            raise Wrong(f"{dict(self.states())} of the first {len(self.peers)}, and not {count} greeted")

    def close(self):
        """Closes all."""
        for peer in self.peers:
            peer.close()


class Dawdling:
    """A server whose workers but one, and the sessions of whose first user, are kept by a crowd; and clients that come where there is room."""

    WORKERS, SESSIONS = 8, 4

    def __init__(self, program):
        self.house = House(program, ["alice", "bob"], [*ROOM, "--workers", str(self.WORKERS), "--sessions", str(self.SESSIONS)])
        bringing = mail(self.house)
        for number in range(20):
            bringing.deliver(["alice"], data_of(f"{number}", 60))
        bringing.quit()
        self.at_first = self.house.resident()
        self.mail_crowd = Crowd(self.house.mail_port, b"LHLO c.example\r\nNOOP\r\nRSET\r\n" * 9, b"LHLO c.example\r\n" * 2000, b"LHLO c.example\r\n" + envelope(["bob"]))
        question = b"d SELECT INBOX\r\n" + b"d UID FETCH 1:* (BODY.PEEK[])\r\n" * 100
        self.crowd = Crowd(self.house.imap_ports[0], b"b SELECT INBOX\r\nb IDLE\r\n" * 9, question, b"e NOOP ")
        self.number, self.longest = 0, 0.0

    def gather(self):
        """The crowd comes: as many as are served, then clients, and then all the others, who wait."""
        self.mail_crowd.add(self.WORKERS - 1)
        self.crowd.add(self.SESSIONS)
        self.mail_crowd.await_greeted(self.WORKERS - 1)
        self.crowd.await_greeted(self.SESSIONS)
        self.mail, self.session = mail(self.house), session(self.house, 1)
        self.session.select()
        self.tag = self.session.start(b"IDLE")
        self.session.expect(b"+ idling")
        self.mail_crowd.add(CROWD - len(self.mail_crowd.peers))
        self.crowd.add(CROWD - len(self.crowd.peers))

    def go_on(self, seconds):
        """Mail comes for the second user, who is told of it, while the crowd does what it does."""
        until = time.monotonic() + seconds
        while time.monotonic() < until:
            self.mail_crowd.tick()
            self.crowd.tick()
            started = time.monotonic()
            self.number += 1
            if self.mail.deliver(["bob"], data_of(f"{self.number}")) != [DELIVERED]:
                raise Wrong("a message wasn't delivered")
            self.session.expect(b"* %d EXISTS" % self.number)
            self.longest = max(self.longest, time.monotonic() - started)
            time.sleep(0.01)

    def expect_waiting(self):
        """Nobody was served beside those that were greeted at first."""
        self.mail_crowd.await_greeted(self.WORKERS - 1)
        self.crowd.await_greeted(self.SESSIONS)

    def end(self):
        """The server ends, and tells the clients so."""
        seconds = end(self.house)
        self.mail.expect(b"421 4.3.2 Shutting down")
        self.mail.expect_end()
        self.session.expect(b"* BYE Shutting down")
        self.session.expect_end()
        return seconds

    def close(self):
        """Closes what is left."""
        self.mail_crowd.close()
        self.crowd.close()
        self.house.kill()


# So many KB more the server may have while it goes on: what stands of the mail that comes, and what the system does with its pages.
DRIFT = 8192


def dawdle(program, seconds):
    """The crowd comes, mail goes on, memory stays, and the end comes in time."""
    dawdling = Dawdling(program)
    try:
        dawdling.gather()
        dawdling.go_on(seconds / 4)
        full = dawdling.house.resident()
        dawdling.go_on(seconds * 3 / 4)
        at_last = dawdling.house.resident()
        dawdling.expect_waiting()
        for name, crowd in (("mail", dawdling.mail_crowd), ("a user", dawdling.crowd)):
            connected = sum(map(crowd.is_connected, crowd.peers))
            print(f"slow: of {CROWD} connections to the port of {name} the system made {connected}; {dict(crowd.states())}")
        print(f"slow: {dawdling.number} messages were delivered and told of beside them in {seconds} s, each within {dawdling.longest * 1000:.0f} ms")
        print(f"slow: KB resident before the crowd {dawdling.at_first}, with it {full}, at last {at_last}")
        if at_last > full + DRIFT:
            raise Wrong(f"memory grew from {full} to {at_last} KB")
        print(f"slow: the end took {dawdling.end():.1f} s; then they are {dict(dawdling.mail_crowd.states() + dawdling.crowd.states())}")
    finally:
        dawdling.close()


def expect_turn(house, connect, first_words):
    """Who waits for a worker or a client slot is greeted once one is free, in the order of coming; who has left meanwhile is passed over."""
    served, leaver, next_one, last = [connect() for _ in range(4)]
    served.expect(first_words)
    if any(talk.has_more(0.5) for talk in (leaver, next_one, last)):
        raise Wrong("one more was greeted than can be served")
    leaver.reset()
    served.close()
    next_one.expect(first_words)
    if last.has_more(0.5):
        raise Wrong("the last one was greeted before its turn")
    next_one.reset()
    last.expect(first_words)
    last.close()


def take_turns(program):
    """Turns at the port of mail and at a user's."""
    house = House(program, ["alice"], [*ROOM, "--workers", "1", "--sessions", "1"])
    expect_turn(house, lambda: MailTalk(house.connect_lmtp()), GREETING)
    expect_turn(house, lambda: ImapTalk(house.connect_imap(0)), PREAUTH)
    end(house)


def be_slow(tally, program, is_quick):
    """Dawdlers, and turns."""
    with tally.case("slow: two crowds"):
        dawdle(program, 4 if is_quick else 20)
    with tally.case("slow: who waits is served in turn"):
        take_turns(program)


# For so many seconds a mail connection may say nothing (RFC 5321, 4.5.3.2.7).
LIMIT = 300


def be_patient(tally, program, _is_quick):
    """A mail connection that says nothing is let go after five minutes, and one that waits is greeted; a session that says nothing stays."""
    with tally.case("patience: five minutes", LIMIT + 60):
        house = House(program, ["alice"], [*ROOM, "--workers", "1", "--sessions", "1"])
        silent, idling, started = mail(house), session(house), time.monotonic()
        waiting = MailTalk(house.connect_lmtp(), LIMIT + 30)
        waiting.expect(GREETING)
        seconds = time.monotonic() - started
        silent.expect_end()
        idling.expect_answer(b"NOOP")
        idling.quit()
        end(house)
        print(f"patience: a silent mail connection was let go after {seconds:.0f} s")
        if not LIMIT - 2 < seconds < LIMIT + 10:
            raise Wrong("that isn't five minutes")
