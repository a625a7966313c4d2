#!/usr/bin/env python3
"""A server over sockets of the system: what it says of its listeners, what its clients are told from its start to its stop, and why it doesn't serve.

    tests/serving.py PROGRAM

- A server says each listener on a line, listens on 127.0.0.1 alone, and ends with its input. Where a port is 0 the system chooses it, and the line names it.
- Mail is taken, and shown to a session that idles, until the server stops; a connection that vanishes within a message harms nobody. At the stop a connection
  between commands is told `421`; one within a message is told nothing, and no copy of that is made; a session is told `BYE`, whatever it was about.
- What a client appends is answered with its UID, and shown to another of the same user.
- A connection for which no worker is free is served once the one before it has quit. A server starts at once on ports that another has just left.
- Where there is room on a lane for a copy of each worker and client slot, none is refused for want of it, though all bring messages at once.
- As many workers and slots as there may be are all served; one more is refused as `TooMany`. A port that is taken, a thread that there is no memory for, and
  lines that can't be written, are a fault of a device. Then nothing is announced, the server ends though its input doesn't, and leaves nobody who listens.

What is heard is compared to the byte with what RFC 2033, RFC 4315, RFC 9051, docs/OPERATING.md and docs/STANDARDS.md say, up to the end of the connection,
which comes in good order. A check that takes a minute has failed. It prints a line for each check that fails, and last how many of how many passed.
"""

import contextlib
import errno
import os
import re
import socket
import subprocess
import sys

from hostile.checks import PATIENCE, Tally, end
from serving_house import ADDRESS, DoesNotServe, House, connect, end_by_exit, free_ports, is_gone, ports_of
from talks import DELIVERED, GREETING, HELLO, RECIPIENT_OK, SENDER_OK, START_INPUT
from talks import ImapTalk, MailTalk, Wrong, data_of, envelope, mail, opening, session, standing

WARNING = b"UIDVALIDITY is the same at each start: give --uidvalidity a number that grows, as the time in seconds\n"
DEVICE_FAULT, TOO_MANY = b"post_house: device fault\n", b"post_house: bad configuration: TooMany\n"
# How a server ends that finds a port taken.
TAKEN = (4, b"", DEVICE_FAULT)
# Who else looks for free ports at the same time may take one before the server does. So often a server is tried that is to find them free.
TRIALS = 3

# What is said of a message in one piece, up to the middle of its data, and the replies to that.
HALF = b"LHLO c.example\r\n" + envelope(["alice"]) + b"hi\r\n"
REPLIES_TO_HALF = (GREETING, *HELLO, SENDER_OK, RECIPIENT_OK, START_INPUT)
# The whole of it, and all that is heard then.
WHOLE = HALF + b".\r\nQUIT\r\n"
REPLIES = b"".join(line + b"\r\n" for line in (*REPLIES_TO_HALF, DELIVERED, b"221 2.0.0 Bye"))

# How an APPEND is answered that stored its message.
APPENDED = rb"b\d+ OK \[APPENDUID 7 \d+\] APPEND completed"

# What is heard last, as the server stops.
NOTHING, DISMISSED, BYE = b"", b"421 4.3.2 Shutting down\r\n", b"* BYE Shutting down\r\n"

# So many messages each brings, of so many workers and sessions.
CROWD, WORKERS, SLOTS = 50, 8, 4

# Users, slots of each and workers: with so many, 255 at most, all are served, and with so many none.
SERVED = ((61, 4, 8), (62, 4, 7), (64, 3, 8))
# So many KB of addresses are enough for these, and not for the stacks of all threads.
FEW_ADDRESSES, MANY = 400_000, (64, 3, 8)
REFUSED = ((62, 4, 8), (64, 4, 4))

# How the system's tables write that a socket listens, and the address 127.0.0.1.
LISTENS, LOOPBACK = "0A", f"{int.from_bytes(socket.inet_aton(ADDRESS), sys.byteorder):08X}"
# An address of this machine that isn't the one on which a server listens.
OTHER_ADDRESS = "127.0.0.2"

# What a server of alice and bob says whose ports the system chooses.
CHOSEN = re.compile(rb"LMTP 127\.0\.0\.1:([1-9]\d*)\nIMAP 127\.0\.0\.1:([1-9]\d*) alice\nIMAP 127\.0\.0\.1:([1-9]\d*) bob\n")

# Who finds his port taken: mail, the first user and the second.
PORTS = ("mail", "the first user", "the second user")


# ---- servers and what is heard of them


@contextlib.contextmanager
def serving(program, users, options=(), port=None):
    """A server with UIDVALIDITY 7, which ends with status 0, having said nothing but its lines, and leaves nothing."""
    house = House(program, users, ("--uidvalidity", "7", *options), port=port)
    try:
        yield house
        if house.stop(PATIENCE) is None:
            raise Wrong("it still serves, six seconds after its input ended")
        said = house.said + house.process.stdout.read()
    except BaseException:
        house.kill()
        raise
    end(house)
    expect("its output", said, house.announcement().encode())


def run(program, port, mailboxes, options=(), shell=(), **streams):
    """Runs a server on this port and those behind it to its end, where it leaves nobody who listens; and gives its status, its output and what it wrote to
    standard error."""
    words = [*shell, program, "serve", *ports_of(port, port + 1), *options, *mailboxes]
    with subprocess.Popen(words, stderr=subprocess.PIPE, start_new_session=True, **streams) as running:
        try:
            output, faults = running.communicate()
        except BaseException:
            running.kill()
            raise
    expect("whether it is gone", is_gone(running.pid), True)
    return running.returncode, output, faults


@contextlib.contextmanager
def choosing(program, mail_port, first):
    """A server of alice and bob on these ports, where 0 is left to the system. Gives the ports that it says, on which it listens and on no others."""
    words = [program, "serve", *ports_of(mail_port, first), "--uidvalidity", "7", "alice", "alice/Work", "bob"]
    pipe = subprocess.PIPE
    with subprocess.Popen(words, stdin=pipe, stdout=pipe, stderr=pipe, bufsize=0, start_new_session=True) as running:
        try:
            said = b"".join(running.stdout.readline() for _ in range(3))
            found = CHOSEN.fullmatch(said)
            expect("whether it says its ports", (said, bool(found)), (said, True))
            ports = [int(port) for port in found.groups()]
            expect("where it listens", listens_on(running.pid, "tcp"), sorted(f"{LOOPBACK}:{port:04X}" for port in ports))
            yield ports
            output, faults = running.communicate(timeout=PATIENCE)
        except BaseException:
            running.kill()
            raise
    expect("the end", (running.returncode, output, faults), (0, b"", b""))


@contextlib.contextmanager
def endless():
    """An input that doesn't come to its end."""
    reading, writing = os.pipe()
    try:
        yield reading
    finally:
        os.close(reading)
        os.close(writing)


def expect(what, came, wanted):
    """This has to have come."""
    if came != wanted:
        raise Wrong(f"{what}: {came!r} came in place of {wanted!r}")


def expect_last(talk, wanted):
    """Reads these bytes, and behind them the connection's end, which is no reset."""
    while piece := talk.stream.recv(1 << 16):
        talk.was_read += piece
    expect("at last", talk.take(len(talk.was_read)), wanted)
    talk.close()


# ---- clients


def bring(house):
    """Brings a message in one piece."""
    peer = MailTalk(house.connect_lmtp())
    peer.say(WHOLE)
    expect_last(peer, REPLIES)


def begin(house):
    """A connection within the data of a message."""
    peer = MailTalk(house.connect_lmtp())
    peer.say(HALF)
    peer.expect(*REPLIES_TO_HALF)
    return peer


def select(looking, count):
    """Has a session select INBOX, in which so many messages came and stand."""
    expect("SELECT", looking.select(), (count, count + 1))


def idle(idling):
    """Has a session idle."""
    idling.start(b"IDLE")
    idling.expect(b"+ idling")
    return idling


def idle_in_inbox(house, user=0):
    """A session that idles in the INBOX of this user, which is empty."""
    idling = session(house, user)
    select(idling, 0)
    return idle(idling)


def asked(house, user, text, *answer):
    """A session of this user that has said this in one piece, and was answered so."""
    asking = session(house, user)
    asking.say(text)
    asking.expect(*answer)
    return asking


# ---- what the system tells


def sockets_of(pid):
    """The numbers of the sockets that a process has."""
    folder = f"/proc/{pid}/fd"
    ends = [os.readlink(f"{folder}/{number}") for number in os.listdir(folder)]
    return {found[1] for found in (re.fullmatch(r"socket:\[(\d+)\]", end) for end in ends) if found}


def listens_on(pid, table):
    """The addresses and ports on which a process listens, of those in a table of the system, as they are written there."""
    own = sockets_of(pid)
    with open(f"/proc/net/{table}", encoding="ascii") as lines:
        rows = [line.split() for line in lines][1:]
    return sorted(row[1] for row in rows if row[3] == LISTENS and row[9] in own)


def is_bound(address, port):
    """Whether somebody has this port of this address, or of all addresses."""
    with socket.socket() as other:
        try:
            other.bind((address, port))
        except OSError as error:
            if error.errno != errno.EADDRINUSE:
                raise
            return True
        return False


# ---- what is checked


def tell_listeners(program):
    """A line for mail and for each user, and none for a folder; then the warning, where no UIDVALIDITY is given."""
    for _ in range(TRIALS):
        port = free_ports(3)
        ended = run(program, port, ("alice", "alice/Work", "bob"), stdin=subprocess.DEVNULL, stdout=subprocess.PIPE)
        if ended != TAKEN:
            break
    lines = f"LMTP 127.0.0.1:{port}\nIMAP 127.0.0.1:{port + 1} alice\nIMAP 127.0.0.1:{port + 2} bob\n".encode()
    expect("the end", ended, (0, lines + WARNING, b""))


def listen_on_loopback(program):
    """A server listens on its ports of 127.0.0.1, and nowhere else; another address of the machine has them free."""
    with serving(program, ("alice", "bob")) as house:
        ports = [house.mail_port, *house.imap_ports]
        expect("where it listens", listens_on(house.pid, "tcp"), sorted(f"{LOOPBACK}:{port:04X}" for port in ports))
        expect("where it listens by IPv6", listens_on(house.pid, "tcp6"), [])
        expect("what is taken of another address", [port for port in ports if is_bound(OTHER_ADDRESS, port)], [])
        expect("what is taken of its own", [port for port in ports if is_bound(ADDRESS, port)], ports)


def choose_ports(program, gives_mail, gives_users):
    """Ports that aren't given are chosen by the system, for each user another; so it is with a second server beside this one."""
    free = free_ports(3)
    wanted = [free if gives_mail else 0, free + 1 if gives_users else 0]
    with choosing(program, *wanted) as ports, choosing(program, 0, 0) as others:
        expect("how many ports differ", len({*ports, *others}), 6)
        expect("mail's port", ports[0], wanted[0] or ports[0])
        expect("the users' ports", ports[1:], [free + 1, free + 2] if gives_users else ports[1:])
        for mail_port, *users in (ports, others):
            peer = MailTalk(connect(mail_port))
            peer.say(WHOLE)
            expect_last(peer, REPLIES)
            for port, count in zip(users, (1, 0)):
                looking = ImapTalk(connect(port)).open()
                select(looking, count)
                looking.close()


def take_mail(program, last, last_words):
    """One client goes within a message, two bring one, and a session is shown both; who comes last is told this as the server stops."""
    with serving(program, ("alice", "bob"), ("--workers", "1")) as house:
        looking = session(house)
        begin(house).close()
        bring(house)
        select(looking, 1)
        idle(looking)
        bring(house)
        looking.expect(b"* 2 EXISTS")
        peer = last(house)
        house.close_input()
        expect_last(looking, BYE)
        expect_last(peer, last_words)


def append(program):
    """Two messages are appended, one whose literal waits, and one whose doesn't, with a command behind it; a session that idles is shown both."""
    with serving(program, ("alice",)) as house:
        idling = idle_in_inbox(house)
        peer = asked(house, 0, b"b1 APPEND INBOX (\\Seen) {4}\r\n", b"+ ready")
        peer.say(b"hi\r\n\r\n")
        peer.expect(b"b1 OK [APPENDUID 7 1] APPEND completed")
        peer.say(b"b2 APPEND INBOX {2+}\r\nyo\r\nb3 EXAMINE INBOX\r\n")
        flags, exists, validity, following, _, listed = opening(2, 3)
        peer.expect(b"b2 OK [APPENDUID 7 2] APPEND completed", flags, exists, validity, following)
        peer.expect(b"* OK [PERMANENTFLAGS ()] Flags kept", listed, b"b3 OK [READ-ONLY] EXAMINE completed")
        peer.say(b"b4 FETCH 1:2 BODY.PEEK[]\r\n")
        peer.expect(b"* 1 FETCH (BODY[] {4}", b"hi", b")", b"* 2 FETCH (BODY[] {2}", b"yo)", b"b4 OK FETCH completed")
        idling.expect(b"* 1 EXISTS", b"* 1 FETCH (UID 1 FLAGS (\\Seen))", b"* 2 EXISTS")
        house.close_input()
        for talk in (idling, peer):
            expect_last(talk, BYE)


def dismiss(program):
    """Sessions that idle, with a mailbox and without, that say nothing, and that are within a line or a literal are told BYE; the literal makes no message."""
    with serving(program, ("alice", "bob"), ("--sessions", "4")) as house:
        sessions = [idle_in_inbox(house), idle(session(house)), session(house)]
        sessions += [asked(house, 0, b"x1 NOOP\r\nx2 NO", b"x1 OK NOOP completed")]
        sessions += [idle_in_inbox(house, 1), asked(house, 1, b"x1 APPEND INBOX {4}\r\n", b"+ ready")]
        sessions += [asked(house, 1, b"x1 NOOP\r\nx2 APPEND INBOX {4+}\r\nhi", b"x1 OK NOOP completed")]
        house.close_input()
        for talk in sessions:
            expect_last(talk, BYE)


def start_again(program):
    """Clients are let go as a server stops; another serves on its ports at once, and has none of its messages."""
    for left in reversed(range(TRIALS)):
        try:
            return start_twice(program)
        except DoesNotServe:
            if not left:
                raise


def start_twice(program):
    """One server, and at once another on its ports."""
    with serving(program, ("alice",)) as house:
        idling, peer = idle_in_inbox(house), mail(house)
        bring(house)
        idling.expect(b"* 1 EXISTS")
        house.close_input()
        expect_last(idling, BYE)
        expect_last(peer, DISMISSED)
    with serving(program, ("alice",), port=house.mail_port) as other:
        bring(other)
        select(session(other), 1)


def wait_for_a_worker(program):
    """Who comes while the one worker is busy isn't greeted, and is served once that one's peer has quit."""
    with serving(program, ("alice",), ("--workers", "1")) as house:
        first = mail(house)
        second = MailTalk(house.connect_lmtp())
        second.say(WHOLE)
        expect("whether something came while it waited", second.has_more(0.2), False)
        expect("what was delivered", first.deliver(("alice",), data_of("first")), [DELIVERED])
        expect("whether something came while it waited", second.has_more(0), False)
        first.quit()
        expect_last(second, REPLIES)
        looking = session(house)
        select(looking, 2)
        expect("what stands", looking.messages(), [(1, standing(data_of("first"))), (2, standing(b"hi\r\n"))])


def bring_at_once(program):
    """Mail connections and sessions bring many messages in one piece each, all at once, on one lane with room for a copy of each of them."""
    options = ("--workers", str(WORKERS), "--sessions", str(SLOTS), "--depth", str(WORKERS + SLOTS))
    with serving(program, ("alice",), options) as house:
        peers, sessions = [mail(house) for _ in range(WORKERS)], [session(house) for _ in range(SLOTS)]
        appended = b"".join(b"b%d APPEND INBOX {4+}\r\nhi\r\n\r\n" % number for number in range(CROWD))
        for peer in peers:
            peer.say((envelope(["alice"]) + b"hi\r\n.\r\n") * CROWD)
        for appending in sessions:
            appending.say(appended)
        for peer in peers:
            peer.expect(*(SENDER_OK, RECIPIENT_OK, START_INPUT, DELIVERED) * CROWD)
        answers = [appending.line() for appending in sessions for _ in range(CROWD)]
        expect("what is answered beside OK", [answer for answer in answers if not re.fullmatch(APPENDED, answer)], [])
        for peer in peers:
            peer.quit()
        select(sessions[0], (WORKERS + SLOTS) * CROWD)


def bring_to_many(program):
    """A message for many users goes over lanes with room for one copy: each is emptied where it is full, and behind the last copy for it."""
    users = names(CROWD)
    with serving(program, users, ("--shards", "3", "--depth", "1")) as house:
        peer = mail(house)
        expect("what was delivered", peer.deliver(users, data_of("many")), [DELIVERED] * len(users))
        peer.quit()
        for user in range(len(users)):
            select(session(house, user), 1)


def names(count):
    """So many users."""
    return ["a" * number for number in range(1, count + 1)]


def serve_many(program, users, slots, workers):
    """All slots and all workers are taken at a time."""
    with serving(program, names(users), ("--sessions", str(slots), "--workers", str(workers))) as house:
        sessions = [session(house, user) for user in range(users) for _ in range(slots)]
        peers = [mail(house) for _ in range(workers)]
        expect("what was delivered", peers[-1].deliver(names(users)[-1:], data_of("last")), [DELIVERED])
        select(sessions[-1], 1)
        house.close_input()
        for talk in sessions:
            expect_last(talk, BYE)
        for talk in peers:
            expect_last(talk, DISMISSED)


def refuse_many(program, users, slots, workers):
    """There would be too many workers and slots."""
    port = free_ports(1 + users)
    with endless() as stdin:
        ended = run(program, port, names(users), ("--sessions", str(slots), "--workers", str(workers)), stdin=stdin, stdout=subprocess.PIPE)
    expect("the end", ended, (3, b"", TOO_MANY))


def want_threads(program):
    """There are no addresses for the stacks of all threads."""
    users, slots, workers = MANY
    port, limit = free_ports(1 + users), ("sh", "-c", f'ulimit -v {FEW_ADDRESSES} && exec "$@"', "sh")
    with endless() as stdin:
        options = ("--sessions", str(slots), "--workers", str(workers))
        ended = run(program, port, names(users), options, shell=limit, stdin=stdin, stdout=subprocess.PIPE)
    expect("the end", ended, TAKEN)


def find_port_taken(program, position):
    """Somebody else listens on one of the ports."""
    port = free_ports(3)
    with socket.create_server((ADDRESS, port + position)), endless() as stdin:
        ended = run(program, port, ("alice", "bob"), stdin=stdin, stdout=subprocess.PIPE)
    expect("the end", ended, TAKEN)


def write_in_vain(program, output, shell=()):
    """The lines can't be written to this output."""
    port = free_ports(2)
    with endless() as stdin:
        ended = run(program, port, ("alice",), shell=shell, stdin=stdin, stdout=output)
    expect("the end", ended, (4, None, DEVICE_FAULT))


def write_to_full(program):
    """The output has no room."""
    with open("/dev/full", "wb") as full:
        write_in_vain(program, full)


def write_to_nobody(program):
    """The output is a pipe that nobody reads."""
    reading, writing = os.pipe()
    os.close(reading)
    try:
        write_in_vain(program, writing)
    finally:
        os.close(writing)


def write_to_closed(program):
    """There is no output."""
    write_in_vain(program, None, ("sh", "-c", 'exec "$@" >&-', "sh"))


def checks():
    """Each check: its name, what is done, and with what beside the program."""
    yield "each listener has a line", tell_listeners
    yield "it listens on the loopback address alone", listen_on_loopback
    yield "all ports are chosen", choose_ports, False, False
    yield "the users' ports are chosen", choose_ports, True, False
    yield "mail's port is chosen", choose_ports, False, True
    yield "mail is taken and shown until the server stops", take_mail, mail, DISMISSED
    yield "a message that isn't whole is dropped as the server stops", take_mail, begin, NOTHING
    yield "what is appended is answered and shown", append
    yield "each session is told that the server stops", dismiss
    yield "a server starts on ports that were just left", start_again
    yield "a connection waits for a worker", wait_for_a_worker
    yield "nothing is refused where each has room for a copy", bring_at_once
    yield "nothing is refused of one message for many, whatever room there is", bring_to_many
    for users, slots, workers in SERVED:
        yield f"{users} users with {slots} slots, and {workers} workers", serve_many, users, slots, workers
    for users, slots, workers in REFUSED:
        yield f"{users} users with {slots} slots, and {workers} workers, are too many", refuse_many, users, slots, workers
    for position, name in enumerate(PORTS):
        yield f"the port of {name} is taken", find_port_taken, position
    yield "there is no memory for all threads", want_threads
    yield "the lines find no room", write_to_full
    yield "the lines go to a pipe that nobody reads", write_to_nobody
    yield "the output is closed", write_to_closed


def main():
    program = os.path.abspath(sys.argv[1])
    end_by_exit()
    tally = Tally()
    for name, act, *rest in checks():
        with tally.case(name):
            act(program, *rest)
    print(f"{tally.passed} of {tally.passed + tally.failed} serving")
    sys.exit(1 if tally.failed else 0)


if __name__ == "__main__":
    main()
