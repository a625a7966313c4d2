#!/usr/bin/env python3
"""What `serve --log` writes to standard error, compared with what the clients of the server are told.

    tests/serving_log.py PROGRAM

- Each copy that was answered has its line: its mailbox, and the UID under which a client sees it with its size, or why it was refused. So has a message that
  was appended. Each connection and each session has a number of its own, and a line as it comes and as it goes. A session that idles has a line, and one that
  missed too many changes.
- At the stop it is told how many there were of each thing.
- Where nobody reads the error stream mail goes on: 20,000 messages are answered. The lines that had no room are counted, and told once the stream is read.
- Without `--log` nothing is written.

It prints a line for each check that fails, and last how many of how many passed.
"""

import os
import re
import subprocess
import sys
import threading

from hostile.checks import PATIENCE, Tally
from serving_house import ADDRESS, House, connect, end_by_exit, free_ports, ports_of
from talks import DELIVERED, MailTalk, Wrong, data_of, envelope, mail, session, standing

FULL = b"452 4.2.2 Mailbox full"
# The least room for changes, and the messages of a mailbox.
SETTINGS = ("--uidvalidity", "7", "--workers", "2", "--messages", "2", "--ring", "16")
# So many messages are brought while nobody reads, so many of them at once.
MANY, AT_ONCE = 20_000, 500


def expect(what, came, wanted):
    """This has to have come."""
    if came != wanted:
        raise Wrong(f"{what}: {came!r} came in place of {wanted!r}")


def find(lines, pattern):
    """The one line that is so, matched."""
    found = [match for match in (re.fullmatch(pattern, line) for line in lines) if match]
    if len(found) != 1:
        raise Wrong(f"{pattern!r} fits {len(found)} lines of {lines!r}")
    return found[0]


class Foldered(House):
    """A server of alice and bob, where alice has a folder."""

    def __init__(self, program, options):
        super().__init__(program, ("alice", "bob", "alice/Work"), options)

    def announcement(self):
        users = "".join(f"IMAP {ADDRESS}:{port} {user}\n" for port, user in zip(self.imap_ports, ("alice", "bob")))
        return f"LMTP {ADDRESS}:{self.mail_port}\n{users}"


def log_of(program, options, visit):
    """What a server of alice and bob writes to standard error whose clients do this, line by line."""
    house = Foldered(program, (*SETTINGS, *options))
    try:
        visit(house)
        expect("the end", house.stop(PATIENCE), 0)
        return house.faults().splitlines()
    finally:
        house.kill()


# ---- clients


def stay(talk, seen):
    """Has a session select INBOX, and keeps what it sees there."""
    talk.select()
    seen.update({uid: len(text) for uid, text in talk.messages()})
    return talk


def lapse(house):
    """A session of alice that misses too many changes of its INBOX, which another makes."""
    late, busy = session(house), session(house)
    late.select()
    busy.select()
    for number in range(20):
        busy.ask(b"UID STORE 1 %sFLAGS (\\Seen)" % (b"+" if number % 2 else b"-"))
    busy.quit()
    late.start(b"NOOP")
    late.expect(b"* BYE Too many changes were missed")
    late.close()


def append(house):
    """A session of alice appends a message to her folder."""
    talk = session(house)
    talk.say(b"a1 APPEND Work {2+}\r\nhi\r\n")
    talk.expect(b"a1 OK [APPENDUID 7 1] APPEND completed")
    talk.tag = 1
    talk.quit()


def idle(house):
    """A session of bob idles, and goes."""
    talk = session(house, 1)
    talk.select()
    talk.start(b"IDLE")
    talk.expect(b"+ idling")
    talk.say(b"DONE\r\n")
    talk.line()
    talk.close()


# ---- what is checked


def tell_copies(program):
    """Copies that are stored and refused, and what a client sees of them."""
    texts = [data_of("one"), data_of("two", 3)]
    seen = {}

    def visit(house):
        peer = mail(house)
        expect("the first", peer.deliver(("alice", "bob"), texts[0]), [DELIVERED] * 2)
        expect("the second", peer.deliver(("alice",), texts[1]), [DELIVERED])
        expect("the third", peer.deliver(("alice", "bob"), texts[0]), [FULL, DELIVERED])
        peer.quit()
        stay(session(house), seen).quit()

    lines = log_of(program, ("--log", "--shards", "1"), visit)
    expect("what alice sees", seen, {1: len(standing(texts[0])), 2: len(standing(texts[1]))})
    number = find(lines, r"lmtp (\d+) open")[1]
    said = [line for line in lines if " message " in line]
    sizes = [len(standing(text)) for text in texts]
    expect(
        "the lines of copies",
        said,
        [
            f"lmtp {number} message 1 alice stored uid 1 {sizes[0]} bytes",
            f"lmtp {number} message 1 bob stored uid 1 {sizes[0]} bytes",
            f"lmtp {number} message 2 alice stored uid 2 {sizes[1]} bytes",
            f"lmtp {number} message 3 alice refused mailbox full",
            f"lmtp {number} message 3 bob stored uid 2 {sizes[0]} bytes",
        ],
    )
    find(lines, rf"lmtp {number} quit")
    caller = find(lines, r"imap alice (\d+) open")[1]
    find(lines, rf"imap alice {caller} quit")
    held = 2 * sizes[0] + sizes[1] + sizes[0]
    summary = ["messages 3", "copies stored 4", "copies refused mailbox full 1", "connections 1", "sessions 1", f"bytes held {held}"]
    # Both copies of a message are put on the one lane before its consumer is notified.
    summary += ["longest lane 2"]
    expect("what is told at the end", lines[-len(summary) :], summary)


def tell_sessions(program):
    """Sessions that append, idle and lapse; and that each has a number of its own."""

    def visit(house):
        peer = mail(house)
        peer.deliver(("alice",), data_of("one"))
        append(house)
        idle(house)
        lapse(house)
        peer.close()
        # The server may still wait for what comes of the peer.
        mail(house).quit()

    lines = log_of(program, ("--log",), visit)
    appended = find(lines, r"imap alice (\d+) message 1 alice/Work stored uid 1 2 bytes")[1]
    find(lines, rf"imap alice {appended} quit")
    idled = find(lines, r"imap bob (\d+) idle")[1]
    find(lines, rf"imap bob {idled} gone")
    lapsed = find(lines, r"imap alice (\d+) lapsed")[1]
    opened = [line.split()[2] for line in lines if re.fullmatch(r"imap alice \d+ open", line)]
    expect("how many sessions alice had", (len(opened), len(set(opened))), (3, 3))
    expect("whether the one that lapsed is among them", lapsed in opened, True)
    calls = [line.split()[1] for line in lines if re.fullmatch(r"lmtp \d+ open", line)]
    expect("how many connections there were", (len(calls), len(set(calls))), (2, 2))


def tell_stop(program):
    """Who is there as the server stops is told off, and the log says so."""

    def visit(house):
        visit.left = [mail(house), session(house), session(house, 1)]

    lines = log_of(program, ("--log",), visit)
    for talk in visit.left:
        talk.close()
    for caller in ("lmtp", "imap alice", "imap bob"):
        find(lines, rf"{caller} \d+ shut")


def write_nothing(program):
    """Without the option nothing is written."""

    def visit(house):
        peer = mail(house)
        peer.deliver(("alice",), data_of("one"))
        peer.quit()

    expect("what is written", log_of(program, (), visit), [])


def bring_many(port):
    """Brings many messages to bob, and counts how often that was delivered."""
    peer = MailTalk(connect(port)).open()
    one = envelope(["bob"]) + data_of("x") + b".\r\n"
    delivered = 0
    for _ in range(MANY // AT_ONCE):
        sender = threading.Thread(target=peer.say, args=(one * AT_ONCE,))
        sender.start()
        delivered += sum(peer.line() == DELIVERED for _ in range(4 * AT_ONCE))
        sender.join()
    peer.quit()
    return delivered


def hold_nobody_up(program):
    """Nobody reads the error stream while many messages come; then it is read to its end."""
    port = free_ports(3)
    words = [program, "serve", *ports_of(port, port + 1), "--uidvalidity", "7", "--log"]
    words += ["--messages", "32768", "--ring", "65536", "alice", "bob"]
    pipe = subprocess.PIPE
    with subprocess.Popen(words, stdin=pipe, stdout=pipe, stderr=pipe, bufsize=0, start_new_session=True) as running:
        try:
            said = b"".join(running.stdout.readline() for _ in range(3))
            expect("its lines", said.count(b"\n"), 3)
            expect("how many are delivered", bring_many(port), MANY)
            _, faults = running.communicate(timeout=PATIENCE)
        except BaseException:
            running.kill()
            raise
    lines = faults.decode().splitlines()
    expect("its status", running.returncode, 0)
    stored = [int(match[1]) for match in (re.fullmatch(r"lmtp \d+ message \d+ bob stored uid (\d+) \d+ bytes", line) for line in lines) if match]
    lost = [int(match[1]) for match in (re.fullmatch(r"log lost (\d+) lines", line) for line in lines) if match]
    expect("whether some had no room", len(lost) >= 2 and lost[-1] > 0, True)
    expect("whether the last tells all that were lost", sum(lost[:-1]), lost[-1])
    others = sum(bool(re.fullmatch(r"lmtp \d+ (open|quit)", line)) for line in lines)
    expect("whether each line was written or counted", len(stored) + others + lost[-1], MANY + 2)
    expect("whether the UIDs rise", stored, sorted(set(stored)))
    expect("how many it counts", [line for line in lines if line.startswith("copies stored")], [f"copies stored {MANY}"])


def checks():
    """Each check: its name, and what is done with the program."""
    yield "each copy has its line, with the UID that a client sees", tell_copies
    yield "sessions append, idle and lapse", tell_sessions
    yield "who is there as the server stops has a line", tell_stop
    yield "nothing is written without the option", write_nothing
    yield "nobody waits for the error stream", hold_nobody_up


def main():
    program = os.path.abspath(sys.argv[1])
    end_by_exit()
    tally = Tally()
    for name, act in checks():
        with tally.case(name):
            act(program)
    print(f"{tally.passed} of {tally.passed + tally.failed} serving with a log")
    sys.exit(1 if tally.failed else 0)


if __name__ == "__main__":
    main()
