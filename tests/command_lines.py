#!/usr/bin/env python3
"""What the program does with its words: exit status, standard output and standard error, as docs/OPERATING.md and the README tell them.

    tests/command_lines.py PROGRAM

Words that are refused, settings that are wrong, help and version; names that are set; a server on free ports whose input is at its end at once; how many peers
one serves at a time; which texts are limits on memory, and which messages a server takes under one. That each number reaches its own setting the worked cases
show.
"""

import os
import re
import select
import socket
import subprocess
import sys
import time

WARNING = "UIDVALIDITY is the same at each start: give --uidvalidity a number that grows, as the time in seconds\n"

# Words that clap refuses: status 2, nothing on the output, and a text on standard error.
REFUSED = (
    "",
    "script",
    "serve",
    "host alice",
    "script --shards 9 alice",
    "script --depth 0 alice",
    "script --depth 1025 alice",
    "script --depth +5 alice",
    "script --depth five alice",
    "script --depth 2 --depth 2 alice",
    "script --ring=15 alice",
    "script --uidvalidity 4294967296 alice",
    "script --lmtp-port 2424 alice",
    "serve --workers 0 alice",
    "serve --sessions 5 alice",
    "serve --compatible --sessions 17 alice",
    "serve --imap-port 80 alice",
    "serve --imap-port 1023 alice",
    "serve --imap-port 65473 alice",
    "serve --imap-port 00001 alice",
    "script --json=true alice",
    "script --json --json alice",
    "serve --json alice",
    "serve --lmtp-port 65536 alice",
    (b"script", b"\xff"),
    "script --memory 1M alice",
    "serve --memory alice",
    "serve --memory 1M --memory 1M alice",
)

# Texts that are no sizes, or sizes of 2 ^ 64 bytes and more: of 1K there are 2 ^ 54 in these, of 1M 2 ^ 44, of 1G 2 ^ 34.
NO_SIZES = (
    "",
    "K",
    "G",
    "M1",
    "+5",
    "-5",
    "+5K",
    "5k",
    "5m",
    "5g",
    "5T",
    "5B",
    "5KB",
    "5KiB",
    "5KK",
    "5 K",
    " 5",
    "5 ",
    "5.5M",
    "1_000",
    "0x10",
    "5\u0661",
    "five",
    "18446744073709551616",
    "18014398509481984K",
    "17592186044416M",
    "17179869184G",
    "18446744073709551616G",
    "99999999999999999999999999999",
)

# Sizes: none is no limit, and there the greatest of each unit are.
SIZES = ("0", "0K", "00G", "1", "007", "4096", "64K", "800M", "2G", "18446744073709551615", "18014398509481983K", "17592186044415M", "17179869183G")

# Settings that are wrong: status 3, nothing on the output, and their first fault. Words and options come in any order; what follows `--` is a mailbox, and
# so is a word of no bytes. Where several faults are there, the first is told: TooMany, BadName, Twice, Ring, Ports.
WRONG = (
    ("script --ring 16 --messages 9 alice", "Ring"),
    ("script alice --ring=16 alice/Work --messages 9", "Ring"),
    ("script --ring=16 --messages=9 -- alice", "Ring"),
    ("script --ring=32 --messages=9 --ring-max=31 alice", "Ring"),
    ("script -- alice --DEPTH", "BadName"),
    ("script alice alice", "Twice"),
    (("script", ""), "BadName"),
    ("serve --lmtp-port 25 alice", "Ports"),
    ("serve --lmtp-port 25 --imap-port 0 alice", "Ports"),
    ("serve --lmtp-port 14301 alice bob", "Ports"),
    ("serve --lmtp-port 0 --imap-port 0 alice alice", "Twice"),
    ("script --ring 2047 alice alice/Work", "Ring"),
    ("script --ring-max 2047 alice alice/Work", "Ring"),
    ("serve --lmtp-port 25 --ring 2047 alice", "Ring"),
    ("script --ring 16 alice alice", "Twice"),
    ("script --host= --ring 16 alice alice", "BadName"),
    ("script --host= --ring 16" + " *" * 65, "TooMany"),
)

# Settings that are just right: status 0, and nothing is said of an empty script.
RIGHT = (
    "script --ring 2048 alice alice/Work",
    "script --ring-max 2048 alice alice/Work",
    "script --json alice",
    "script alice --json",
)

# Names that are given, and the reply to each line that they show in. That each number reaches its own setting the worked cases show, where they are set.
NAMES = "script --host=mail.b.example --domain b.example alice"
NAMES_INPUT = "L1 LHLO c.example\nL1 MAIL FROM:<s@a.example>\nL1 RCPT TO:<alice@b.example>\nL1 RCPT TO:<alice@example.org>\n"
NAMES_REPLIES = ("220 mail.b.example LMTP ready", "250-mail.b.example", "250 2.1.0 Sender OK", "250 2.1.5 Recipient OK", "550 5.1.2 Domain unknown")

# Servers whose ports the system chooses, both of them or one: whether mail's port is given, and whether the first user's is.
CHOSEN = ((False, False), (True, False), (False, True))
CHOSEN_LINES = re.compile(r"LMTP 127\.0\.0\.1:([1-9]\d*)\nIMAP 127\.0\.0\.1:([1-9]\d*) alice\n")

# Servers whose peers are so many at a time: the options, how many of them connect to each port, and how many are greeted at once there.
CROWDS = (
    ("--workers=1 --sessions=2", 3, (1, 2)),
    ("--workers=2 --sessions=1", 3, (2, 1)),
)

# Limits on the bytes of texts, and which of three messages are taken: of 1,440, 2,880 and 360 bytes, and less than 100 for what stands before each.
MESSAGES = (20, 40, 5)
MESSAGE_LINE = b"x" * 70 + b"\r\n"
LIMITS = (
    ("", (True, True, True)),
    ("--memory=0", (True, True, True)),
    ("--memory=0G", (True, True, True)),
    ("--memory=1G", (True, True, True)),
    ("--memory=3M", (True, True, True)),
    ("--memory=2K", (True, False, True)),
    ("--memory=1600", (True, False, False)),
    ("--memory=2", (False, False, False)),
)

failures = []


def run(program, words, said=""):
    words = words.split() if isinstance(words, str) else list(words)
    return subprocess.run([program, *words], input=said, capture_output=True, text=True, timeout=20)


def check(words, holds, ended):
    if not holds:
        failures.append(f"{words!r}: status {ended.returncode}, output {ended.stdout!r}, faults {ended.stderr!r}")


def free_ports(count):
    """So many ports that are free, and that a server may have."""
    sockets = [socket.socket() for _ in range(count)]
    for one in sockets:
        one.bind(("127.0.0.1", 0))
    ports = [one.getsockname()[1] for one in sockets]
    for one in sockets:
        one.close()
    return ports


def stops_at_once(program, more, behind):
    mail, sessions = free_ports(2)
    words = f"serve --lmtp-port={mail} --imap-port={sessions} {more} alice"
    ended = run(program, words)
    told = f"LMTP 127.0.0.1:{mail}\nIMAP 127.0.0.1:{sessions} alice\n{behind}"
    check(words, (ended.returncode, ended.stdout, ended.stderr) == (0, told, ""), ended)


def chooses(program, gives_mail, gives_users):
    """A server says the ports that it was left to choose, and those that it was given."""
    given = [port if gives else 0 for port, gives in zip(free_ports(2), (gives_mail, gives_users))]
    words = f"serve --lmtp-port={given[0]} --imap-port={given[1]} --uidvalidity=9 alice"
    ended = run(program, words)
    found = CHOSEN_LINES.fullmatch(ended.stdout)
    ports = [int(port) for port in found.groups()] if found else []
    are_right = len(set(ports)) == 2 and max(ports) < 65536 and all(wanted in (0, port) for wanted, port in zip(given, ports))
    check(words, are_right and (ended.returncode, ended.stderr) == (0, ""), ended)


def greeted(port, count):
    """How many of so many peers that connect one after another are greeted within a second."""
    peers = [socket.create_connection(("127.0.0.1", port)) for _ in range(count)]
    ready, until = set(), time.monotonic() + 1
    while len(ready) < count and time.monotonic() < until:
        ready.update(select.select(peers, (), (), until - time.monotonic())[0])
        time.sleep(0.01)
    for peer in peers:
        peer.close()
    return len(ready)


def serves_crowd(program, options, count, wanted):
    mail, sessions = free_ports(2)
    words = f"serve --lmtp-port={mail} --imap-port={sessions} --uidvalidity=9 {options} alice"
    with subprocess.Popen([program, *words.split()], stdin=subprocess.PIPE, stdout=subprocess.PIPE, text=True) as server:
        server.stdout.readline()
        server.stdout.readline()
        found = tuple(greeted(port, count) for port in (mail, sessions))
        server.stdin.close()
        status = server.wait(timeout=20)
    if (found, status) != (wanted, 0):
        failures.append(f"{words!r}: status {status}, and of {count} peers {found} were greeted, not {wanted}")


def refuses_size(program, size):
    """A limit that is no size is refused, and the text says of which option, and which."""
    words = ["serve", "--lmtp-port=0", "--imap-port=0", f"--memory={size}", "alice"]
    ended = run(program, words)
    says = f"invalid value '{size}' for '--memory': " in ended.stderr and "K, M or G" in ended.stderr
    check(words, (ended.returncode, ended.stdout) == (2, "") and says, ended)


def asked(stream, line):
    """The last line of the reply to this one, or of the greeting where there is none."""
    if line:
        stream.write(line + b"\r\n")
    reply = stream.readline()
    while reply[3:4] == b"-":
        reply = stream.readline()
    return reply.rstrip()


def keeps_limit(program, limit, wanted):
    words = f"serve --lmtp-port=0 --imap-port=0 --uidvalidity=9 {limit} alice"
    with subprocess.Popen([program, *words.split()], stdin=subprocess.PIPE, stdout=subprocess.PIPE, text=True) as server:
        port = int(server.stdout.readline().rsplit(":", 1)[1])
        with socket.create_connection(("127.0.0.1", port), timeout=20) as mail, mail.makefile("rwb", buffering=0) as stream:
            asked(stream, b"")
            asked(stream, b"LHLO c.example")
            replies = []
            for lines in MESSAGES:
                for line in (b"MAIL FROM:<s@a.example>", b"RCPT TO:<alice@example.org>", b"DATA"):
                    asked(stream, line)
                replies.append(asked(stream, MESSAGE_LINE * lines + b"."))
        server.stdin.close()
        status = server.wait(timeout=20)
    expected = [b"250 2.1.5 Delivered" if takes else b"451 4.3.0 Out of memory" for takes in wanted]
    if (replies, status) != (expected, 0):
        failures.append(f"{words!r}: status {status}, and replies {replies}")


def newest_version():
    """The version that CHANGELOG.md tells of first, behind what no version has yet."""
    page = os.path.join(os.path.dirname(os.path.dirname(os.path.abspath(__file__))), "CHANGELOG.md")
    with open(page, encoding="utf-8") as text:
        return next(line.split()[1] for line in text if line.startswith("## ") and line != "## Unreleased\n")


def main():
    program = sys.argv[1]
    for words in REFUSED:
        ended = run(program, words)
        check(words, ended.returncode == 2 and ended.stdout == "" and ended.stderr != "", ended)
    for words, fault in WRONG:
        ended = run(program, words)
        check(words, (ended.returncode, ended.stdout, ended.stderr) == (3, "", f"post_house: bad configuration: {fault}\n"), ended)
    for words in RIGHT:
        ended = run(program, words)
        check(words, (ended.returncode, ended.stdout, ended.stderr) == (0, "", ""), ended)
    ended = run(program, "serve --help")
    helps = (
        "--shards <shards>",
        "Shards that keep the mailboxes: 1 to 8, and 1 where it is not given",
        "1 to 16777216, and 1048576 where it is not given",
        "--workers <workers>",
        "1 to 8, and 4 where it is not given",
        "example.org where it is not given",
        "neither 25 nor a user's; 0 for a free one: 0 to 65535, and 2424 where it is not given",
        "0 for free ones: 0 to 65472, and 14300 where it is not given",
        "--memory <memory>",
        "0 for no limit, and 0 where it is not given",
    )
    check("serve --help", (ended.returncode, ended.stderr) == (0, "") and all(help in ended.stdout for help in helps), ended)
    ended = run(program, "--version")
    check("--version", (ended.returncode, ended.stderr) == (0, "") and ended.stdout.startswith(f"post_house {newest_version()}, proved with logic "), ended)
    stops_at_once(program, "--depth=4", WARNING)
    stops_at_once(program, "--uidvalidity=9", "")
    for size in SIZES:
        stops_at_once(program, f"--uidvalidity=9 --memory={size}", "")
    for size in NO_SIZES:
        refuses_size(program, size)
    for gives in CHOSEN:
        chooses(program, *gives)
    ended = run(program, NAMES, NAMES_INPUT)
    replies = [line.removeprefix("L1 ") for line in ended.stdout.splitlines() if line[3:] in NAMES_REPLIES]
    check(NAMES, ended.returncode == 0 and tuple(replies) == NAMES_REPLIES, ended)
    for options, count, wanted in CROWDS:
        serves_crowd(program, options, count, wanted)
    for limit, wanted in LIMITS:
        keeps_limit(program, limit, wanted)
    for failure in failures:
        print(failure)
    total = len(REFUSED) + len(WRONG) + len(RIGHT) + 5 + len(SIZES) + len(NO_SIZES) + len(CHOSEN) + len(CROWDS) + len(LIMITS)
    print(f"{total - len(failures)} of {total} command lines")
    sys.exit(1 if failures else 0)


main()
