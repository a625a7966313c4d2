#!/usr/bin/env python3
"""The most bytes that a line of a script has, 65,536 without its end: one of more is none of its lines. A comment may have any number. What is
longer than that is passed over as it comes: a line of 100 MB takes no memory, and the line behind it is done.

    tests/long_lines.py PROGRAM
"""

import os
import subprocess
import sys

TOLD = "L1 220 mx.example.org LMTP ready\nL1 500 5.5.2 Line too long\n"

# How a line begins, how many bytes it has, and what is printed of it.
LINES = (
    ("L1 ", 65536, TOLD),
    ("L1 ", 65537, "? 1 Line\n"),
    ("# ", 65537, ""),
    ("# ", 70000, ""),
)

# With an end and without one.
ENDS = ("", "\n", "\r\n")

# How a huge line begins, and what is printed of it and of the line behind it, in which a session begins.
GREETED = b"I1 * PREAUTH IMAP4rev2 server ready\n"
HUGE = ((b"# ", GREETED), (b"L1 ", b"? 1 Line\n" + GREETED), (b"", b"? 1 Line\n" + GREETED))
PIECE, PIECES = b"x" * 1_000_000, 100
# The most memory that such a run may take, in KB: the program's own, and some room.
MOST_RESIDENT = 16_000


def printed(program, line):
    return subprocess.run([program, "script", "alice"], input=line, capture_output=True, timeout=20, check=True, encoding="ascii").stdout


def run_huge(program, front):
    """What is printed of a huge line and the line behind it, and the most memory that the program took, in KB."""
    with subprocess.Popen([program, "script", "alice"], stdin=subprocess.PIPE, stdout=subprocess.PIPE) as running:
        running.stdin.write(front)
        for _ in range(PIECES):
            running.stdin.write(PIECE)
        running.stdin.write(b"\nI1=alice\n")
        running.stdin.close()
        told = running.stdout.read()
        _, status, used = os.wait4(running.pid, 0)
        running.returncode = os.waitstatus_to_exitcode(status)
    return told, used.ru_maxrss


def main(words):
    (program,) = words
    failed = 0
    for front, wanted in HUGE:
        told, resident = run_huge(program, front)
        if told != wanted or resident > MOST_RESIDENT:
            failed += 1
            print(f"long_lines: 100 MB that begin with {front!r}: {told[:80]!r}, {resident} KB")
    for front, length, wanted in LINES:
        for end in ENDS:
            told = printed(program, front.ljust(length, "x") + end)
            if told != wanted:
                failed += 1
                print(f"long_lines: {length} bytes that begin with {front!r}, and {end!r}: {told[:80]!r}")
    print(f"{len(LINES) * len(ENDS) + len(HUGE)} lines, {failed} failed")
    return 1 if failed else 0


if __name__ == "__main__":
    sys.exit(main(sys.argv[1:]))
