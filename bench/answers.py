#!/usr/bin/env python3
"""What a server wants while it answers at length: memory beyond its mailboxes, how long the answer takes, and how soon it begins.

    answers.py PROGRAM.. [--rounds 3] [--part 1]

Each program has a mailbox of 30,000 messages of 1 KB, or one of 300 messages of 100 KB, and one client, which asks for all flags, for all bodies, and for all
bodies 500 times in one line. In each round each program takes all of it once; printed are medians, and of memory the most. `--times 0` leaves the long line out.
Then four connections bring mail to 64 users by turns, alone and beside a client of one of them that reads such an answer with 1 KB a second. The two loads are a
pair, of which one or the other is first by turns, and printed is the median of the pairs' ratios.
"""

import argparse
import os
import socket
import statistics
import sys
import threading
import time

from clients import House, end_by_exit
from measures import load
from servers import ROOM, compiled

MAILBOXES = (("30,000 of 1 KB", 30000, 1024), ("300 of 100 KB", 300, 102400))
# So often each of the shorter commands is given in a round: by the first one a session finds the mailbox as the load left it.
CALLS = 5
CONNECTIONS = 4
# So many messages of 1 KB are a load beside a slow reader, and so many users get them by turns: two such loads have room in their mailboxes.
BESIDE = 900000
OTHERS = 63
# So many seconds are waited before a load.
SETTLED = 2
# So many pairs of loads in a round, each with a server of its own.
PAIRS = 4


class Measured:
    """A server, its tools, and a session that has selected its mailbox."""

    def __init__(self, program, tools, count, size, others=1):
        self.house = House(program, [f"u{number}" for number in range(1 + others)], ROOM)
        self.tools = tools
        numbers = load(tools, self.house, count, users=1, size=size)
        if numbers["refused"]:
            raise RuntimeError(f"{numbers['refused']:.0f} copies were refused")
        self.stream = self.house.connect_imap(0)
        self.stream.setsockopt(socket.IPPROTO_TCP, socket.TCP_NODELAY, 1)
        self.room = memoryview(bytearray(1 << 20))
        self.stream.recv(1 << 16)
        self.ask(b"SELECT INBOX")

    def ask(self, command):
        """Milliseconds to the first byte of the answer and to its last, and how many bytes there were."""
        started = time.monotonic()
        self.stream.sendall(b"q " + command + b"\r\n")
        first, count, last = None, 0, b""
        while not last.endswith(b"completed\r\n"):
            here = self.stream.recv_into(self.room)
            if not here:
                raise RuntimeError("the connection was closed")
            first = first or time.monotonic()
            count += here
            last = (last + bytes(self.room[max(0, here - 64) : here]))[-64:]
        return (first - started) * 1000, (time.monotonic() - started) * 1000, count

    def status(self, name):
        """A figure of the process's memory, in MB."""
        with open(f"/proc/{self.house.pid}/status", encoding="ascii") as lines:
            return next(int(line.split()[1]) for line in lines if line.startswith(name)) * 1024 / 1e6

    def beyond(self, command):
        """The same of the command, and the MB that the server had beyond what it had before."""
        with open(f"/proc/{self.house.pid}/clear_refs", "w", encoding="ascii") as file:
            file.write("5")
        before = self.status("VmRSS:")
        first, last, count = self.ask(command)
        return {"first, ms": first, "all, ms": last, "MB": count / 1e6, "beyond, MB": self.status("VmHWM:") - before}

    def end(self):
        """Ends the server."""
        self.stream.close()
        self.house.close_input()
        self.house.kill()


def bodies(times):
    """Asks for all bodies, so many times in one line."""
    return b"FETCH 1:* (" + b" ".join([b"BODY.PEEK[]"] * times) + b")"


def answers(program, tools, part, times):
    """The numbers of the answers, by the mailbox and what was asked for."""
    for name, count, size in MAILBOXES:
        measured = Measured(program, tools, max(2, int(count * part)), size)
        asked = {"all flags": b"FETCH 1:* (FLAGS)", "all bodies": bodies(1)}
        if times:
            asked[f"all bodies {times} times"] = bodies(times)
        for what, command in asked.items():
            for _ in range(1 if what.endswith("times") else CALLS):
                yield (name, what), measured.beyond(command)
        measured.end()


def rate(measured, count):
    """Copies a second over four connections, once the system has settled."""
    time.sleep(SETTLED)
    numbers = load(measured.tools, measured.house, count, users=1 + OTHERS, connections=CONNECTIONS)
    if numbers["refused"]:
        raise RuntimeError(f"{numbers['refused']:.0f} copies were refused")
    return numbers["rate"]


class Slow(threading.Thread):
    """A client that asks for all bodies and reads 1 KB a second."""

    def __init__(self, measured, times):
        super().__init__(daemon=True)
        self.stream, self.over = measured.house.connect_imap(0), threading.Event()
        self.stream.setsockopt(socket.SOL_SOCKET, socket.SO_RCVBUF, 4096)
        self.stream.sendall(b"s SELECT INBOX\r\nq " + bodies(times) + b"\r\n")
        self.start()

    def run(self):
        while not self.over.wait(1):
            self.stream.recv(1024)


def rate_beside(measured, count):
    """The same beside a client that reads slowly."""
    slow = Slow(measured, 100)
    found = rate(measured, count)
    slow.over.set()
    slow.join()
    return found


def beside(program, tools, part):
    """The rate of four connections alone, and beside a slow reader."""
    count = max(CONNECTIONS, int(BESIDE * part))
    for pair in range(PAIRS):
        measured = Measured(program, tools, 300, 102400, OTHERS)
        rate(measured, count // 10)
        if pair % 2:
            with_it = rate_beside(measured, count)
            alone = rate(measured, count)
        else:
            alone = rate(measured, count)
            with_it = rate_beside(measured, count)
        measured.end()
        yield ("four connections", "beside a slow reader"), {"alone, copies/s": alone, "beside, copies/s": with_it, "ratio": with_it / alone}


def main():
    reader = argparse.ArgumentParser(description="What a server wants while it answers at length.")
    reader.add_argument("programs", nargs="+")
    reader.add_argument("--rounds", type=int, default=3)
    reader.add_argument("--part", type=float, default=1.0)
    reader.add_argument("--times", type=int, default=500)
    words = reader.parse_args()
    end_by_exit()
    found = {}
    with compiled() as tools:
        for program in [program for _ in range(words.rounds) for program in words.programs]:
            for measure in (answers(program, tools, words.part, words.times), beside(program, tools, words.part)):
                for row, numbers in measure:
                    for unit, value in numbers.items():
                        found.setdefault((row, unit), {}).setdefault(program, []).append(value)
                    print(os.path.basename(program), *row, {unit: round(value, 3) for unit, value in numbers.items()}, file=sys.stderr, flush=True)
    for (row, unit), values in found.items():
        middles = [max(values[program]) if unit == "beyond, MB" else statistics.median(values[program]) for program in words.programs]
        print(" | ".join([f"{row[0]}: {row[1]}", unit, *(f"{middle:.3g}" for middle in middles)]))


if __name__ == "__main__":
    main()
