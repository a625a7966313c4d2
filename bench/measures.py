"""The loads: what each asks of a server, and the numbers that it gives.

A number is told by its load's name and its unit. A load runs on the servers that can do what it wants: mail is for all of them, sessions that idle and a FETCH
of bodies are for the program and the floor, and the other commands on a mailbox are for the program alone.
"""

import contextlib
import os
import re
import statistics
import subprocess
import sys
import time

from servers import HERE, served

COPY, RATE, REFUSED = "us a copy", "copies/s", "refused"
# The sessions that idle where mail comes at full rate.
IDLERS = 4
BODIES = "FETCH of all bodies of 30,000"


def numbers_of(line):
    """The numbers of a tool's line, by their names."""
    return {name: float(number) for name, number in re.findall(r"(\w+)=(\S+)", line)}


def said(words):
    """The lines of a tool's output. Of a tool that fails what it complained of is shown."""
    done = subprocess.run([str(word) for word in words], stdout=subprocess.PIPE, stderr=subprocess.PIPE, text=True)
    if done.returncode != 0:
        raise RuntimeError(f"{os.path.basename(words[0])} failed: {done.stderr[-500:]}")
    return done.stdout.splitlines()


def load(tools, server, count, **words):
    """The numbers of a load of mail that this server takes."""
    more = [text for name, number in words.items() for text in (f"--{name}", number)]
    return numbers_of(said([tools["lmtp_load"], "--port", server.lmtp_port, "--pid", server.pid, "--count", count, *more])[0])


def take(tools, server, count, users=1, recipients=1, **words):
    """The numbers of a load of mail that this server takes. A first message isn't measured."""
    load(tools, server, 1, users=users, recipients=recipients)
    return load(tools, server, count, users=users, recipients=recipients, **words)


def take_whole(tools, server, count):
    """The processor time a copy of a load of mail to one user. One of which something is refused is an error: it would be another load."""
    numbers = take(tools, server, count)
    if numbers["refused"]:
        raise RuntimeError(f"{numbers['refused']:.0f} copies were refused")
    return numbers["cpu"]


class Mail:
    """Messages to 64 users by turns, or to one of them."""

    def __init__(self, name, messages, users=64, recipients=1, connections=1, one_shard=False, **words):
        self.name, self.messages, self.users, self.recipients, self.connections, self.words = name, messages, users, recipients, connections, words
        self.one_shard, self.wants = one_shard, "one shard" if one_shard else "mail"

    def run(self, kind, tools, part):
        """Processor time of the server a copy, copies a second, how many were refused, and how long a message was under way."""
        count = max(self.connections, int(self.messages * part))
        with served(kind, users=64, recipients=self.recipients, one_shard=self.one_shard) as server:
            numbers = take(tools, server, count, self.users, self.recipients, connections=self.connections, **self.words)
        units = {COPY: "cpu", RATE: "rate", "us under way, p50": "p50", "us under way, p99": "p99", REFUSED: "refused"}
        return {(self.name, unit): numbers[name] for unit, name in units.items()}


class Idling:
    """Messages to one user, with sessions of his that idle, and without."""

    name, wants = "a session that idles", "idle"

    def run(self, kind, tools, part):
        """Processor time that each of the sessions costs a message."""
        alone, beside = (self._cost(kind, tools, max(1, int(30000 * part)), idlers) for idlers in (0, IDLERS))
        return {(self.name, "us a message"): (beside - alone) / IDLERS}

    def _cost(self, kind, tools, count, idlers):
        with served(kind, users=1, idles=True) as server, idling(server, idlers) if idlers else contextlib.nullcontext():
            return take_whole(tools, server, count)


@contextlib.contextmanager
def idling(server, count):
    """So many sessions that idle and read what they are told, while a load lasts."""
    words = [sys.executable, os.path.join(HERE, "idlers.py"), str(server.idle_port), str(count)]
    with subprocess.Popen(words, stdout=subprocess.PIPE) as process:
        try:
            if process.stdout.readline() != b"idle\n":
                raise RuntimeError("the sessions don't idle")
            yield
        finally:
            process.terminate()


class Latency:
    """Messages one at a time, with sessions that idle."""

    wants = "idle"

    def __init__(self, idlers):
        self.idlers = idlers
        self.name = f"last byte of data to EXISTS, {idlers} idling"
        # What else is told of them, by the names that it has in the tool's line.
        self.spans = {"told": self.name, "answered": f"last byte of data to 250, {idlers} idling", "behind": f"250 to the last EXISTS, {idlers} idling"}

    def run(self, kind, tools, part):
        """How soon the last session is told and the message answered, and processor time of the server a message."""
        with served(kind, users=1, idles=True) as server:
            words = ["--port", server.lmtp_port, "--idle-port", server.idle_port, "--pid", server.pid]
            numbers = numbers_of(said([tools["idle_latency"], *words, "--idlers", self.idlers, "--count", max(1, int(1500 * part))])[0])
        spans = {(name, f"us, {share}"): numbers[f"{span}_{share}"] for span, name in self.spans.items() for share in ("p50", "p90", "p99")}
        return spans | {(self.name, "us of the server a message"): numbers["cpu"]}


class Commands:
    """A mailbox of 30,000 messages of 1 KB: commands on all of it, until it is empty."""

    name, wants = "commands on all of a mailbox", "bodies"

    # Each command, and the name that its time has in the table.
    ASKED = (
        ("SELECT INBOX", "SELECT"),
        ("FETCH 1:* (BODY.PEEK[])", BODIES),
        ("STORE 1:* +FLAGS.SILENT (\\Seen)", "silent STORE of 30,000"),
        ("NOOP", "NOOP behind a silent STORE of 30,000"),
        ("STORE 1:* +FLAGS.SILENT (\\Deleted)", "silent STORE of \\Deleted to 30,000"),
        ("NOOP", "NOOP behind that of \\Deleted"),
        ("EXPUNGE", "EXPUNGE of 30,000"),
        ("LOGOUT", "LOGOUT"),
    )

    def run(self, kind, tools, part):
        """Milliseconds of each command, how fast the bodies come, and what is resident once all messages went."""
        count = max(2, int(30000 * part))
        # On the floor there is no mailbox: as many bytes as the bodies have come from one block.
        with served(kind, users=1, idles=True, bodies=1100 * count) as server:
            if "commands" not in kind.can:
                return self._bodies(self._times(tools, server, self.ASKED[:2])[1])
            take_whole(tools, server, count - 1)
            times = self._times(tools, server, self.ASKED)
            time.sleep(0.5)
            resident = {("resident after 30,000 messages came and went", "MB"): server.resident() * 1024 / 1e6}
        told = {(name, "ms"): numbers["ms"] for (_, name), numbers in zip(self.ASKED[:-1], times)}
        return self._bodies(times[1]) | told | resident

    def _times(self, tools, server, asked):
        words = [tools["imap_times"], "--port", server.idle_port, "--pid", server.pid]
        return [numbers_of(line) for line in said([*words, *(command for command, _ in asked)])]

    def _bodies(self, numbers):
        return {(BODIES, "GB/s"): numbers["rate"] / 1000, (BODIES, "ms of the server"): numbers["cpu"]}


MEASURES = (
    Mail("1 KB, 1 connection", 30000),
    Mail("1 KB, 4 connections", 60000, connections=4),
    Mail("1 KB, 4 connections, one shard", 60000, connections=4, one_shard=True),
    Mail("1 KB, 4 connections, one mailbox", 30000, users=1, connections=4),
    Mail("1 KB, 8 connections", 60000, connections=8),
    Mail("1 KB, 8 connections, one shard", 60000, connections=8, one_shard=True),
    Mail("1 KB, 8 recipients, 4 connections", 30000, recipients=8, connections=4),
    Mail("1 KB, 64 recipients, 4 connections", 8000, recipients=64, connections=4),
    Mail("100 KB, 1 connection", 3000, size=102400),
    Idling(),
    Latency(1),
    Latency(4),
    Commands(),
)


def middle(row, numbers):
    """What the rounds come to: what was refused adds up, of all else it is the median."""
    return sum(numbers) if row[1] == REFUSED else statistics.median(numbers)


def by_turns(kinds, tools, rounds, part, only="", measures=MEASURES):
    """Of each load with these words in its name what the rounds come to: each number by the load and unit that it is told by, and by the server. In each round
    each server takes the load once, so that what else the machine does hits all of them. What the first server can't take is left out."""
    for measure in measures:
        if only not in measure.name or measure.wants not in kinds[0].can:
            continue
        values = {}
        for kind in [kind for _ in range(rounds) for kind in kinds if measure.wants in kind.can]:
            for row, value in measure.run(kind, tools, part).items():
                values.setdefault(row, {}).setdefault(kind, []).append(value)
        yield {row: {kind: middle(row, numbers) for kind, numbers in its.items()} for row, its in values.items()}


def shown(value):
    """A number with as many digits as say something; nothing where there is none."""
    if value is None:
        return ""
    return f"{value:.0f}" if abs(value) >= 999.5 else f"{value:.3g}"


def ratio(value, other):
    """The one by the other, where there are both."""
    return f"{value / other:.2f}" if value is not None and other else ""


def add_options(parser, rounds):
    """The words that whoever runs the loads by turns takes."""
    parser.add_argument("--rounds", type=int, default=rounds)
    parser.add_argument("--part", type=float, default=1.0, help="so much of each load, for a quick look")
    parser.add_argument("--only", default="", help="the loads with these words in their names")
    parser.add_argument("--option", action="append", default=[], help="one more word of the program's command line")
