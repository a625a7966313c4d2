"""The program beside smtp-sink, Dovecot and Cyrus: the loads, and the table that README.md of the repository has. `compare.py PROGRAM --others` prints it."""

import time

from measures import by_turns, load, numbers_of, said, shown
from others import Cyrus, Dovecot, Other, memory, spent
from servers import Program, Sink, served

# How many messages a session is told of: Dovecot gathers what it tells of for half a second.
TOLD = {Dovecot: 40}
USERS, CONNECTIONS = 64, 4


class Standing:
    """30,000 messages of 1 KB, over four connections, to 64 users by turns."""

    name, wants = "30,000 messages of 1 KB, 4 connections", "mail"

    def run(self, kind, tools, part):
        """Copies a second, processor time of all its processes a copy, and what the messages take once they stand: memory and files."""
        count = max(4 * CONNECTIONS, int(30000 * part) - USERS)
        with served(kind, users=USERS) as server:
            # Each mailbox is made by its first message.
            load(tools, server, USERS, users=USERS)
            before = spent(server.pid)
            numbers = load(tools, server, count, users=USERS, connections=CONNECTIONS)
            seconds = spent(server.pid) - before
            if numbers["refused"]:
                raise RuntimeError(f"{kind.name} refused {numbers['refused']:.0f} copies")
            found = {"rate": numbers["rate"], "cpu": seconds / count * 1e6}
            if not isinstance(kind, Sink):
                time.sleep(0.5)
                found |= {"memory": memory(server.pid) / 1e6, "files": server.files() / 1e6 if isinstance(kind, Other) else 0}
        return {(self.name, name): value for name, value in found.items()}


class Told:
    """Messages one at a time, with a session that idles."""

    name, wants = "last byte of data to EXISTS", "idle"

    def run(self, kind, tools, part):
        """How soon it is told."""
        count = max(4, int(TOLD.get(type(kind), 1500) * part))
        with served(kind, users=1, idles=True) as server:
            words = ["--port", server.lmtp_port, "--idle-port", server.idle_port, "--login", int(isinstance(kind, Other))]
            # INBOX is made by its first message.
            load(tools, server, 1)
            numbers = numbers_of(said([tools["idle_latency"], *words, "--count", count])[0])
        return {(self.name, share): numbers[f"told_{share}"] / 1000 for share in ("p50", "p90")}


MEASURES = (Standing(), Told())
# The rows: what each is called, its load, and the numbers of its cells.
ROWS = (
    ("copies a second: 1 KB, 4 connections", Standing, ("rate",)),
    ("processor time a copy, us: the same", Standing, ("cpu",)),
    ("last byte of data to `* n EXISTS` at a client in IDLE, ms: p50; p90", Told, ("p50", "p90")),
    ("memory with 30,000 messages of 1 KB, MB", Standing, ("memory",)),
    ("files with them, MB", Standing, ("files",)),
)
NO_MAIL, NO_SESSIONS = "keeps no mail", "has no IMAP"


class Column:
    """A column of the table: who it is of, or why it isn't."""

    def __init__(self, name, kind, why=""):
        self.head, self.kind, self.why = name, kind, why

    def cell(self, found, load_kind, names):
        """What its server came to."""
        if self.why:
            return self.why
        values = [found.get((load_kind.name, name), {}).get(self.kind) for name in names]
        if None in values:
            return NO_SESSIONS if load_kind is Told else NO_MAIL
        return "; ".join(map(shown, values))


def columns(asked):
    """The program, smtp-sink, Dovecot and Cyrus, each with its version where it tells one."""
    sinks, others = Sink.installed(), (Dovecot(), Cyrus(asked.cyrus))
    sink = Column("smtp-sink -L", sinks[0]) if sinks else Column("smtp-sink -L", None, "not installed")
    told = [Column(f"{kind.name} {kind.version}".strip(), kind, kind.why) for kind in others]
    return [Column("post_house", Program(asked.program, asked.option)), sink, *told]


def tell_others(tools, asked):
    """Prints the table."""
    heads, found = columns(asked), {}
    kinds = [head.kind for head in heads if not head.why]
    for rows in by_turns(kinds, tools, asked.rounds, asked.part, asked.only, MEASURES):
        found.update(rows)
    print(f"| | {' | '.join(head.head for head in heads)} |\n|---|{'---|' * len(heads)}")
    for text, load_kind, names in ROWS:
        if asked.only in load_kind.name:
            print(f"| {text} | {' | '.join(head.cell(found, load_kind, names) for head in heads)} |")
