#!/usr/bin/env python3
"""What serving costs, beside smtp-sink and beside the floor, and which goals are met.

    compare.py PROGRAM [--rounds 3] [--part 1.0] [--only WORDS] [--option WORD]..
    compare.py PROGRAM --others [--cyrus FOLDER] [--rounds 3] [--part 1.0] [--option WORD]..

The program, Postfix's smtp-sink (where it is installed) and the floor (floor.c) take the same loads by turns, each on a server that was started anew. The first
table has what goals are set for: medians of the rounds, the program's number by the floor's and by smtp-sink's, the goal, and whether it is met. The second one
has what else was measured. README.md says what each number is. `--part` takes so much of each load, for a quick look; goals are for all of it. `--only` takes the
loads with these words in their names. Each `--option` is one more word of the program's command line: `--option=--shards --option=4`.

With `--others` one table is written in place of these two: the program, smtp-sink, Dovecot and Cyrus (side_by_side.py), each where it is installed. `--cyrus`
names a folder where programs of Cyrus are looked for first.

It needs a C compiler. Let nothing else run meanwhile.
"""

import argparse
import os
import sys

from clients import end_by_exit
from measures import BODIES, COPY, REFUSED, add_options, by_turns, ratio, shown
from servers import Floor, Program, Sink, compiled
from side_by_side import tell_others


class OfFloor:
    """At most so much of what the floor takes."""

    def __init__(self, limit):
        self.limit, self.text = limit, f"at most {limit} of the floor"

    def is_met(self, value, floor):
        return value <= self.limit * floor


class Under:
    """Less than this."""

    def __init__(self, limit):
        self.limit, self.text = limit, f"under {limit}"

    def is_met(self, value, _):
        return value < self.limit


class AtLeast:
    """This or more."""

    def __init__(self, limit):
        self.limit, self.text = limit, f"at least {limit}"

    def is_met(self, value, _):
        return value >= self.limit


TOLD = "last byte of data to EXISTS, 1 idling"
# The goals, by the load and the unit that a number is told by.
GOALS = {
    ("1 KB, 1 connection", COPY): OfFloor(1.25),
    ("1 KB, 4 connections", COPY): OfFloor(1.4),
    ("1 KB, 4 connections, one shard", COPY): OfFloor(1.4),
    ("1 KB, 8 connections", COPY): OfFloor(1.4),
    ("1 KB, 8 connections, one shard", COPY): OfFloor(1.4),
    ("1 KB, 8 recipients, 4 connections", COPY): Under(1.8),
    ("1 KB, 64 recipients, 4 connections", COPY): Under(0.7),
    ("100 KB, 1 connection", COPY): OfFloor(1.25),
    ("a session that idles", "us a message"): Under(5),
    (TOLD, "us, p50"): Under(42),
    (TOLD, "us, p90"): Under(60),
    (BODIES, "GB/s"): AtLeast(2),
    ("NOOP behind a silent STORE of 30,000", "ms"): Under(2.5),
    ("resident after 30,000 messages came and went", "MB"): Under(8),
}


class Servers:
    """Who is measured: the program, the floor in its three ways, and smtp-sink or nothing."""

    def __init__(self, asked, tools):
        self.is_whole = asked.part >= 1
        self.program = Program(asked.program, asked.option)
        self.floor = Floor(tools["floor"])
        self.chain, self.keeper = Floor(tools["floor"], "chain"), Floor(tools["floor"], keeps=True)
        self.sinks = Sink.installed()
        self.all = [self.program, *self.sinks, self.floor, self.chain, self.keeper]

    def cells(self, values):
        """The cells of a row: each server's number, and the program's by the floor's and by smtp-sink's."""
        ours, floor = values.get(self.program), values.get(self.floor)
        sink = values.get(self.sinks[0]) if self.sinks else None
        others = ((values.get(self.chain), "by a woken thread"), (values.get(self.keeper), "keeping it"))
        floors = shown(floor) + "".join(f" ({shown(value)} {way})" for value, way in others if value is not None)
        return " | ".join((shown(ours), floors, shown(sink), ratio(ours, floor), ratio(ours, sink)))

    def verdict(self, goal, values, refused):
        """Whether the program meets this goal; where copies were refused, or not all was sent, it was another load."""
        if refused.get(self.program):
            return "copies were refused"
        if not self.is_whole:
            return "not judged"
        return "met" if goal.is_met(values[self.program], values.get(self.floor)) else "missed"


HEAD = "| Load | Unit | program | floor | smtp-sink | by the floor | by smtp-sink |"


def tell_rest(servers, rest):
    """Prints what no goal is set for; what was refused only where something was."""
    print(f"\n{HEAD}\n|---|---|---|---|---|---|---|")
    for row, values in rest:
        if row[1] != REFUSED or any(values.values()):
            print(f"| {' | '.join(row)} | {servers.cells(values)} |")


def compare(servers, tools, asked):
    """Prints both tables, a row of the first one as soon as it is measured."""
    rest = []
    print(f"{HEAD} Goal | |\n|---|---|---|---|---|---|---|---|---|", flush=True)
    for rows in by_turns(servers.all, tools, asked.rounds, asked.part, asked.only):
        for row, values in rows.items():
            goal = GOALS.get(row)
            if goal is None:
                rest.append((row, values))
            else:
                verdict = servers.verdict(goal, values, rows.get((row[0], REFUSED), {}))
                print(f"| {' | '.join(row)} | {servers.cells(values)} | {goal.text} | {verdict} |", flush=True)
    tell_rest(servers, rest)


def compare_all(servers, tools, asked):
    """Says what is missing, and prints both tables."""
    if not servers.sinks:
        print("smtp-sink isn't installed (package postfix): its columns are empty")
    print(flush=True)
    compare(servers, tools, asked)


def main():
    parser = argparse.ArgumentParser(description="What serving costs, beside smtp-sink and beside the floor, and which goals are met.")
    parser.add_argument("program")
    parser.add_argument("--others", action="store_true", help="beside smtp-sink, Dovecot and Cyrus")
    parser.add_argument("--cyrus", help="a folder with programs of Cyrus")
    add_options(parser, 3)
    asked = parser.parse_args()
    end_by_exit()
    words = f"rounds: {asked.rounds}; part: {asked.part}; options: {' '.join(asked.option) or 'none'}"
    print(f"{os.cpu_count()} processors; load before: {os.getloadavg()[0]:.1f}; {words}")
    with compiled() as tools:
        if asked.others:
            print(flush=True)
            tell_others(tools, asked)
        else:
            compare_all(Servers(asked, tools), tools, asked)
    print(f"\nload after: {os.getloadavg()[0]:.1f}")


if __name__ == "__main__":
    sys.exit(main())
