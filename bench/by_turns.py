#!/usr/bin/env python3
"""What a change spares: builds of the program take the same loads by turns.

    by_turns.py PROGRAM PROGRAM.. [--rounds 5] [--part 1.0] [--only WORDS] [--option WORD]..

Each load is taken by each program in turn, on a server that was started anew, so that what else the machine does hits all of them. Of each number it
prints the medians of the rounds, and the last program's by the first one's; of copies that were refused, how many in all. `--part` takes so much of each load,
for a quick look, and `--only` the loads with these words in their names. Each `--option` is one more word of the servers' command line:
`--option=--depth --option=2`. It compiles the tools itself.
"""

import argparse
import os
import sys

from clients import end_by_exit
from measures import REFUSED, add_options, by_turns, ratio, shown
from servers import Program, compiled


def tell(row, values, kinds):
    """Prints a row of the table; what was refused only where something was."""
    numbers = [values.get(kind) for kind in kinds]
    if row[1] != REFUSED or any(numbers):
        print(f"| {' | '.join(row)} | {' | '.join(map(shown, numbers))} | {ratio(numbers[-1], numbers[0])} |", flush=True)


def main():
    parser = argparse.ArgumentParser(description="What a change spares: builds of the program take the same loads by turns.")
    parser.add_argument("programs", nargs="+")
    add_options(parser, 5)
    asked = parser.parse_args()
    end_by_exit()
    kinds = [Program(path, asked.option) for path in asked.programs]
    print(f"load before: {os.getloadavg()[0]:.1f}", file=sys.stderr)
    print(f"| Load | Unit | {' | '.join(asked.programs)} | last by first |\n|---|---|{'---|' * len(kinds)}---|", flush=True)
    with compiled() as tools:
        for rows in by_turns(kinds, tools, asked.rounds, asked.part, asked.only):
            for row, values in rows.items():
                tell(row, values, kinds)


if __name__ == "__main__":
    main()
