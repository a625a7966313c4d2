#!/usr/bin/env python3
"""How long the checker takes for each crate, as data: docs/times.tsv, and the table of docs/TIMES.md that is made of it.

    tests/times.py rt ci            runs this command, and notes what each crate's check takes meanwhile: seconds of the processor, and the most memory
    tests/times.py --table          writes the table anew from the data
    tests/times.py --check          says where the page has another table than the data; the status is 1 then

What is noted of a crate takes the place of what was noted before, where the check came to its end while this looked. A crate is checked once by itself and,
where it has tests of its own, once more with them. The looks are half a second apart, so a check that is shorter isn't seen.
"""

import datetime
import os
import subprocess
import sys
import time

TOP = os.path.dirname(os.path.dirname(os.path.abspath(__file__)))
DATA = os.path.join(TOP, "docs", "times.tsv")
PAGE = os.path.join(TOP, "docs", "TIMES.md")
BEGINS, ENDS = "<!-- tests/times.py writes what follows -->\n", "<!-- up to here -->\n"
TICKS = os.sysconf("SC_CLK_TCK")
BETWEEN_LOOKS = 0.5
# One that was seen for less was begun, and stopped at once.
LEAST_SECONDS = 2


def words_of(process):
    with open(f"/proc/{process}/cmdline", encoding="utf-8", errors="replace") as line:
        return line.read().split("\0")


def crate_of(words):
    """Which crate a process checks, and whether with its tests; None where it is no check of a whole crate."""
    if len(words) < 4 or os.path.basename(words[0]) != "rattle" or words[1] not in ("build", "check") or "--crate-name" not in words:
        return None
    if any(word in words for word in ("--only", "--start", "--generated", "--lib")):
        return None
    return words[words.index("--crate-name") + 1], "--test" in words


def taken_by(process):
    """The seconds of the processor that a process and the children that it waited for have taken, and the most memory that it had, in MB."""
    with open(f"/proc/{process}/stat", encoding="utf-8") as line:
        fields = line.read().rsplit(")", 1)[1].split()
    with open(f"/proc/{process}/status", encoding="utf-8") as lines:
        most = next((int(line.split()[1]) for line in lines if line.startswith("VmHWM:")), 0)
    return sum(map(int, fields[11:15])) / TICKS, most // 1024


def look(seen):
    """Notes of each check that runs now what it has taken so far."""
    for process in filter(str.isdigit, os.listdir("/proc")):
        try:
            crate = crate_of(words_of(process))
            if crate is not None:
                seen[process, crate] = taken_by(process)
        except (OSError, StopIteration, IndexError):
            # It ended while it was looked at.
            continue


def read_data():
    if not os.path.exists(DATA):
        return {}
    with open(DATA, encoding="utf-8") as lines:
        rows = [line.rstrip("\n").split("\t") for line in lines if not line.startswith("#")]
    return {(crate, tests == "tests"): (int(seconds), int(memory), day) for crate, tests, seconds, memory, day in rows}


def write_data(rows):
    with open(DATA, "w", encoding="utf-8") as out:
        out.write("# crate, proof or tests, seconds of the processor, most memory in MB, day; tests/times.py writes this\n")
        for (crate, tests), (seconds, memory, day) in sorted(rows.items()):
            out.write(f"{crate}\t{'tests' if tests else 'proof'}\t{seconds}\t{memory}\t{day}\n")


def table(rows):
    """The table of the page, the longest first."""
    crates = {crate for crate, _ in rows}
    none = (0, 0, "")
    order = sorted(crates, key=lambda crate: (-rows.get((crate, False), none)[0], crate))
    lines = ["| Crate | Proof: seconds of the processor | With its tests | Most memory, MB | Measured |", "|---|---|---|---|---|"]
    for crate in order:
        proof, tests = rows.get((crate, False)), rows.get((crate, True))
        both = [row for row in (proof, tests) if row]
        lines.append(
            f"| `{crate}` | {proof[0] if proof else ''} | {tests[0] if tests else ''} | {max(row[1] for row in both)} | {max(row[2] for row in both)} |"
        )
    total = sum(seconds for seconds, _, _ in rows.values())
    return "\n".join([*lines, "", f"All of these together: {total // 60} minutes of the processor.", ""])


def page_with(rows):
    with open(PAGE, encoding="utf-8") as text:
        before, rest = text.read().split(BEGINS)
    return before + BEGINS + "\n" + table(rows) + "\n" + ENDS + rest.split(ENDS)[1]


def is_table_right():
    with open(PAGE, encoding="utf-8") as text:
        return text.read() == page_with(read_data())


def write_page():
    new = page_with(read_data())
    with open(PAGE, "w", encoding="utf-8") as out:
        out.write(new)


def watch(command):
    """Runs a command, and notes the checks that it makes. Answers its status."""
    seen, day = {}, datetime.date.today().isoformat()
    ran = subprocess.Popen(command)
    while ran.poll() is None:
        look(seen)
        time.sleep(BETWEEN_LOOKS)
    rows = read_data()
    longest = {}
    for (_, crate), (seconds, memory) in seen.items():
        longest[crate] = max(longest.get(crate, (0, 0)), (round(seconds), memory))
    rows.update({crate: (*taken, day) for crate, taken in longest.items() if taken[0] >= LEAST_SECONDS})
    write_data(rows)
    write_page()
    return ran.returncode


def main(words):
    if words == ["--table"]:
        write_page()
        return 0
    if words == ["--check"]:
        if is_table_right():
            return 0
        print("times: docs/TIMES.md has another table than docs/times.tsv")
        return 1
    if not words or words[0].startswith("--"):
        print(__doc__, file=sys.stderr)
        return 2
    return watch(words)


if __name__ == "__main__":
    sys.exit(main(sys.argv[1:]))
