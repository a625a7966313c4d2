#!/usr/bin/env python3
"""The table of crates in docs/CRATES.md, made from the tree: what each crate is, as the first sentence of its lib.rt or main.rt says it; on what it stands, by
crates.txt; and which files of definitions it has.

    tests/crates_table.py            writes the table between its two marks
    tests/crates_table.py --check    says where the page has another one; the status is 1 then

Of the crates that a line of crates.txt names those are left out that another one of the same line stands on; what isn't a crate of the repository is the kit's.
"""

import functools
import os
import re
import sys

TOP = os.path.dirname(os.path.dirname(os.path.abspath(__file__)))
PAGE = os.path.join(TOP, "docs", "CRATES.md")
BEGIN, END = "<!-- tests/crates_table.py writes what follows -->", "<!-- up to here -->"


def read(path):
    with open(path, encoding="utf-8") as text:
        return text.read()


def listed():
    """The crates in their order, each with the names behind it."""
    lines = [line.split(":", 1) for line in read(os.path.join(TOP, "crates.txt")).splitlines() if ":" in line and not line.startswith("#")]
    return {head.split()[0]: below.split() for head, below in lines}


def first_sentence(crate):
    """What a crate says it is."""
    source = os.path.join(TOP, "crates", crate, "src")
    root = next(path for path in (os.path.join(source, name) for name in ("lib.rt", "main.rt")) if os.path.exists(path))
    lines = []
    for line in read(root).splitlines():
        if not line.startswith("//!") or line == "//!":
            break
        lines.append(line[3:].strip())
    # A full stop within a number, or in a name with dots, ends no sentence.
    return re.match(r".*?[.](?= |$)|.*", " ".join(lines))[0]


def definitions(crate):
    """The files of definitions that a crate has for its public contracts."""
    folder = os.path.join(TOP, "crates", crate, "specs")
    names = []
    for at, folders, files in os.walk(folder):
        folders[:] = sorted(name for name in folders if name not in ("inner", "rows", "out"))
        names += [os.path.relpath(os.path.join(at, name), folder)[: -len(".antt")] for name in files if name.endswith(".antt")]
    return sorted(name for name in names if name not in ("Lib", "inner", "rows"))


def table():
    """The table's lines."""
    crates = listed()

    @functools.lru_cache(None)
    def below(crate):
        return {name for other in crates.get(crate, ()) for name in {other} | below(other)}

    def quoted(names):
        return ", ".join(f"`{name}`" for name in names)

    lines = ["| Crate | What it is | Stands on, and on what that stands on | Definitions |", "|---|---|---|---|"]
    for crate, names in crates.items():
        needed = [name for name in names if not any(name in below(other) for other in names if other != name)]
        text = first_sentence(crate).replace("|", "\\|")
        lines.append(f"| `{crate}` | {text} | {quoted(needed)} | {', '.join(definitions(crate))} |")
    return lines


def main(words):
    page = read(PAGE)
    before, _, rest = page.partition(BEGIN)
    old, _, after = rest.partition(END)
    if not old or not after or words not in ([], ["--check"]):
        print(__doc__, file=sys.stderr)
        return 2
    lines = table()
    new = "\n".join([before + BEGIN, "", *lines, "", END + after])
    if words:
        differing = [line for line in lines if line not in old.split("\n")]
        for line in differing:
            print(f"crates_table: the page lacks: {line}")
        if new != page:
            print("crates_table: docs/CRATES.md isn't what tests/crates_table.py writes")
            return 1
        print(f"the table of {len(lines) - 2} crates is as the tree has it")
        return 0
    with open(PAGE, "w", encoding="utf-8") as text:
        text.write(new)
    return 0


if __name__ == "__main__":
    sys.exit(main(sys.argv[1:]))
