#!/usr/bin/env python3
"""What crates.txt says that a crate uses is used: each name stands in that crate's code, definitions or proofs.

    tests/listed.py           says of each name that nothing uses where it stands; the status is 1 if there is one
    tests/listed.py --mend    takes these names out of crates.txt

A crate that is listed and not used is proved before the one that lists it, so that whoever waits for the proofs waits for nothing.
"""

import os
import re
import sys

TOP = os.path.dirname(os.path.dirname(os.path.abspath(__file__)))
LIST = os.path.join(TOP, "crates.txt")


def text_of(crate):
    """All that the crate says in its src/, specs/ and proofs/."""
    said = []
    for part in ("src", "specs", "proofs"):
        for at, _, names in os.walk(os.path.join(TOP, "crates", crate, part)):
            for name in names:
                if name.endswith((".rt", ".antt")):
                    with open(os.path.join(at, name), encoding="utf-8") as text:
                        said.append(text.read())
    return "\n".join(said)


def is_used(name, said):
    return re.search(rf"\bRattle\.{name}\.|\b{name}::|\buse {name}\b", said) is not None


def mended(line):
    """The line without the names that nothing uses, and those names. A comment or an empty line has none."""
    head, colon, names = line.rstrip("\n").partition(":")
    if line.startswith("#") or not colon:
        return line, []
    said = text_of(head.split()[0])
    used = [name for name in names.split() if is_used(name, said)]
    return f"{head}:{''.join(' ' + name for name in used)}\n", [name for name in names.split() if name not in used]


def main(words):
    if words not in ([], ["--mend"]):
        print(__doc__, file=sys.stderr)
        return 2
    with open(LIST, encoding="utf-8") as text:
        lines = text.readlines()
    kept, count = [], 0
    for line in lines:
        new, unused = mended(line)
        kept.append(new)
        count += len(unused)
        for name in unused:
            print(f"listed: {line.split(':')[0].split()[0]} doesn't use {name}")
    if words:
        with open(LIST, "w", encoding="utf-8") as text:
            text.writelines(kept)
        return 0
    print(f"{count} names of crates.txt are not used")
    return 1 if count else 0


if __name__ == "__main__":
    sys.exit(main(sys.argv[1:]))
