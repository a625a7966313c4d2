#!/usr/bin/env python3
"""The version. It stands in crates/command_line/src/options.rt; IMAP's answer to ID, its definition, its worked case, a dialogue and a page have it too.

    tests/version.py                prints it
    tests/version.py 0.3.0          sets it in all these places; CHANGELOG's heading is written by hand
    tests/version.py --check        says where another one stands, and whether CHANGELOG's newest release and its tag, if there are tags, are of it; the status is 1
                                    then

A release is a heading of CHANGELOG and a tag of the same number with a `v` before it.
"""

import os
import re
import subprocess
import sys

TOP = os.path.dirname(os.path.dirname(os.path.abspath(__file__)))
HOME = "crates/command_line/src/options.rt", r'const VERSION: &str = "([0-9.]+),'

# What IMAP's ID tells, as a file of code or of definitions spells it, and as a page or a dialogue does.
QUOTED = r'\\"version\\" \\"([0-9.]+)\\"'
PLAIN = r'"version" "([0-9.]+)"'

PLACES = [
    HOME,
    ("crates/imap_session/src/texts.rt", QUOTED),
    ("crates/imap_session/specs/Texts.antt", QUOTED),
    ("crates/imap_session/specs/rows/Rows.antt", QUOTED),
    ("tests/dialogues/logins-and-literals.stdout", PLAIN),
    ("docs/STANDARDS.md", PLAIN),
]


def read(path):
    with open(os.path.join(TOP, path), encoding="utf-8") as text:
        return text.read()


def version():
    """The version, as the program has it."""
    return re.search(HOME[1], read(HOME[0]))[1]


def put(new):
    """Sets the version in each place."""
    for path, form in PLACES:
        text = re.sub(form, lambda found: found[0].replace(found[1], new), read(path))
        with open(os.path.join(TOP, path), "w", encoding="utf-8") as file:
            file.write(text)


def tags():
    """The tags of releases; none where this is no checkout, or one without its tags."""
    said = subprocess.run(["git", "-C", TOP, "tag", "--list", "v*"], capture_output=True, text=True, check=False)
    return said.stdout.split()


def faults():
    """What is wrong, a line each."""
    wanted = version()
    for path, form in PLACES:
        found = set(re.findall(form, read(path)))
        if found != {wanted}:
            yield f"{path}: {', '.join(sorted(found)) or 'no version'}, and not {wanted}"
    newest = re.search(r"^## ([0-9.]+)", read("CHANGELOG.md"), re.M)[1]
    if newest != wanted:
        yield f"CHANGELOG.md: its newest release is {newest}, and not {wanted}"
    known = tags()
    if known and f"v{wanted}" not in known:
        yield f"there are tags, and none is v{wanted}"


def main(words):
    if words == ["--check"]:
        found = list(faults())
        print(*(found or [f"version {version()} stands everywhere"]), sep="\n")
        return 1 if found else 0
    if words:
        put(words[0])
    print(version())
    return 0


if __name__ == "__main__":
    sys.exit(main(sys.argv[1:]))
