#!/usr/bin/env python3
"""Pictures of scripts: each of examples/ is drawn, all that it prints stands in its picture, and the picture that README shows is the one that is drawn now.

    tests/drawing.py PROGRAM          the scripts of examples/
    tests/drawing.py PROGRAM CASE..   other scripts: the files CASE.stdin, each with its words in CASE.args
    tests/drawing.py PROGRAM --mend   draws README's picture anew

A page is well-formed, asks nobody for anything and has no program in it. Each line that the script prints stands in it, drawn or in the title of its place, and
each line of its own.
"""

import os
import subprocess
import sys
import tempfile
from pathlib import Path
from xml.etree import ElementTree

TOP = Path(__file__).resolve().parent.parent
EXAMPLES = TOP / "examples"
# The script of README's picture, and the picture.
SHOWN, PICTURE = EXAMPLES / "race", TOP / "docs" / "race.svg"


# What would have a page ask somebody for something, or run something.
ASKS = ("src=", "href", "url(", "@import", "<script")


class Wrong(Exception):
    """What is wrong with a picture."""


def plain(text):
    """A text as it is drawn: control codes by their signs."""
    return text.decode(errors="replace").translate({code: 0x2400 + code for code in range(32) if code not in (9, 10)})


def look_at(page, printed, script):
    """Finds fault with a page: all that was printed and all that the script says is to be in it."""
    root = ElementTree.fromstring(page)
    if found := [word for word in ASKS if word in page]:
        raise Wrong(f"it has {found[0]}")
    said = "\n".join(root.itertext())
    lines = set(said.split("\n"))
    for line in plain(printed).split("\n"):
        if (text := line if line[:1] in ("?", "T") else line[3:]) not in lines:
            raise Wrong(f"{text!r} isn't in it")
    if plain(script).strip() not in said:
        raise Wrong("the script isn't in it")


def draw(program, script, *options, words=()):
    """What is drawn of a script."""
    with tempfile.TemporaryDirectory() as room:
        out = os.path.join(room, "out")
        command = [sys.executable, "-B", EXAMPLES / "draw.py", "--program", program, "--output", out, *options, script, *words]
        ran = subprocess.run(command, capture_output=True, text=True, check=False)
        if ran.returncode != 0 or ran.stderr:
            raise Wrong(f"status {ran.returncode}: {ran.stderr}")
        with open(out, encoding="utf-8") as file:
            return file.read()


def look_at_example(program, script):
    """A script with its words in its head, and what it prints beside it."""
    look_at(draw(program, script), Path(f"{script}.stdout").read_bytes(), script.read_bytes())


def look_at_case(program, case):
    """A script with its words, and what it prints, in files of its name."""
    _, *words = Path(f"{case}.args").read_text(encoding="utf-8").split("\n")
    script = Path(f"{case}.stdin")
    look_at(draw(program, script, words=list(filter(None, words))), Path(f"{case}.stdout").read_bytes(), script.read_bytes())


def look_at_picture(program, picture):
    """README's picture."""
    if draw(program, SHOWN, "--svg") != picture.read_text(encoding="utf-8"):
        raise Wrong("README's picture isn't what is drawn now: tests/drawing.py PROGRAM --mend")


def main(program, *words):
    program = os.path.abspath(program)
    if words == ("--mend",):
        PICTURE.write_text(draw(program, SHOWN, "--svg"), encoding="utf-8")
        return 0
    looks = [(look_at_case, case) for case in words]
    if not looks:
        looks = [(look_at_example, it) for it in sorted(EXAMPLES.iterdir()) if it.is_file() and "." not in it.name]
        looks.append((look_at_picture, PICTURE))
    failed = 0
    for look, at in looks:
        try:
            look(program, at)
        except (Wrong, OSError, ElementTree.ParseError) as fault:
            failed += 1
            print(f"FAILED: {at}: {fault}")
    print(f"{len(looks) - failed} pictures passed, {failed} failed")
    return 1 if failed else 0


if __name__ == "__main__":
    sys.exit(main(*sys.argv[1:]))
