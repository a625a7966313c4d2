#!/usr/bin/env python3
"""Draws what a script does, as one HTML file with a picture in it: a column for each connection, lane, mailbox and session, and an arrow for each event.

    examples/draw.py [--program PROGRAM] [--svg] [--output FILE] SCRIPT [WORD..]

The program is run as `PROGRAM script WORD..`. Where no words are given they are those of the line `#     ./run script WORD.. < examples/NAME` in the script's
head. FILE is by itself the script's name with `.html` behind it, in the current folder. With --svg the file is the picture alone, and ends in `.svg`.

Time goes down, and numbers at the left are those of the script's lines. What a line printed is told by running the script once up to that line and once up to
the one before it. What it changed in the mailboxes is told in the same way, by a TAIL of each at the end. Which copy waits in which lane isn't printed: that
follows from the dialogue, from HOLD and FREE, and from what comes to stand. What is too long for its column is cut, and stands whole in its place's title.
"""

import argparse
import os
import shutil
import sys

from drawing.picture import Picture
from drawing.runs import Runs, Wrong, escape, events_of, head_of, settings_of, words_in
from drawing.story import Story

BUILT = os.path.join(os.path.dirname(os.path.dirname(os.path.abspath(__file__))), "crates", "post_house", "out", "post_house")

PAGE = """<!DOCTYPE html>
<html lang="en">
<head>
<meta charset="utf-8"/>
<title>{name}</title>
<style>
:root {{ color-scheme: light dark }}
body {{ font: 15px system-ui, "DejaVu Sans", sans-serif; line-height: 1.45; margin: 1.5em; max-width: 100em }}
p {{ max-width: 50em }}
svg, pre {{ display: block; margin: 1em 0 }}
</style>
</head>
<body>
<h1>{name}</h1>
<p>{head}</p>
{picture}<details><summary>The script: post_house script {words}</summary><pre>{script}</pre></details>
</body>
</html>
"""


def draw(program, script, words):
    """The script's text, the words that it is run with, and its picture."""
    with open(script, "rb") as file:
        text = file.read()
    readable = text.decode(errors="replace")
    words = words or words_in(readable, os.path.basename(script))
    mailboxes, shards = settings_of(words)
    story = Story(mailboxes, shards)
    for event in events_of(Runs(program, words, mailboxes), text):
        story.add(event)
    return readable, words, Picture(story).svg()


def main():
    said = argparse.ArgumentParser(description="Draws what a script does, as one HTML file.")
    said.add_argument("--program", default=BUILT if os.path.exists(BUILT) else shutil.which("post_house") or "post_house")
    said.add_argument("--svg", action="store_true", help="writes the picture alone")
    said.add_argument("--output", metavar="FILE")
    said.add_argument("script", metavar="SCRIPT")
    said.add_argument("words", metavar="WORD", nargs=argparse.REMAINDER, help="options and mailboxes of the program")
    asked = said.parse_args()
    name = os.path.basename(asked.script)
    try:
        script, words, picture = draw(asked.program, asked.script, asked.words)
    except (Wrong, OSError) as fault:
        print(f"draw: {fault}", file=sys.stderr)
        return 1
    if not asked.svg:
        head = escape(head_of(script))
        picture = PAGE.format(name=escape(name), head=head, picture=picture, words=escape(" ".join(words)), script=escape(script))
    with open(asked.output or f"{name}.{'svg' if asked.svg else 'html'}", "w", encoding="utf-8") as file:
        file.write(picture)
    return 0


if __name__ == "__main__":
    sys.exit(main())
