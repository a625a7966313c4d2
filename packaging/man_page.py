#!/usr/bin/env python3
"""Writes the man page post_house.8, out of what the program says of itself, so that there is one table of options: `--help`, `script --help`, `serve --help` and
`--version`. The exit statuses are those of README.md's table.

    packaging/man_page.py PROGRAM README.md > post_house.8
"""

import re
import subprocess
import sys

# What the help doesn't say. The rest of the page is made of the help.
BEFORE = """.SH DESCRIPTION
.B post_house
takes mail in over LMTP (RFC 2033) for a few mailboxes, says of each copy whether it was stored, and shows the mailboxes to IMAP4rev2 sessions (RFC 9051).
Mailboxes stand in memory: what isn't taken out is lost when the process ends.
Nothing but the loopback address is listened to, and there is no password.
Whoever reaches a user's port is that user.
"""
STOPPING = """.SH STOPPING
A server stops in good order when it is told SIGTERM, SIGINT or SIGHUP.
Who waits for a verdict is told it, each session is told BYE, and the status is 0, within six seconds.
A copy that has no 250 by then is the relay's still.
.PP
These signals are heard by a script that holds the program's input open and ends it then.
The program itself,
.IR /usr/lib/post_house/post_house ,
handles none: it stops as its standard input ends.
"""
AFTER = """.SH FILES
.TP
.I /usr/lib/post_house/take_mail.sh
Takes the mail out of a running server into Maildirs.
.TP
.I /usr/lib/systemd/system/post_house.service
A unit, to be copied and given your mailboxes.
.TP
.I /usr/share/doc/post-house
How to run it (OPERATING.md), what is kept of the standards (STANDARDS.md), scripts (SCRIPT.md) and examples.
.SH SEE ALSO
.BR lmtp (8),
.BR mbsync (1)
"""


def told(*words):
    """What a command prints."""
    return subprocess.run(words, capture_output=True, check=True, text=True).stdout


def plain(text):
    """A text as it may stand in the page."""
    text = text.replace("\\", "\\e").replace("-", "\\-")
    return re.sub(r"^([.'])", r"\\&\1", text)


def rows_of(help_text, name):
    """The rows of a section of the help: the words at the left, and what they mean."""
    section = re.search(rf"^{name}:\n((?:  .*\n)+)", help_text, re.M)
    rows = []
    for line in section[1].splitlines() if section else []:
        left, _, meaning = line.strip().partition("  ")
        rows.append((left.strip(), meaning.strip()))
    return rows


def paragraphs(rows):
    """Rows as paragraphs with their words in front."""
    return "".join(f".TP\n.B {plain(left)}\n{plain(meaning)}\n" for left, meaning in rows)


def about(help_text):
    """What the help says first."""
    return help_text.split("\n", 1)[0].strip()


def statuses(page):
    """The rows of README's table of exit statuses. Those of no fault have no text."""
    table = re.search(r"^\| Exit status .*\n\|[-|]+\n((?:\|.*\n)+)", page, re.M)
    rows = [[cell.strip() for cell in line.strip("|").split("|")] for line in table[1].splitlines()]
    for status, text in rows:
        number, _, meaning = status.partition(" ")
        yield number, f"{(meaning[:1].upper() + meaning[1:]).rstrip('.') or 'All went well'}. Standard error has: {text}".replace("`", "")


def page_of(program, readme):
    """The whole page."""
    version = told(program, "--version").split(",")[0].strip()
    everything = told(program, "--help")
    commands = [name for name, _ in rows_of(everything, "Commands") if name != "help"]
    page = f'.\\" Made by packaging/man_page.py of what the program says of itself.\n.TH POST_HOUSE 8 "" "{version}"\n'
    page += f".SH NAME\npost_house \\- {plain(about(everything)[:1].lower() + about(everything)[1:])}\n.SH SYNOPSIS\n"
    helps = {name: told(program, name, "--help") for name in commands}
    for name, text in helps.items():
        usage = re.search(r"^Usage: post_house (.*)$", text, re.M)[1]
        page += f".B post_house\n{plain(usage)}\n.br\n"
    page += ".B post_house \\-\\-help\n|\n.B \\-\\-version\n" + BEFORE
    told_of = []
    for name, text in helps.items():
        rows = rows_of(text, "Arguments") + rows_of(text, "Options")
        page += f".SH {name.upper()}\n{plain(about(text))}.\n" + (f"It has all that stands above of {told_of[0][0]}, and:\n" if told_of else "")
        page += paragraphs(row for row in rows if all(row not in others for _, others in told_of))
        told_of.append((name, rows))
    with open(readme, encoding="utf-8") as file:
        page += STOPPING + ".SH EXIT STATUS\n" + paragraphs(statuses(file.read())) + AFTER
    return page


if __name__ == "__main__":
    sys.stdout.write(page_of(*sys.argv[1:]))
