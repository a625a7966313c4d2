"""What the program does with a script: which line printed what, and what it changed in the mailboxes."""

import collections
import html
import re
import subprocess


class Wrong(Exception):
    """Why nothing can be drawn."""


# Control codes are drawn as their signs.
SIGNS = {code: 0x2400 + code for code in range(32) if code not in (9, 10)}

# A line of a script that does something: its number from 1, the line, the paragraphs of comments before it, what it printed, and the changes that it made in each
# mailbox, by its name.
Event = collections.namedtuple("Event", "number line notes printed changes")


def escape(text):
    """A text as it may stand in a page."""
    return html.escape(text.translate(SIGNS), quote=False)


def words_in(text, name):
    """The words behind `./run script` in the script's own head."""
    found = re.search(rf"^#     \./run script (.*) < examples/{re.escape(name)}$", text, re.M)
    if not found:
        raise Wrong("the script's head has no line that says how it is run: give the words behind the script's name")
    return found[1].split()


def settings_of(words):
    """The mailboxes that these words name, and how many shards keep them."""
    mailboxes, options, waiting = [], {}, None
    for word in words:
        name, _, value = word.partition("=")
        if waiting:
            options[waiting], waiting = word, None
        elif not word.startswith("--"):
            mailboxes.append(word)
        elif value:
            options[name] = value
        elif word != "--":
            waiting = name
    return mailboxes, int(options.get("--shards", "1"))


def head_of(text):
    """The comment at the script's top, as one paragraph, without the line that says how it is run."""
    lines = []
    for line in text.splitlines():
        if not line.startswith("#"):
            break
        if not line.startswith("#     "):
            lines.append(line[1:].strip())
    return " ".join(line for line in lines if line)


class Runs:
    """The program, asked again and again for the front of one script."""

    def __init__(self, program, words, mailboxes):
        self.command, self.mailboxes = [program, "script", *words], mailboxes
        self.tails = "".join(f"TAIL {name}\n" for name in mailboxes).encode()

    def _printed(self, text):
        ran = subprocess.run(self.command, input=text, capture_output=True, check=False)
        if ran.returncode != 0:
            raise Wrong(f"the program ended with status {ran.returncode}: {ran.stderr.decode(errors='replace')}")
        return ran.stdout

    def up_to(self, text):
        """What this front of the script prints, and for each mailbox the changes that it keeps, and how many there were."""
        printed = self._printed(text)
        kept, totals = {name: [] for name in self.mailboxes}, {}
        for line in self._printed(text + self.tails)[len(printed) :].decode().splitlines():
            _, name, change = line.split(" ", 2)
            if change.startswith("total "):
                totals[name] = int(change[6:])
            else:
                kept[name].append(change)
        return printed, kept, totals


def events_of(runs, text):
    """The events of a script, one after another."""
    front, notes, before = b"", [""], b""
    counts = {name: 0 for name in runs.mailboxes}
    is_head = True
    for number, line in enumerate(text.splitlines(keepends=True), 1):
        front += line if line.endswith(b"\n") else line + b"\n"
        words = line.rstrip(b"\r\n").decode(errors="replace")
        is_head = is_head and words.startswith("#")
        if not words:
            notes.append("")
        elif is_head:
            continue
        elif words.startswith("#"):
            notes[-1] = f"{notes[-1]} {words[1:].strip()}".strip()
        else:
            printed, kept, totals = runs.up_to(front)
            changes = {name: newest(kept[name], totals[name] - counts[name]) for name in runs.mailboxes}
            yield Event(number, words, [note for note in notes if note], printed[len(before) :], changes)
            notes, before, counts = [""], printed, totals


def newest(kept, count):
    """The last so many of the changes that are kept; all of them where some are gone."""
    return kept[max(0, len(kept) - count) :]


def end_of_literal(printed, start, count, mark):
    """Where a literal of so many bytes ends that begins here. Each CR LF of it is printed as LF and the mark; an LF that is followed by the mark may be its own."""
    crlfs = 0
    while (end := start + count + crlfs * (len(mark) - 1)) < len(printed):
        if printed[end : end + 1] in (b")", b" ") and printed.count(b"\n" + mark, start, end) >= crlfs:
            return end
        crlfs += 1
    return len(printed)


def sayings(printed):
    """Each thing that was printed: who said it, and its lines. A line of a session's that ends in the count of a literal goes on behind that."""
    at = 0
    while at < len(printed):
        who, mark, start = printed[at : at + 2].decode().strip(), printed[at : at + 3], at
        at = printed.index(b"\n", at)
        while who[0] == "I" and (literal := re.search(rb"\{(\d+)\}$", printed[start:at])):
            at = end_of_literal(printed, at + 1 + len(mark), int(literal[1]), mark)
            at = printed.index(b"\n", at)
        text = printed[start:at] if who in ("?", "T") else printed[start + len(mark) : at].replace(b"\n" + mark, b"\n")
        yield who, text.decode(errors="replace").split("\n")
        at += 1
