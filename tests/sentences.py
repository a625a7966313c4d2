#!/usr/bin/env python3
"""How long the sentences of the pages are, in words.

    tests/sentences.py            each page: how many sentences it has, their median, and the longest with their lines
    tests/sentences.py PAGE ..    the same of other pages
    tests/sentences.py --check    says which page is over its limits; the status is 1 then

A sentence ends at a full stop, a question mark or an exclamation mark before a space, or with its paragraph or its item of a list. So a semicolon
or a colon ends none. A table's cell is a paragraph, and there a semicolon ends a sentence too, since a cell is often a list of phrases.

A text in backquotes is one word, however long it is: it is read as a name. What has less than four words, as many cells have, isn't counted: it would
make the median smaller. Left out are headings, blocks of code (fenced, or four spaces in), rules of tables, comments, and what links point to.
"""

import os
import re
import statistics
import sys

TOP = os.path.dirname(os.path.dirname(os.path.abspath(__file__)))

# The median has to be below the first number, and no sentence has more words than the second.
LIMITS = (16, 35)
CHECKED = ["README.md", "docs/OPERATING.md", "docs/STANDARDS.md", "docs/SCRIPT.md", "CONTRIBUTING.md", "SECURITY.md", "docs/PROMISE.md", "docs/LIMITS.md", "docs/DEFINITIONS.md", "docs/ARCHITECTURE.md",
           "docs/DECISIONS.md", "CHANGELOG.md", "bench/README.md"]
# Pages that are printed, and have no limits.
PRINTED = ["docs/CRATES.md"]
SHOWN, LEAST = 8, 4

ITEM = re.compile(r"^\s*(?:[-*]|\d+\.) +")
END = re.compile(r"[.?!][)\"'*]*$")
END_IN_CELL = re.compile(r"(?:[.?!][)\"'*]*|;)$")


def plain(line):
    """A line's words: a text in backquotes is one, and of a link stands what is shown."""
    line = re.sub(r"`[^`]+`", "`quoted`", line)
    return re.sub(r"!?\[([^\]]*)\]\([^)]*\)", r"\1", line)


def paragraphs(text):
    """The paragraphs, items and cells of a page: each the lines that it has, with their numbers, and whether it is a cell."""
    lines, is_code, is_comment = [], False, False
    for number, line in enumerate(text.split("\n"), 1):
        is_comment = is_comment or line.startswith("<!--")
        fence = line.lstrip().startswith("```")
        is_code = is_code != fence
        is_text = not (is_code or fence or is_comment or line.startswith(("    ", "#", "|")))
        is_comment = is_comment and "-->" not in line
        if lines and (not is_text or not line.strip() or ITEM.match(line)):
            yield lines, False
            lines = []
        if is_text and line.strip():
            lines.append((number, plain(ITEM.sub("", line, count=1))))
        elif line.startswith("|") and not re.fullmatch(r"[|:\- ]+", line):
            for cell in re.split(r"(?<!\\)\|", plain(line))[1:-1]:
                yield [(number, cell)], True
    if lines:
        yield lines, False


def sentences(text):
    """Each sentence that counts: how many words it has, and the line in which it begins."""
    for lines, is_cell in paragraphs(text):
        words = [(word, number) for number, line in lines for word in line.split()]
        begun = []
        for word, number in words:
            # A sign alone, such as a dash, is no word.
            if re.search(r"\w", word):
                begun.append(number)
            if (END_IN_CELL if is_cell else END).search(word):
                if len(begun) >= LEAST:
                    yield len(begun), begun[0]
                begun = []
        if len(begun) >= LEAST:
            yield len(begun), begun[0]


def measured(page):
    """A page's sentences, the longest first, and the median of their words."""
    with open(os.path.join(TOP, page), encoding="utf-8") as text:
        found = sorted(sentences(text.read()), key=lambda pair: (-pair[0], pair[1]))
    return found, statistics.median(words for words, _ in found)


def show(page):
    """Prints a page's figures, and where its longest sentences begin."""
    found, median = measured(page)
    print(f"{page}: {len(found)} sentences, median {median:g}, longest {found[0][0]}")
    print("    " + ", ".join(f"{words} at line {line}" for words, line in found[:SHOWN]))


def is_within(page):
    """Whether a page is within its limits; what isn't is printed."""
    (below, most), (found, median) = LIMITS, measured(page)
    if median >= below:
        print(f"sentences: {page}: the median is {median:g} words, and has to be below {below}")
    long = [(words, line) for words, line in found if words > most]
    for words, line in long:
        print(f"sentences: {page}:{line}: a sentence has {words} words, and may have {most}")
    return median < below and not long


def main(words):
    if words == ["--check"]:
        within = sum([is_within(page) for page in CHECKED])
        print(f"{within} of {len(CHECKED)} pages have sentences within their limits")
        return 0 if within == len(CHECKED) else 1
    if any(word.startswith("-") for word in words):
        print(__doc__, file=sys.stderr)
        return 2
    for page in words or CHECKED + PRINTED:
        show(page)
    return 0


if __name__ == "__main__":
    sys.exit(main(sys.argv[1:]))
