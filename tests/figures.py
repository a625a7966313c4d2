#!/usr/bin/env python3
"""Figures of the house: how large its crates are, how long the chain of them is, how long lists of arguments and clauses are, and how many files a change touches.

    tests/figures.py            prints each figure beside its limit
    tests/figures.py --check    prints those that are worse than their limits; the status is 1 if there is one
    tests/figures.py --set      makes the limits what the figures are now, and of many lines the next full hundred

Whoever makes a figure better sets its limit anew. None is set higher without a reason in the commit message.
All is counted from the tree as it lies there. Crates of tests and those that measure don't count where a row says "product".
"""

import functools
import os
import re
import sys

import believed

TOP = os.path.dirname(os.path.dirname(os.path.abspath(__file__)))

# A figure above this is rounded up where it becomes a limit.
MANY = 10_000

# Each figure, in the order in which they are printed, and its limit.
LIMITS = {
    "crates": 47,
    "longest chain of crates": 11,
    "product crates under 150 lines of code": 5,
    "product functions with 8 arguments or more": 5,
    "most arguments of a product function": 8,
    "per mille of clauses that begin with a line over 100 columns": 2,
    "lines of proofs": 108200,
    "lines of docs/PROVING.md": 300,
    "promised definitions with more than four arguments": 20,
    "lines of definitions over 150 columns": 6,
    "lines of code, definitions and proofs": 208000,
    "files that name an option (ring_max)": 49,
    "files that name a setting of serve (lmtp_port)": 29,
    "files that name a refusal of a copy (MailboxFull)": 38,
    "files that name a field of the house (visitors)": 43,
    "files that name a verb with an answer (STATUS)": 36,
    "files that name an item of FETCH (RFC822.SIZE)": 42,
    "files that have a text of IMAP (No such mailbox)": 14,
}

# What isn't set anew: a page that is to be read.
FIXED = ("lines of docs/PROVING.md",)

FEW_LINES, MANY_ARGUMENTS, LONG_LINE = 150, 8, 100

# A line of definitions that is wider isn't read at one look.
WIDE_LINE = 150

# What a change of one kind names: files of crates/, docs/, tests/ and examples/ and README.md are counted. A file that has none of the words isn't looked
# through for the pattern.
TOUCHED = {
    "files that name an option (ring_max)": (("ring_max", "ring-max", "RING_MAX"), r"\b(?:ring_max|ring-max|RING_MAX)\b"),
    "files that name a setting of serve (lmtp_port)": (("lmtp_port", "lmtp-port", "LMTP_PORT"), r"\b(?:lmtp_port|lmtp-port|LMTP_PORT)\b"),
    "files that name a refusal of a copy (MailboxFull)": (("MailboxFull",), r"\bMailboxFull\b"),
    "files that name a field of the house (visitors)": (("visitors",), r"\bvisitors\b"),
    "files that name a verb with an answer (STATUS)": (
        ("Status", "status_answer", "write_status", "count_mailbox"),
        r"(?:commands|say|verbs|Command|Verb)(?:\.|::)Status\b|\bstatus_answer\b|\bStatusItems\b|write_status|count_mailbox",
    ),
    "files that name an item of FETCH (RFC822.SIZE)": (("Size", "RFC822.SIZE"), r"(?:items|fetch|FetchItem|item)(?:\.|::)Size\b|RFC822\.SIZE"),
    # Some proofs have the text without its last letter.
    "files that have a text of IMAP (No such mailbox)": (("No such mailbo",), "No such mailbo"),
}

# What a script writes is touched by nobody.
MADE = (".svg", "figures.py", "CRATES.md")

CLAUSE = re.compile(r"\s*(?:requires|ensures|invariant|decreases|measure|ghost)\b")
FUNCTION = re.compile(r"^[ \t]*(?:pub(?:\([a-z]+\))? )?(?:const |unsafe )*fn \w+", re.M)


@functools.lru_cache(None)
def read(path):
    with open(os.path.join(TOP, path), encoding="utf-8", errors="replace") as text:
        return text.read()


@functools.lru_cache(None)
def files_of(folder):
    """The files below a folder, but for what a check keeps there."""
    found = []
    for at, folders, names in os.walk(os.path.join(TOP, folder)):
        folders[:] = [name for name in folders if name not in ("out", "__pycache__", ".pytest_cache")]
        found += [os.path.relpath(os.path.join(at, name), TOP) for name in names]
    return found


def is_product(crate):
    """Whether a crate is neither one of tests nor one that measures, nor a program that shows how a house is used."""
    return not re.search(r"(^|_)(tests|bench|embedding)($|_)", crate)


def crates():
    """The crates, each with those of them on which it stands."""
    lines = [line.split(":", 1) for line in read("crates.txt").splitlines() if ":" in line and not line.startswith("#")]
    named = {head.split()[0]: below.split() for head, below in lines}
    return {crate: [name for name in below if name in named] for crate, below in named.items()}


def longest_chain(below):
    """The number of crates in the longest chain of which each stands on the one before."""

    @functools.lru_cache(None)
    def height(crate):
        return 1 + max(map(height, below[crate]), default=0)

    return max(map(height, below))


def code_files(product=True):
    """The files of code; of product crates alone, or of all."""
    paths = [path for path in files_of("crates") if path.endswith(".rt") and path.split(os.sep)[2] == "src"]
    return [path for path in paths if is_product(path.split(os.sep)[1]) or not product]


def lines_of_code(text):
    """How many lines are neither empty, nor comments, nor imports, nor of contracts."""
    count = depth = 0
    for line in text.splitlines():
        is_contract = depth > 0 or CLAUSE.match(line)
        if is_contract:
            depth = max(0, depth + line.count("{") - line.count("}"))
        elif line.strip() and not re.match(r"\s*(?://|(?:pub )?use )", line):
            count += 1
    return count


def arguments_at(text, at):
    """How many arguments the function has whose name ends here."""
    depth, count, is_begun, before = 0, 0, False, ""
    while not (text[at] == "(" and depth == 0):
        depth += {"<": 1, ">": 0 if text[at - 1] in "-=" else -1}.get(text[at], 0)
        at += 1
    depth = 0
    for before, letter in zip(text[at:], text[at + 1 :]):
        if letter in "([{<":
            depth += 1
        elif letter in ")]}" or (letter == ">" and before not in "-="):
            depth -= 1
        if depth < 0:
            return count + is_begun
        if letter == "," and depth == 0:
            count, is_begun = count + is_begun, False
        elif not letter.isspace():
            is_begun = True
    return count


def functions():
    """The number of arguments of each product function."""
    for path in code_files():
        text = re.sub(r"//[^\n]*", "", read(path))
        for found in FUNCTION.finditer(text):
            yield arguments_at(text, found.end())


def clauses():
    """Whether each clause of the product's functions begins with a long line."""
    for path in code_files():
        for line in read(path).splitlines():
            if re.match(r"\s*(?:requires|ensures)\b", line):
                yield len(line) > LONG_LINE


def wide_lines():
    """How many lines of definitions are wide, but for imports and worked examples."""
    paths = [path for path in files_of("crates") if path.endswith(".antt") and path.split(os.sep)[2] == "specs" and path.split(os.sep)[3] != "rows"]
    lines = (line for path in paths for line in read(path).splitlines())
    return sum(len(line) > WIDE_LINE and not re.match(r"\s*(?:pub )?use ", line) for line in lines)


def with_many_arguments():
    """How many of the definitions that the pages' promise rests on have many arguments."""
    return sum(1 for _ in believed.with_many_arguments([root for _, roots in believed.PARTS for root in roots]))


def count_lines(paths):
    return sum(read(path).count("\n") for path in paths)


def is_touched(text, words, pattern):
    """Whether a text has the pattern."""
    return any(word in text for word in words) and re.search(pattern, text) is not None


def count_touched():
    """For each kind of change how many files name it."""
    paths = [path for folder in ("crates", "docs", "tests", "examples") for path in files_of(folder) if not path.endswith(MADE)]
    texts = [read(path) for path in [*paths, "README.md"]]
    return {kind: sum(is_touched(text, *how) for text in texts) for kind, how in TOUCHED.items()}


def figures():
    """Each figure."""
    below, counts, long = crates(), list(functions()), list(clauses())
    sizes = {crate: 0 for crate in below if is_product(crate)}
    for path in code_files():
        sizes[path.split(os.sep)[1]] += lines_of_code(read(path))
    texts = [path for path in files_of("crates") if path.endswith((".rt", ".antt"))]
    return {
        "crates": len(below),
        "longest chain of crates": longest_chain(below),
        "product crates under 150 lines of code": sum(size < FEW_LINES for size in sizes.values()),
        "product functions with 8 arguments or more": sum(count >= MANY_ARGUMENTS for count in counts),
        "most arguments of a product function": max(counts),
        "per mille of clauses that begin with a line over 100 columns": round(1000 * sum(long) / len(long)),
        "lines of proofs": count_lines(path for path in texts if path.split(os.sep)[2] == "proofs"),
        "lines of docs/PROVING.md": count_lines(["docs/PROVING.md"]),
        "promised definitions with more than four arguments": with_many_arguments(),
        "lines of definitions over 150 columns": wide_lines(),
        "lines of code, definitions and proofs": count_lines(texts),
        **count_touched(),
    }


def set_limits(now):
    """Writes these figures into this file, as limits."""
    path = os.path.abspath(__file__)
    text = read(path)
    for name, value in now.items():
        if name not in FIXED:
            limit = -(-value // 100) * 100 if value > MANY else value
            text = re.sub(rf'^    "{re.escape(name)}": \d+,$', f'    "{name}": {limit},', text, flags=re.M)
    with open(path, "w", encoding="utf-8") as file:
        file.write(text)


def main(words):
    if words not in ([], ["--check"], ["--set"]):
        print(__doc__, file=sys.stderr)
        return 2
    now, worse = figures(), 0
    if words == ["--set"]:
        set_limits(now)
        return 0
    for name, value in now.items():
        is_worse = value > LIMITS[name]
        worse += is_worse
        if not words or is_worse:
            print(f"{value:>8}  {name}; at most {LIMITS[name]}")
    if words:
        print(f"{len(LIMITS) - worse} of {len(LIMITS)} figures are within their limits")
    return 1 if words and worse else 0


if __name__ == "__main__":
    sys.exit(main(sys.argv[1:]))
