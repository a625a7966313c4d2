#!/usr/bin/env python3
"""What the pages cite is there: each path of the repository in backquotes, each name that a table of docs/STANDARDS.md gives behind a path, and each
promise that a page gives as a function with its clause. And what a crate stands on, as its README.md says it, is what crates.txt says.

    tests/cited.py          the pages below, and each crate's README.md
    tests/cited.py PAGE ..  other pages; names are looked up on each of them

In the last cell of a row a name belongs to the path before it. Behind a file of specs/ or proofs/ it is a definition, a constructor, a field or
a worked example of that file; behind one of the code a function, a type, a constant or a variant; behind tests/worked_cases and tests/dialogues a
case with all its files. A path may have a star for what differs.

On a crate's own page a file may be called by its name alone: it stands in a folder of that crate, or of another that the page names.

A promise is cited as `drive` (crate `script`, clause `once`), with "clauses" before several, as `Visit::hear` (crate `imap_stream`, clause `ok`) where it
is a type's, or with no clause. There has to be such a public function in that crate's src/, which ensures each of these clauses; where none is named it
has to ensure anything at all. A program has no public functions: those of its main.rt count.

A crate's README.md has a sentence "It stands on ..": it names each crate of the line in crates.txt, or one that stands on it where the sentence goes on
with "and what those stand on"; and no crate that isn't there. Crates of tests alone, and those that measure, say instead what they try.
"""

import glob
import os
import re
import sys

TOP = os.path.dirname(os.path.dirname(os.path.abspath(__file__)))

# The pages that cite, and the one whose rows give names.
PAGES = ["README.md", "CHANGELOG.md", "CONTRIBUTING.md", "SECURITY.md", "docs/ARCHITECTURE.md", "docs/CRATES.md", "docs/DECISIONS.md", "docs/DEFINITIONS.md", "docs/LIMITS.md", "docs/OPERATING.md", "docs/PROMISE.md", "docs/SCRIPT.md", "docs/STANDARDS.md"]
WITH_NAMES = "docs/STANDARDS.md"

CASES = ("tests/worked_cases", "tests/dialogues")
PARTS = ("args", "stdin", "stdout", "status")

QUOTED = re.compile(r"`([^`]+)`")
A_FILE = re.compile(r"[\w/-]+\.(?:rt|antt|edit)")
A_CRATE = re.compile(r"crates/\w+")
A_PATH = re.compile(r"(?:crates|docs|tests|examples|packaging|bench|\.ci)/[\w./*-]*|HANDLES|README\.md|crates\.txt")
# A name that stands for any: there is no such path.
PLACEHOLDER = re.compile(r"(^|/)[A-Z]+(/|$)")

DECLARED = re.compile(r"\s*(?:pub )?(?:(?:abbrev|unfoldable|data|record) (?:pub )?)([^\s:({]+)")
MEMBERS = re.compile(r"(?:  )?(?:pub )?([^\W\d][\w ]*?) : ")
CLAIM = re.compile(r"`([\w:]+)`\s+\(crate\s+`(\w+)`(?:,\s+clauses?\s+([^()]*))?\)")
OWNER = re.compile(r"impl(?:<.*?>)? (?:.* for )?(?:\w+::)*(\w+)")
FUNCTION = re.compile(r" *(pub )?(?:const )?fn (\w+)")
ENSURES = re.compile(r" *ensures (?:(\w+) )?\{")
STANDS_ON = re.compile(r"\bstands\s+on\s+(no other crate\b|`[^.]*)\.")
AND_THEIRS = re.compile(r"\bwhat\s+(?:it|they|these|those)\s+stands?\s+on\b")
OF_CODE = re.compile(r"^\s*(?:pub(?:\(crate\))? )?(?:fn|struct|enum|trait|type|const|static) (\w+)|^    ([A-Z]\w*)(?:\(.*\),|,| \{)$", re.M)


def read(path):
    with open(os.path.join(TOP, path), encoding="utf-8") as text:
        return text.read()


def defined_in_specs(text):
    """The names that a file of definitions has."""
    names = set()
    for line in text.split("\n"):
        if line.startswith(("--", "use ")):
            continue
        declared = DECLARED.match(line)
        if declared:
            names.add(declared.group(1))
        elif members := MEMBERS.match(line):
            names.update(members.group(1).split())
    return names


class Names:
    """Which names a path has. Each file is read once."""

    def __init__(self):
        self.read = {}

    def of(self, path):
        if path not in self.read:
            if path.endswith(".antt"):
                self.read[path] = defined_in_specs(read(path))
            else:
                self.read[path] = {name for pair in OF_CODE.findall(read(path)) for name in pair if name}
        return self.read[path]

    def lacks(self, path, name):
        """Why a name isn't one of this path's, or None."""
        if path in CASES:
            lacking = [part for part in PARTS if not os.path.exists(os.path.join(TOP, path, f"{name}.{part}"))]
            return f"has no case {name}" if lacking else None
        if not path.endswith((".antt", ".rt")):
            return f"is no file whose names are looked up, as {name} is to be"
        return None if name in self.of(path) else f"has no {name}"


def functions_in(text, is_program):
    """The functions of a file that may be cited, each with the labels of what it ensures; a clause without one has the empty label."""
    found, owner, labels = {}, None, None
    for line in text.split("\n"):
        if line.startswith("impl"):
            owner, labels = OWNER.match(line), None
        elif function := FUNCTION.match(line):
            inside = f"{owner.group(1)}::" if owner and line.startswith(" ") else ""
            labels = found.setdefault(inside + function.group(2), set()) if function.group(1) or is_program else None
        elif line.strip() in ("{", "{}"):
            labels = None
        elif labels is not None and (ensures := ENSURES.match(line)):
            labels.add(ensures.group(1) or "")
    return found


class Functions:
    """What each crate's functions ensure. Each crate is read once."""

    def __init__(self):
        self.read = {}

    def of(self, crate):
        if crate not in self.read:
            self.read[crate] = {}
            for path in glob.glob(os.path.join(TOP, "crates", crate, "src", "**", "*.rt"), recursive=True):
                self.read[crate].update(functions_in(read(path), os.path.basename(path) == "main.rt"))
        return self.read[crate]

    def lacks(self, crate, name, clauses):
        """Why a crate doesn't promise this, or None."""
        labels = self.of(crate).get(name)
        if labels is None:
            return f"crate {crate} has no public function {name}"
        if not labels:
            return f"{name} of crate {crate} ensures nothing"
        missing = [clause for clause in clauses if clause not in labels]
        return f"{name} of crate {crate} ensures no {', no '.join(missing)}" if missing else None


class Crates:
    """What each crate stands on: of crates.txt its own line, and all that is below it."""

    def __init__(self):
        lines = [line.partition(":") for line in read("crates.txt").split("\n") if line and not line.startswith("#")]
        self.own = {crate: set(below.split()) for crate, _, below in lines}

    def below(self, crates):
        """These crates and all on which they stand."""
        found = set()
        waiting = list(crates)
        while waiting:
            crate = waiting.pop()
            if crate not in found:
                found.add(crate)
                waiting.extend(self.own.get(crate, ()))
        return found

    def lacks(self, crate, text):
        """Why this crate's README.md says something else than crates.txt, or None."""
        if crate.startswith("tests_") or crate.endswith("bench"):
            return None
        sentence = STANDS_ON.search(text)
        if not sentence:
            return "doesn't say on which crates it stands"
        named = set(QUOTED.findall(sentence.group(1)))
        wanted = self.own.get(crate, set())
        told = self.below(named) if AND_THEIRS.search(sentence.group(1)) else named
        if wanted - told:
            return f"stands on {', '.join(sorted(wanted - told))} too, by crates.txt"
        if more := (named & set(self.own)) - wanted:
            return f"doesn't stand on {', '.join(sorted(more))}, by crates.txt"
        return None


def is_there(path):
    if "*" in path:
        return bool(glob.glob(os.path.join(TOP, path)))
    return os.path.exists(os.path.join(TOP, path))


def path_in(quoted):
    """The path that a quoted text begins with, if it is one of the repository, or None."""
    first = quoted.split(" ")[0]
    return first if A_PATH.fullmatch(first) and (first == "HANDLES" or not PLACEHOLDER.search(first)) else None


def lines_of(page):
    """The lines of a page with their numbers, without its blocks of code."""
    inside = False
    for number, line in enumerate(read(page).split("\n"), 1):
        if line.startswith("```"):
            inside = not inside
        elif not inside and not line.startswith("    "):
            yield number, line


def last_cell(line):
    """The last cell of a table's row; nothing of another line."""
    return line.strip().strip("|").split("|")[-1] if line.startswith("|") else ""


class Check:
    def __init__(self):
        self.names, self.functions, self.crates = Names(), Functions(), Crates()
        self.paths = self.named = self.claims = 0
        self.missing = 0

    def miss(self, page, number, text):
        self.missing += 1
        print(f"cited: {page}:{number}: {text}")

    def look_at_paths(self, page, number, line):
        for path in filter(None, map(path_in, QUOTED.findall(line))):
            self.paths += 1
            if not is_there(path):
                self.miss(page, number, f"there is no {path}")

    def look_at_files(self, page, lines):
        """Files by their names alone, on the page of a crate."""
        crates = {os.path.dirname(page)} | {path for _, line in lines for path in A_CRATE.findall(line)}
        for number, line in lines:
            for name in filter(A_FILE.fullmatch, QUOTED.findall(line)):
                if path_in(name):
                    continue
                self.paths += 1
                if not any(glob.glob(f"{crate}/**/{name}", root_dir=TOP, recursive=True) for crate in crates):
                    self.miss(page, number, f"there is no {name} in {', '.join(sorted(crates))}")

    def look_at_names(self, page, number, cell):
        path = None
        for quoted in QUOTED.findall(cell):
            if path_in(quoted):
                path = path_in(quoted).rstrip("/")
            elif path is None:
                self.miss(page, number, f"{quoted} stands behind no path")
            elif is_there(path):
                self.named += 1
                if lack := self.names.lacks(path, quoted):
                    self.miss(page, number, f"{path} {lack}")

    def look_at_claims(self, page, lines):
        # A claim may go over a line's end.
        text = "\n".join(line for _, line in lines)
        for claim in CLAIM.finditer(text):
            self.claims += 1
            name, crate, clauses = claim.groups()
            if lack := self.functions.lacks(crate, name, QUOTED.findall(clauses or "")):
                self.miss(page, lines[text.count("\n", 0, claim.start())][0], lack)

    def look_at_standing(self, page):
        if lack := self.crates.lacks(page.split("/")[1], read(page)):
            self.miss(page, 1, lack)

    def look_at(self, page, with_names):
        lines = list(lines_of(page))
        self.look_at_claims(page, lines)
        if page.startswith("crates/"):
            self.look_at_files(page, lines)
            self.look_at_standing(page)
        for number, line in lines:
            self.look_at_paths(page, number, line)
            if with_names:
                self.look_at_names(page, number, last_cell(line))


def main(words):
    check = Check()
    pages = words or PAGES + sorted(glob.glob("crates/*/README.md", root_dir=TOP))
    for page in pages:
        check.look_at(page, page in words or page == WITH_NAMES)
    print(f"{len(pages)} pages, {check.paths} paths, {check.named} names, {check.claims} promises, {check.missing} missing")
    return 1 if check.missing else 0


if __name__ == "__main__":
    sys.exit(main(sys.argv[1:]))
