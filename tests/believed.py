#!/usr/bin/env python3
"""What a reader has to believe: the definitions that the clauses of a public function cite, and those that these cite, and so on.

    tests/believed.py                       each file that has some, how many, and how many lines they take with their comments
    tests/believed.py --parts               the same in the parts in which the page lists them: the headline, which is over any dialogues; what of LMTP and of IMAP
                                            comes to it; and what README's sentence to a relay and the one to a client need besides, of a house on one thread, of a
                                            server and of a script. A definition counts in the first part that cites it, and what a law pins by its head and by that law
    tests/believed.py --page docs/DEFINITIONS.md    the same check that the gate makes: the page lists these files in these parts, each with its lines, and no other
                                            of specs/; the heads of its sections tell their sums; and each function that README's promise names is of a part that counts
    tests/believed.py CRATE::FUNCTION ..    those of other functions
    tests/believed.py --apart               whether what public clauses say stands apart, as the gate checks too: each definition of specs/ is cited by a
                                            clause that another crate can see, those of specs/inner/ by none, and specs/rows/ has tables of worked examples,
                                            which no clause cites

It goes by names: a definition counts where its name stands in the text of one that counts (or in a clause), and is its file's own or is
imported there. A constructor or a field counts with its type, what stands in a module with parameters as what stands outside one, and the traits that
a function asks of its types with its clauses. Types of the code are counted, and not opened; what the kit's libraries define is passed over.
"""

import os
import re
import sys

TOP = os.path.dirname(os.path.dirname(os.path.abspath(__file__)))

# Who carries the promise: the law over every list of events, a run of a script, a run of threads.
ROOTS = ["exactly_once::exactly_once_delivery", "script::run_script.once"]

# README's two sentences, of a house on one thread: what a relay may conclude, and what a client may.
TO_A_RELAY = ["laws_relay::relays_may_conclude_over_any.concluded"]
TO_A_CLIENT = ["laws_client::clients_are_right.right+counts", "laws_client::uids_stay.named"]

# The parts of the page, each with how the heads of its sections begin and the functions whose clauses cite it. Where
# clauses are named behind a function (`crate::function.clause+clause`), what it ensures besides is no part of the promise.
PARTS = [
    ("The headline", ["exactly_once::exactly_once_over_any"]),
    ("LMTP", ["exactly_once::connections_may_speak_lmtp"]),
    ("IMAP", ["exactly_once::sessions_may_speak_imap"]),
    ("To a relay", TO_A_RELAY),
    ("To a client", TO_A_CLIENT),
    (
        "Of a server",
        [
            "laws_relay::servers_conclude",
            "session_thread::shown_since_select.by_history",
            "imap_stream::attend.lived",
            "laws_client::served_visitors_keep_up.right+counts",
            "laws_client::served_texts_stay",
            "laws_relay::client_slots_conclude",
            "laws_relay::lines_conclude",
            "serving::serve_house.kept",
        ],
    ),
    ("Of a script", ROOTS),
    ("A script's lines", ["script::run_script.played"]),
    (
        "While a server runs",
        [
            "laws_relay::served_relays_conclude",
            "lane_work::books_stand.stand",
            "lane_work::converse.played+backed",
            "laws_client::served_visits_are_lives",
        ],
    ),
]

# What is spoken is a promise of its own, and so is what the lines of a script ask for. What single calls say while a server runs counts apart too.
APART = ["LMTP", "IMAP", "A script's lines", "While a server runs"]

# The parts that README's two sentences rest on where they are said of a house on one thread, whatever the dialogues are. Those of a server and of a script
# come to them where the sentences are said of these too.
SENTENCES = ["The headline", "To a relay", "To a client"]

# A program's own function hands on what `run_script` and `serve` say; no other crate can cite it.
OF_A_PROGRAM = {"post_house::command"}

# What the tables of worked examples begin with stands with the other words of its file.
WITH_ITS_FILE = set()

# What bodies alone say stands within a module that has parameters, beside the public words that share these.
WITHIN_ITS_MODULE = {("crates/shard_queue/specs/Closing.antt", "HasAllEnds"), ("crates/lane_work/specs/Streaming.antt", "SaysLast")}

# A definition of README's sentences has no more arguments than this, beside those of its section.
MOST_ARGUMENTS = 4

# What a law of a crate pins by a relation, whatever is given: it is the one function of which the law's clauses are so. Whoever believes the relation needn't read how
# it is computed, so of these their head counts, and what the law cites.
PINNED = {
    ("crates/line_io/specs/Wire.antt", "wire_lines"): "line_io::each_stream_is_cut_in_one_way",
    ("crates/line_io/specs/Wire.antt", "wire_rest"): "line_io::each_stream_is_cut_in_one_way",
    ("crates/envelope/specs/Reading.antt", "read"): "envelope::commands_are_read_by_the_grammar",
    ("crates/imap_grammar/specs/Reading.antt", "read"): "imap_grammar::lines_are_read_by_the_grammar.found+only",
    ("crates/imap_grammar/specs/Reading.antt", "is_done"): "imap_grammar::lines_are_read_by_the_grammar.done",
    ("crates/imap_grammar/specs/Literals.antt", "announced"): "imap_grammar::literals_are_announced",
}

# Words of a notation, which are no definitions.
NOTATION = {"infixr", "infixl", "use"}

WORD = re.compile(r"[^\s(){},;.]+(?:\.[^\s(){},;.]+)*")
DECLARED = re.compile(r"^(?:abbrev |unfoldable )?(?:pub )?(?:(data|record) )?(\S+)")
IMPORT = re.compile(r"\s*(?:ghost |pub )?use (Rattle[\w.]*)(?:\.\{(.*)\})?(?: as (\S+?))?;?\s*$")


def at_the_margin(lines):
    """The lines of a file, those within modules that have parameters at the margin too, each with whether it is one of those."""
    depth, is_head = 0, False
    for line in lines:
        while depth and line and not is_head and not line.startswith("  " * depth):
            depth -= 1
        line = line[2 * depth :]
        if is_head or re.match(r"module _ ", line):
            # A head is no line of a definition, as an import isn't. What is said above it counts with the first definition behind it.
            is_head = not line.endswith(" where")
            depth += not is_head
        else:
            yield line, depth > 0


class Source:
    """A file: its definitions, each with its text and its number of lines, and what its names mean."""

    def __init__(self, path):
        self.path = path
        self.text = {}
        self.lines = {}
        self.owner = {}
        self.imported = {}
        self.modules = {}
        self.within = set()

    def read_import(self, line):
        found = IMPORT.match(line)
        if not found:
            return
        module, names, alias = found.groups()
        if names is None:
            self.modules[alias or module.split(".")[-1]] = module
            return
        for item in filter(None, (item.strip() for item in names.split(","))):
            name, _, local = item.partition(" as ")
            self.imported[(local or name).strip()] = (module, name.strip())

    def read_definitions(self, lines):
        current, kind, comment = None, None, 0
        for line, inside in at_the_margin(lines):
            if not line.strip():
                current, comment = None, 0
            elif line.startswith("--"):
                comment += 1
            elif re.match(r"(pub )?use ", line):
                self.read_import(line)
                comment = 0
            elif re.match(r"(abbrev|unfoldable|pub|data|record) ", line):
                kind, current = DECLARED.match(line).groups()
                self.text[current] = line
                self.lines[current] = 1 + comment
                if inside:
                    self.within.add(current)
                comment = 0
            elif current is not None:
                self.text[current] += "\n" + line
                self.lines[current] += 1 + comment
                comment = 0
                if kind == "data" and (made := re.match(r"  (?:pub )?(\S+) : ", line)):
                    self.owner[made.group(1)] = current


class Closure:
    """The definitions that were reached, file by file. Where `by_laws` is said, those that a law pins are passed over, and the law is read in their place."""

    def __init__(self, by_laws=False):
        self.by_laws = by_laws
        self.sources = {}
        self.reached = {}
        self.types = set()
        self.open = []

    def source_of(self, module):
        found = re.match(r"Rattle\.(\w+)\.specs\.(.*)$", module)
        if not found:
            return None
        crate, rest = found.groups()
        path = f"crates/{crate}/specs/{rest.replace('.', '/')}.antt"
        if path not in self.sources:
            if not os.path.exists(os.path.join(TOP, path)):
                return None
            source = Source(path)
            with open(os.path.join(TOP, path), encoding="utf-8") as lines:
                source.read_definitions(lines.read().split("\n"))
            self.sources[path] = source
        return self.sources[path]

    def reach(self, module, name):
        declared = re.match(r"Rattle\.(\w+)\.specs\.declared\.(.*)$", module)
        if declared:
            if os.path.isdir(os.path.join(TOP, "crates", declared.group(1))):
                self.types.add((declared.group(1), declared.group(2).split(".TheVariants")[0]))
            return
        source = self.source_of(module)
        if source is not None:
            self.use(source, name)

    def use(self, source, name):
        name = source.owner.get(name, name)
        if name in source.text:
            names = self.reached.setdefault(source.path, set())
            if name not in names:
                names.add(name)
                law = self.by_laws and PINNED.get((source.path, name))
                if law:
                    # The head is all but the equations.
                    source.lines[name] -= source.text[name].count("\n")
                    self.clauses_of(law)
                else:
                    self.open.append((source, source.text[name]))
        elif name in source.imported:
            self.reach(*source.imported[name])

    def scan(self, source, text):
        text = re.sub(r'"(?:\\.|[^"\\])*"|--.*', "", text)
        for word in WORD.findall(text):
            first, *rest = word.split(".")
            if rest and first in source.modules:
                self.reach(source.modules[first], rest[0])
            self.use(source, first)
        for name in [n for n in (*source.imported, *source.text) if "◌" in n]:
            signs = [sign for sign in name.split("◌") if sign]
            if all(re.search(rf"(^|[\s(]){re.escape(sign)}($|[\s)])", text) for sign in signs):
                self.use(source, name)

    def is_cited(self, source, name):
        """Whether a definition was reached. A word that is short for one of a module with parameters is as good as that."""
        short_for = re.search(rf"\n{re.escape(name)}[^=\n]* = (\w+)\.(\S+)[^\n]*$", source.text[name])
        if short_for and (module := source.modules.get(short_for.group(1))):
            other = self.source_of(module)
            if other is not None and short_for.group(2) in other.within:
                return short_for.group(2) in self.reached.get(other.path, ())
        return name in self.reached.get(source.path, ())

    def clauses_of(self, root):
        crate, function = root.split("::")
        function, _, clauses = function.partition(".")
        folder = os.path.join(TOP, "crates", crate, "src")
        for file in sorted(os.listdir(folder)):
            with open(os.path.join(folder, file), encoding="utf-8") as code:
                text = code.read()
            found = re.search(rf"^( *)pub fn {function}\b.*?\n\1\{{", text, re.S | re.M)
            if found:
                source = Source(file)
                for line in text.split("\n"):
                    source.read_import(line)
                self.scan(source, with_these(found.group(0), clauses.split("+")) if clauses else found.group(0))
                for name in re.findall(r": (\w+)", found.group(0).split("(")[0]):
                    for asked in re.findall(rf"^pub trait {name}\b.*?^\}}", text, re.S | re.M):
                        self.scan(source, asked)
                return
        sys.exit(f"believed: no public function {root}")

    def follow(self):
        while self.open:
            self.scan(*self.open.pop())


def public_text(code):
    """What the clauses of a file say that another crate can see: those of public functions, of public traits and of what is written for a trait, and
    what a model's value and a public ghost field are."""
    text, block, end = [], None, None
    for line in code.split("\n"):
        if line.startswith("}"):
            block = None
        elif re.match(r"pub (unsafe )?trait ", line):
            block = "trait"
        elif found := re.match(r"impl\b.*?(\bModel)? for ", line):
            block = "model" if found.group(1) else "impl"
        elif found := re.match(r"( *)pub (?:const |unsafe )*fn ", line):
            end = found.group(1) + "{"
        if found := re.match(r" +pub ghost \w+: (\{.*?\})", line):
            text.append(found.group(1))
        if block == "trait" or end is not None or (block == "model" and "ghost Value" in line):
            text.append(line)
        elif block == "impl" and re.match(r"\s+(ensures|requires|ghost (?!use))", line):
            text.append(line)
        if end is not None and (line.startswith(end) or re.search(r"[\w>)] \{$", line)):
            end = None
    return "\n".join(text)


def sources_of(folder):
    for where, _, files in os.walk(folder):
        for file in sorted(files):
            yield os.path.join(where, file)


def cited_in_public():
    """What the clauses of all crates say that another crate can see."""
    closure = Closure()
    for crate in sorted(os.listdir(os.path.join(TOP, "crates"))):
        for path in sources_of(os.path.join(TOP, "crates", crate, "src")):
            with open(path, encoding="utf-8") as code:
                text = code.read()
            source = Source(path)
            for line in text.split("\n"):
                source.read_import(line)
            closure.scan(source, public_text(text))
    closure.follow()
    return closure


def apart():
    """The definitions that stand on the wrong side, and how many stand on each."""
    closure = cited_in_public()
    wrong, sides = [], {"specs": 0, "inner": 0, "rows": 0}
    for crate in sorted(os.listdir(os.path.join(TOP, "crates"))):
        for path in sources_of(os.path.join(TOP, "crates", crate, "specs")):
            path = os.path.relpath(path, TOP)
            side = path.split("/")[3] if path.count("/") == 4 else "specs"
            if path.endswith("/Lib.antt") or path.islower():
                continue
            source = closure.source_of("Rattle." + path[len("crates/"):-len(".antt")].replace("/", "."))
            if source is None:
                continue
            sides[side] += len(source.text)
            for name in source.text:
                if name in NOTATION or (path, name) in WITH_ITS_FILE | WITHIN_ITS_MODULE:
                    continue
                is_cited = closure.is_cited(source, name)
                # A worked example need not be cited, and what is cited is none.
                if is_cited != (side == "specs") and (is_cited or side != "rows"):
                    wrong.append(f"{path}: {name} is cited by {'a' if is_cited else 'no'} public clause")
    return wrong, sides


def with_these(contract, names):
    """A function's head and contract, of which among the clauses that it ensures only those of these names stay."""
    head, *clauses = re.split(r"^ +(?=(?:requires|ensures)\b)", contract, flags=re.M)
    return head + "".join(clause for clause in clauses if clause.startswith("requires") or clause.split()[1] in names)


def closure_of(roots):
    """The definitions that the clauses of these functions rest on."""
    closure = Closure(by_laws=True)
    for root in roots:
        closure.clauses_of(root)
    closure.follow()
    return closure


def sizes_beyond(closure, before):
    """The files of a closure, each with the lines of its definitions that aren't among these, where there are any."""
    sizes = {path: sum(closure.sources[path].lines[n] for n in names - before.get(path, set())) for path, names in closure.reached.items()}
    return {path: lines for path, lines in sizes.items() if lines}


def arguments_in(groups):
    """How many names the groups in parentheses of a head have, such as `(a b : A) (c : B)`, up to its type."""
    count = depth = begun = 0
    for at, letter in enumerate(groups):
        if letter in "({":
            begun = at if depth == 0 else begun
            depth += 1
        elif letter in ")}":
            depth -= 1
            if depth == 0 and groups[begun] == "(":
                count += len(groups[begun + 1 : at].split(" : ")[0].split())
        elif letter == ":" and depth == 0:
            break
    return count


def patterns_in(side):
    """How many arguments the left side of an equation has."""
    count, depth, within = 0, 0, False
    for letter in side:
        if depth == 0 and letter != " " and not within:
            count += 1
        depth += {"(": 1, "[": 1, ")": -1, "]": -1}.get(letter, 0)
        within = depth > 0 or letter != " "
    return count


def arguments_of(name, text):
    """How many arguments a definition has, beside those of the modules that it stands in: of a type the names of its head, of a function what stands on the
    left side of its first equation."""
    if kind := DECLARED.match(text).group(1):
        return arguments_in(" ".join(text.split("\n")).split(f"{kind} {name}", 1)[1])
    equation = re.search(rf"\n{re.escape(name)}\b(.*?) =(?: |\n|$)", text)
    return patterns_in(equation.group(1)) if equation else 0


def with_many_arguments(roots):
    """The definitions that the clauses of these functions rest on and that have more than four arguments, each with its file."""
    closure = closure_of(roots)
    for path, names in sorted(closure.reached.items()):
        texts = closure.sources[path].text
        yield from ((path, name) for name in sorted(names) if arguments_of(name, texts[name]) > MOST_ARGUMENTS)


def parts():
    """Each part with the files that come in it, and the lines of these."""
    before = {}
    for head, roots in PARTS:
        closure = closure_of(roots)
        yield head, sizes_beyond(closure, before)
        for path, names in closure.reached.items():
            before.setdefault(path, set()).update(names)


def of_parts(found, heads):
    """The files that these parts rest on, and their lines, by what came of all parts."""
    files = [sizes for head, sizes in found if head in heads]
    return len({path for sizes in files for path in sizes}), sum(sum(sizes.values()) for sizes in files)


def of_all(found):
    """The same of the two sentences in each kind of house, whatever is spoken."""
    return of_parts(found, [head for head, _ in PARTS if head not in APART])


def named_in(page, head):
    """The functions that a section of a page names, each with its crate."""
    with open(page, encoding="utf-8") as text:
        section = next(it for it in re.split(r"^## ", text.read(), flags=re.M) if it.startswith(head))
    for names, crate in re.findall(r"((?:`\w+`(?:, | and |, and of all that a stopped server leaves )?)+)(?: of)? \(crate `(\w+)`", section):
        yield from (f"{crate}::{name}" for name in re.findall(r"`(\w+)`", names))


def listed_in(page):
    """The sections of a page that list files of specs/: the head of each, the lines that it tells, and the files with the lines that it tells of them, None
    where it tells none."""
    with open(page, encoding="utf-8") as text:
        sections = re.split(r"^##+ ", text.read(), flags=re.M)
    for section in sections:
        head = section.split("\n")[0]
        found = re.findall(r"`(crates/\w+/specs/\w+\.antt)`(?: \((\d+)\))?", section)
        if found:
            told = re.search(r"\(([\d,]+) lines\)$", head)
            yield head, told and int(told.group(1).replace(",", "")), {path: int(lines) if lines else None for path, lines in found}


def part_of(head):
    """Which part a section of the page belongs to."""
    return next(number for number, (begins, _) in enumerate(PARTS) if head.startswith(begins))


def wrong_on(page):
    """What a page tells otherwise than it is."""
    listed = [{} for _ in PARTS]
    for head, told, files in listed_in(page):
        listed[part_of(head)].update(files)
        if told is not None and told != sum(filter(None, files.values())):
            yield f"tells {told} lines at `{head}`, which has {sum(filter(None, files.values()))}"
    found = list(parts())
    with open(page, encoding="utf-8") as text:
        told = re.search(r"reads ([\d,]+) lines in (\d+) files", text.read())
    first = f"{sum(found[0][1].values()):,}", str(len(found[0][1]))
    if not told or told.groups() != first:
        yield f"doesn't tell that the headline is {first[0]} lines in {first[1]} files"
    with open(page, encoding="utf-8") as text:
        told = text.read()
    told_of = (("README's two sentences rest", of_parts(found, SENTENCES)), ("in each house they rest", of_all(found)))
    for whose, (files, lines) in told_of:
        if f"rest on {lines:,} lines in {files} files" not in told:
            yield f"doesn't tell that {whose} on {lines:,} lines in {files} files"
    for section, parts_of_it in (("What is promised", [them for head, them in PARTS if head not in APART]), ("What else is proved", [them for _, them in PARTS])):
        roots = {root.partition(".")[0] for them in parts_of_it for root in them} | OF_A_PROGRAM
        names = named_in(os.path.join(TOP, "README.md"), section)
        yield from (f"has no part for {name}, which README names in its section `{section}`" for name in names if name not in roots)
    for (head, sizes), files in zip(found, listed):
        where = f"in its part `{head}`" if head else "in its last part"
        yield from (f"doesn't list {path} {where}" for path in sizes.keys() - files.keys())
        yield from (f"lists {path} {where}, which nothing cites there" for path in files.keys() - sizes.keys())
        yield from (f"tells {files[path]} lines of {path} {where}, which has {n}" for path, n in sizes.items() if files.get(path) not in (None, n))


def tell_apart():
    wrong, sides = apart()
    for line in wrong:
        print(f"believed: {line}")
    print(f"{sides['specs']} definitions of public clauses, {sides['inner']} of bodies and proofs, {sides['rows']} of worked examples")
    return 1 if wrong else 0


def tell_parts():
    found = list(parts())
    for head, sizes in found:
        for path in sorted(sizes):
            print(f"{path}: {sizes[path]} lines")
        print(f"{head or 'The others'}: {len(sizes)} files, {sum(sizes.values())} lines")
    print("Whatever is spoken:")
    for whose, (files, lines) in (
        ("README's two sentences, of a house on one thread", of_parts(found, SENTENCES)),
        ("the two sentences, of each house", of_all(found)),
    ):
        print(f"{whose}: {files} files, {lines} lines")
    return 0


def main(words):
    if words == ["--apart"]:
        return tell_apart()
    if words == ["--parts"]:
        return tell_parts()
    if len(words) == 2 and words[0] == "--page":
        wrong = sorted(wrong_on(words[1]))
        for line in wrong:
            print(f"believed: {words[1]} {line}")
        return 1 if wrong else 0
    if any("::" not in root for root in words):
        print(__doc__, file=sys.stderr)
        return 2
    closure = closure_of(words or ROOTS)
    sizes = sizes_beyond(closure, {})
    for path in sorted(sizes):
        print(f"{path}: {sizes[path]} lines, {len(closure.reached[path])} of {len(closure.sources[path].text)} definitions")
    print(f"{len(sizes)} files, {sum(sizes.values())} lines of definitions, {len(closure.types)} types of the code")
    return 0


if __name__ == "__main__":
    sys.exit(main(sys.argv[1:]))
