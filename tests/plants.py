#!/usr/bin/env python3
"""Which wrong bodies the contracts let through, as data: docs/plants.tsv, and the two tables of docs/WRONG_BODIES.md that are made of it.

    tests/plants.py CRATE ..    runs `rt plant --all` in each crate's folder, and notes what it says. In front of the crates may stand
                                --jobs N, --minutes N and --max N, which are handed on to it
    tests/plants.py             writes the two tables anew from the data
    tests/plants.py --check     says where the page has other tables than the data, and which wrong body that comes through has no reason;
                                the status is 1 then

`rt plant` writes wrong bodies, its plants, under the signatures and clauses of a crate's public functions (`rt plant --help`). One comes through where the
check proves it, or where its function has no `ensures`. Why it stays is the last column of its row: it is written by hand, and a new run keeps it where
the row is the same. What is refused, and what is right since it answers the same, is a number for each crate. So is what doesn't compile or wasn't reached.

What `rt plant` says has to end with its line of counts, and to have as many rows. A run that was cut off before changes nothing.
"""

import collections
import datetime
import os
import re
import subprocess
import sys
import time

TOP = os.path.dirname(os.path.dirname(os.path.abspath(__file__)))
DATA = os.path.join(TOP, "docs", "plants.tsv")
PAGE = os.path.join(TOP, "docs", "WRONG_BODIES.md")
ENDS = "<!-- up to here -->\n"
OPTIONS = ("--jobs", "--minutes", "--max")

# What comes through, which plants couldn't be judged, what else has a row, and what is only counted.
THROUGH = ("proves", "no-ensures")
UNJUDGED = ("elsewhere", "not-judged")
NOTED = (*THROUGH, *UNJUDGED, "untested")
COUNTED = ("refused", "same", "not-source", "not-run")

# A row of what is said: `proves      src/queue.rt:12 Queue::put: { Ok(()) }  (why)`. Of a function alone stands `()` in place of its body.
SAID = re.compile(r"(?P<outcome>[a-z-]+) +src/\S+\.rt:\d+ (?P<function>.+?)(?:\(\)|: (?P<body>\{ .*?\})(?:  \(.*\))?)")
COUNTS = re.compile(r"(?m)^plants crate=(\w+) (.*)$")
# Longer bodies are cut.
LONGEST = 120
# What stands for the body of a function of which only its outcome is said.
NO_BODY = {"no-ensures": "any body"}

HEAD = """\
# run, crate, day, refused, same, not-source, not-run; a number that isn't known is left out
# plant, crate, function, the wrong body, outcome, why it stays; tests/plants.py writes all but the last column
"""

Run = collections.namedtuple("Run", ["crate", "day", *(word.replace("-", "_") for word in COUNTED)])
Plant = collections.namedtuple("Plant", "crate function body outcome why")


def whole(kind, row):
    """A row of the data, whose last columns are left out where they are empty."""
    return kind(*row, *[""] * (len(kind._fields) - len(row)))


def read_data():
    """The runs by their crates, and the plants."""
    with open(DATA, encoding="utf-8") as lines:
        rows = [line.rstrip("\n").split("\t") for line in lines if not line.startswith("#")]
    runs = [whole(Run, row[1:]) for row in rows if row[0] == "run"]
    return {run.crate: run for run in runs}, [whole(Plant, row[1:]) for row in rows if row[0] == "plant"]


def write_data(runs, plants):
    with open(DATA, "w", encoding="utf-8") as out:
        out.write(HEAD)
        for row in [("run", *run) for run in sorted(runs.values())] + [("plant", *plant) for plant in sorted(plants)]:
            out.write("\t".join(row).rstrip("\t") + "\n")


def shortened(body):
    return body if len(body) <= LONGEST else body[: LONGEST - 4] + ".. }"


def rows_of(said):
    """The rows that are said of single plants and functions."""
    found = (SAID.fullmatch(line.rstrip()) for line in said.splitlines())
    return [match for match in found if match]


def plants_in(crate, said):
    """Of these rows those that are more than a number."""
    rows = [row for row in rows_of(said) if row["outcome"] in NOTED]
    return [Plant(crate, row["function"], shortened(row["body"] or NO_BODY.get(row["outcome"], "")), row["outcome"], "") for row in rows]


def run_of(crate, said):
    """The counts that `rt plant` ends with. None where there are none, or where so many rows were not found: then they have another form than this knows."""
    counts = COUNTS.search(said)
    if counts is None or counts[1] != crate:
        return None
    numbers = dict(word.split("=") for word in counts[2].split() if not word.startswith("planted-in="))
    found = collections.Counter(row["outcome"] for row in rows_of(said))
    if any(found[word] != int(number) for word, number in numbers.items()):
        return None
    return Run(crate, datetime.date.today().isoformat(), *(numbers[word] for word in COUNTED))


def take(crate, said):
    """Puts what was said of a crate in place of what was noted before, with the reasons that still have their rows. Answers whether it was a whole run."""
    run = run_of(crate, said)
    if run is None:
        print(f"plants: {crate}: rt plant didn't end with counts that its rows have, so nothing is noted")
        return False
    runs, plants = read_data()
    before = {plant[:4]: plant.why for plant in plants if plant.crate == crate and plant.why}
    now = [plant._replace(why=before.get(plant[:4], "")) for plant in plants_in(crate, said)]
    for key in before.keys() - {plant[:4] for plant in now}:
        print(f"plants: no longer a row: {', '.join(key)}: {before[key]}")
    runs[crate] = run
    write_data(runs, [plant for plant in plants if plant.crate != crate] + now)
    return True


def folder_of(crate):
    return os.path.join(TOP, "crates", crate)


def plant_crate(crate, options):
    """Runs `rt plant` in a crate's folder. Answers whether it came to its end."""
    begun = time.monotonic()
    ran = subprocess.run(["rt", "plant", "--all", *options], cwd=folder_of(crate), stdout=subprocess.PIPE, encoding="utf-8")
    print(ran.stdout, end="")
    print(f"plants: {crate} took {time.monotonic() - begun:.0f} s", flush=True)
    return take(crate, ran.stdout)


def table(heads, rows):
    lines = ["| " + " | ".join(text.replace("|", "\\|") for text in row) + " |" for row in [heads, *rows]]
    return "\n".join([lines[0], "|" + "---|" * len(heads), *lines[1:]]) + "\n"


def row_of_crate(run, counts):
    """What is refused, what comes through, what couldn't be judged, and when it was tried. A number that isn't known is left out."""
    through, unjudged, untested = (sum(counts[run.crate, outcome] for outcome in kinds) for kinds in (THROUGH, UNJUDGED, ("untested",)))
    is_whole = run.not_run and run.not_source
    left = unjudged + int(run.not_run or 0)
    return [f"`{run.crate}`", run.refused, str(through), str(left) if is_whole or left else "", str(untested) if is_whole else "", run.day]


def table_of_crates(runs, plants):
    counts = collections.Counter((plant.crate, plant.outcome) for plant in plants)
    rows = [row_of_crate(run, counts) for run in sorted(runs.values())]
    return table(["Crate", "Refused", "Come through", "Not judged", "Untested functions", "Tried"], rows)


def quoted(text, is_code):
    return f"`{text}`" if is_code else text


def table_of_plants(plants):
    """A row for each plant that comes through. What was tried in earlier days is told in words, and a function without a name too."""
    rows = []
    for plant in sorted(plants):
        function, body = quoted(plant.function, not plant.function.startswith("a ")), quoted(plant.body, plant.body.startswith("{"))
        rows += [[f"`{plant.crate}`", function, body, plant.why]] * (plant.outcome in THROUGH)
    return table(["Crate", "Function", "Wrong body", "Why it stays"], rows)


def page_with(page, runs, plants):
    for words, lines in (("crates", table_of_crates(runs, plants)), ("plants", table_of_plants(plants))):
        begins = f"<!-- tests/plants.py writes the table of {words} that follows -->\n"
        before, rest = page.split(begins)
        page = before + begins + "\n" + lines + "\n" + ENDS + rest.split(ENDS, 1)[1]
    return page


def read_page():
    with open(PAGE, encoding="utf-8") as text:
        return text.read()


def write_page():
    new = page_with(read_page(), *read_data())
    with open(PAGE, "w", encoding="utf-8") as out:
        out.write(new)


def check():
    runs, plants = read_data()
    bare = [plant for plant in plants if plant.outcome in THROUGH and not plant.why]
    for plant in bare:
        print(f"plants: no reason stands in docs/plants.tsv for {', '.join(plant[:4])}")
    is_right = read_page() == page_with(read_page(), runs, plants)
    if not is_right:
        print("plants: docs/WRONG_BODIES.md has other tables than docs/plants.tsv: tests/plants.py writes them")
    return 0 if is_right and not bare else 1


def main(words):
    if words == ["--check"]:
        return check()
    options = []
    while len(words) > 1 and words[0] in OPTIONS:
        options, words = options + words[:2], words[2:]
    if (options and not words) or not all(os.path.isdir(folder_of(crate)) for crate in words):
        print(__doc__, file=sys.stderr)
        return 2
    are_whole = [plant_crate(crate, options) for crate in words]
    write_page()
    return 0 if all(are_whole) else 1


if __name__ == "__main__":
    sys.exit(main(sys.argv[1:]))
