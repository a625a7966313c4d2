#!/usr/bin/env python3
"""Whether each wrong body can be applied: each `old:` line of an edit stands exactly once in the file that the edit names.
`rt ci` tries those in `must-fail`. Those in `must-fail-more` are tried by hand, so a change of a source may leave one behind."""
import pathlib
import sys


def faults_of(edit):
    """What is wrong with an edit, a line each."""
    crate = edit.parent.parent
    source, text = None, ""
    for line in edit.read_text().splitlines():
        word, _, rest = line.partition(": ")
        if word == "file":
            source = crate / rest
            text = source.read_text() if source.is_file() else ""
            if not text:
                yield f"{edit}: no file {source}"
        elif word == "old" and text and text.count(rest) != 1:
            yield f"{edit}: {text.count(rest)} times in {source}: {rest}"
    if source is None:
        yield f"{edit}: it names no file"


def main():
    edits = sorted(pathlib.Path("crates").glob("*/must-fail*/*.edit"))
    faults = [fault for edit in edits for fault in faults_of(edit)]
    for fault in faults:
        print(f"edits: {fault}")
    if faults:
        sys.exit(1)
    print(f"edits: {len(edits)} wrong bodies can be applied")


if __name__ == "__main__":
    main()
