#!/usr/bin/env python3
"""What a script tells in JSON is what it prints as text, line by line.

    tests/json_output.py PROGRAM

Each script of examples/, by the line of its head, each worked case and each dialogue is run in both forms: the statuses are the same, each line of the
JSON is an object of a number, a line and a text, the numbers rise, the line is the script's of that number, and the texts, one after another, are the
text form's bytes. A line that has no object is empty or a comment, and prints nothing. Then a message with a quote, a backslash, a NUL, a bare LF, a DEL
and bytes over 127, and lines of the script with such bytes, with no end, and too long to be one.
"""

import json
import os
import re
import subprocess
import sys
from pathlib import Path

TESTS = Path(__file__).resolve().parent
EXAMPLES = TESTS.parent / "examples"
PATIENCE = 60
# The most bytes that a line of a script may have.
MOST = 65_536

BODY = b'say "hi" \\ \x00 \x01 \x1f \x7f \x80 \xc3\xa9 \xff \n L1 x\r\n'
HARD = (
    b"L1 LHLO c.example\r\nL1 MAIL FROM:<s@a.example>\nL1 RCPT TO:<alice@example.org>\nL1 DATA\n"
    b"L1x " + BODY.hex().encode() + b"\nL1 .\n\n# a comment \xff\n"
    b'I1=alice\nI1 a1 SELECT INBOX\nI1 a2 FETCH 1 BODY.PEEK[]\nI1 "\\\x80\xff\t\x00\r\n'
    b"L2 " + MOST * b"x" + b"\n#" + 2 * MOST * b"x" + b"\nTAIL alice\r"
)


def words_of(script):
    """The words behind `./run` in the script's own head."""
    line = rf"^#     \./run (.*) < examples/{script.name}$"
    return re.search(line, script.read_text(), re.M).group(1).split()


def cases():
    """Of each script its name, its words and its bytes."""
    for script in sorted(it for it in EXAMPLES.iterdir() if it.is_file() and "." not in it.name):
        yield script.name, words_of(script), script.read_bytes()
    for folder in ("worked_cases", "dialogues"):
        for args in sorted((TESTS / folder).glob("*.args")):
            yield args.stem, args.read_text().splitlines(), args.with_suffix(".stdin").read_bytes()
    yield "bytes of every kind", ["script", "alice"], HARD


def run(program, words, text):
    ran = subprocess.run([program, *words], input=text, stdout=subprocess.PIPE, stderr=subprocess.PIPE, timeout=PATIENCE)
    return ran.returncode, ran.stdout


def lines_of(text):
    """The lines of a script, each without its LF and one CR before that."""
    *whole, last = text.split(b"\n")
    lines = [line[:-1] if line.endswith(b"\r") else line for line in whole]
    return lines + [last] if last else lines


def bytes_of(text):
    """The bytes that the characters stand for."""
    return text.encode("latin-1")


def look_at(program, name, words, text):
    """Compares both forms of one script, and says how many objects it has."""
    status, printed = run(program, words, text)
    if status == 2:
        return 0
    words = [words[0], "--json", *words[1:]]
    told_status, told = run(program, words, text)
    assert told_status == status, f"{name}: status {told_status}, and not {status}"
    assert told == b"" or told.endswith(b"\n"), name
    assert all(byte not in told for byte in range(32) if byte != 10), name
    lines, texts, seen = lines_of(text), [], 0
    for row in told.decode("utf-8").split("\n")[:-1]:
        it = json.loads(row)
        assert list(it) == ["number", "line", "printed"], f"{name}: {row}"
        assert all(is_silent(line) for line in lines[seen:it["number"] - 1]), f"{name}: a line is missing before {row}"
        assert seen < it["number"] <= len(lines), f"{name}: {row}"
        seen = it["number"]
        assert bytes_of(it["line"]) == lines[seen - 1][:MOST], f"{name}: {row}"
        texts.append(bytes_of(it["printed"]))
    assert status != 0 or all(is_silent(line) for line in lines[seen:]), f"{name}: the last lines are missing"
    assert b"".join(texts) == printed, f"{name}: the texts are not what is printed"
    return len(texts)


def is_silent(line):
    return line == b"" or line.startswith(b"#")


def main():
    program = os.path.abspath(sys.argv[1])
    counts = [look_at(program, *case) for case in cases()]
    print(f"{len(counts)} scripts, {sum(counts)} objects: their texts are what the text form prints")


main()
