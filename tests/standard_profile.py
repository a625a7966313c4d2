#!/usr/bin/env python3
"""What the compatible profile has is refused without `--compatible`, and changes nothing there.

    tests/standard_profile.py PROGRAM [ROUNDS]

Each case of tests/worked_cases/ and tests/dialogues/ that has a session and runs without `--compatible` is played again in so many rounds (5), with commands of the
compatible profile put in at random, the same ones in each run. Each of these has to be answered by the one line that stands beside it in REFUSALS. All else that is
printed has to be what stands in the case's own file, byte for byte.

A command is put in where its session waits for one: behind the line that opens it, and before a command, up to the first literal, IDLE or LOGOUT of that session.
"""

import random
import re
import subprocess
import sys
from pathlib import Path

TESTS = Path(__file__).resolve().parent
# How the standard profile refuses them.
WRONG_STATE, UNKNOWN, INVALID, LEFT_OUT = b"BAD Wrong state", b"BAD Unknown command", b"BAD Invalid arguments", b"NO [CANNOT] Not offered here"
REFUSALS = {
    "LOGIN alice x": WRONG_STATE,
    "AUTHENTICATE PLAIN": WRONG_STATE,
    "AUTHENTICATE PLAIN AGFsaWNlAHg=": WRONG_STATE,
    "ID NIL": UNKNOWN,
    'ID ("name" "x")': UNKNOWN,
    "CHECK": UNKNOWN,
    'LSUB "" *': UNKNOWN,
    "ENABLE CONDSTORE": LEFT_OUT,
    "SUBSCRIBE INBOX": LEFT_OUT,
    "UNSUBSCRIBE INBOX": LEFT_OUT,
    "STATUS INBOX (RECENT)": INVALID,
    "FETCH 1 INTERNALDATE": INVALID,
    "UID FETCH 1:* (UID INTERNALDATE)": INVALID,
    "FETCH 1 FAST": INVALID,
    "FETCH 1 RFC822": INVALID,
    "FETCH 1 RFC822.HEADER": INVALID,
    "FETCH 1 (RFC822.TEXT FLAGS)": INVALID,
    "FETCH 1 BODY[HEADER.FIELDS (Subject)]": INVALID,
    'FETCH 1 BODY.PEEK[HEADER.FIELDS.NOT ("Subject")]<0.5>': INVALID,
    "COPY 1 INBOX": LEFT_OUT,
    "UID COPY 1:* INBOX": LEFT_OUT,
    "MOVE 1 INBOX": LEFT_OUT,
    "UID MOVE 1 INBOX": LEFT_OUT,
    "SEARCH ALL": LEFT_OUT,
    "SEARCH NOT SEEN": LEFT_OUT,
    "UID SEARCH UID 1:*": LEFT_OUT,
    "SEARCH RETURN (MIN COUNT) ALL": LEFT_OUT,
    "SEARCH CHARSET UTF-8 TEXT x": LEFT_OUT,
}
# What a session waits for behind these is no command, or nobody waits.
LAST = re.compile(r"\{\d+\+?\}$|^\S+ (IDLE|LOGOUT)$", re.IGNORECASE)


def places(lines):
    """Before which line a command of which session may stand."""
    opened = set()
    for number, line in enumerate(lines):
        session, _, rest = line.partition(" ")
        if re.fullmatch(r"I[1-8]=.*", line):
            session = line.partition("=")[0]
            opened.add(session)
            yield number + 1, session
        elif session in opened:
            if rest == "" or not re.match(r"\w+ \w", rest):
                opened.discard(session)
                continue
            yield number, session
            if LAST.search(rest):
                opened.discard(session)


def played(program, words, text):
    return subprocess.run([program, *words], input=text, capture_output=True, timeout=60, check=False)


def put_in(lines, chance):
    """The lines with some commands put in, and for each the number of its line, how that begins, and its refusal."""
    spots = list(places(lines))
    chosen = sorted(chance.sample(spots, min(len(spots), chance.randint(1, 4))))
    said, asked = list(lines), {}
    for count, (number, session) in enumerate(chosen):
        command = chance.choice(sorted(REFUSALS))
        said.insert(number + count, f"{session} zz{count} {command}")
        asked[number + count + 1] = (f"{session} zz{count} ".encode(), REFUSALS[command])
    return said, asked


def is_as_before(program, words, lines, wanted, chance):
    """Whether the case with commands put in prints what it has to print without them, and refuses each. To a peer that isn't there nothing is said."""
    said, asked = put_in(lines, chance)
    out = played(program, words, "\n".join(said).encode() + b"\n").stdout
    left, rest = dict(asked), []
    for line in out.split(b"\n"):
        script = re.fullmatch(rb"\? (\d+) (Nobody|Busy)", line)
        if script and int(script[1]) in left:
            del left[int(script[1])]
            continue
        number = next((number for number, (front, refusal) in left.items() if line == front + refusal), None)
        if number is None:
            # A line of the script that can't be taken is named by its number, which is another one now.
            rest.append(re.sub(rb"^\? \d+ ", b"? ", line))
        else:
            del left[number]
    right = not left and b"\n".join(rest) == re.sub(rb"(?m)^\? \d+ ", b"? ", wanted)
    if not right:
        print("\n".join(said), out.decode(errors="replace"), sep="\n---\n")
    return right


def main(program, rounds="5"):
    passed = failed = 0
    for words in sorted([*TESTS.glob("worked_cases/*.args"), *TESTS.glob("dialogues/*.args")]):
        case = words.with_suffix("")
        arguments = words.read_text().split("\n")[:-1]
        lines = Path(f"{case}.stdin").read_text(errors="surrogateescape").split("\n")[:-1]
        if arguments[:1] != ["script"] or "--compatible" in arguments or not list(places(lines)):
            continue
        if Path(f"{case}.status").read_text().strip() != "0":
            continue
        wanted = Path(f"{case}.stdout").read_bytes()
        for number in range(int(rounds)):
            if is_as_before(program, arguments, lines, wanted, random.Random(f"{case.name} {number}")):
                passed += 1
            else:
                failed += 1
                print(f"{case.name}, round {number}: something else is printed")
    print(f"{passed} passed, {failed} failed")
    return 1 if failed or passed == 0 else 0


if __name__ == "__main__":
    sys.exit(main(*sys.argv[1:]))
