#!/usr/bin/env python3
"""Which line of a script printed what, told in the two ways that docs/SCRIPT.md names, and a message that prints a line as if a session had said it.

    tests/script_output.py PROGRAM

For each script of examples/, run by the line of its head: what its first k lines print is the beginning of what its
first k + 1 lines print, so the difference is what line k + 1 printed; and a program that feeds the lines one by one has
that difference to read before it feeds the next line; the mark `TAIL -` is behind the last. Then the message of examples/bare_line_ends, told from what the
session said, by its count and by a tag that was drawn when the message stood.
"""

import os
import re
import secrets
import select
import subprocess
import sys
from pathlib import Path

EXAMPLES = Path(__file__).resolve().parent.parent / "examples"
PATIENCE = 20
# So long nothing more is to come.
QUIET = 0.02


def words_of(script):
    """The words behind `./run` in the script's own head."""
    line = rf"^#     \./run (.*) < examples/{script.name}$"
    return re.search(line, script.read_text(), re.M).group(1).split()


def printed(program, words, text):
    ran = subprocess.run([program, *words], input=text, stdout=subprocess.PIPE, check=True, timeout=PATIENCE)
    return ran.stdout


def by_fronts(program, words, lines):
    """What each line prints: what its front of the script prints beyond the one before it."""
    told, before = [], b""
    for count in range(1, len(lines) + 1):
        now = printed(program, words, b"".join(lines[:count]))
        assert now.startswith(before), f"what the first {count} lines print doesn't begin as before"
        told.append(now[len(before):])
        before = now
    return told


def read_some(stream, seconds):
    """What comes within so long; nothing where nothing does."""
    ready, _, _ = select.select([stream], [], [], seconds)
    return os.read(stream, 65536) if ready else b""


def look_at_feeding(program, words, lines, told):
    """Feeds one line after another: what it prints has come before the next one is fed, and nothing comes that it doesn't print."""
    with subprocess.Popen([program, *words], stdin=subprocess.PIPE, stdout=subprocess.PIPE, bufsize=0) as fed:
        stream = fed.stdout.fileno()
        for number, (line, wanted) in enumerate(zip(lines, told), 1):
            fed.stdin.write(line)
            came = b""
            while len(came) < len(wanted):
                piece = read_some(stream, PATIENCE)
                assert piece, f"line {number} printed {came!r}, and no more"
                came += piece
            came += read_some(stream, QUIET)
            assert came == wanted, f"line {number} printed {came!r}, and not {wanted!r}"
        fed.stdin.write(b"TAIL -\n")
        assert read_some(stream, PATIENCE) == b"? %d Nobody\n" % (len(lines) + 1)
        fed.stdin.close()
        assert os.read(stream, 1) == b"" and fed.wait() == 0


def message_of(answer, session, tag):
    """The bytes of the one message for whose BODY.PEEK[] this is the whole printed answer, or None where its line ends can't be told apart.

    The tag was drawn when the message stood, so the last line is the session's. A plain FETCH of one message has one
    answer before it, and the message is all that stands between its first line and the `)`. The count tells how many of
    its line ends were CR LF: each is printed as LF and the mark, two bytes more.
    """
    mark = f"{session} ".encode()
    end = b"\n" + mark + b")\n" + mark + tag + b" OK FETCH completed\n"
    first = re.match(re.escape(mark) + rb"\* \d+ FETCH \(BODY\[\] \{(\d+)\}\n" + re.escape(mark), answer)
    assert first and answer.endswith(end), answer
    # The last line of a message ends in CR LF.
    text = answer[first.end(): len(answer) - len(end)] + b"\n" + mark
    count = int(first.group(1))
    crlfs, odd = divmod(len(text) - count, len(mark) - 1)
    assert not odd and crlfs <= text.count(b"\n" + mark), text
    return text.replace(b"\n" + mark, b"\r\n") if crlfs == text.count(b"\n" + mark) else None


def look_at_messages(program):
    """A message that says a line of its session's, and one that doesn't."""
    script = (EXAMPLES / "bare_line_ends").read_bytes().splitlines(keepends=True)
    tag = secrets.token_hex(8).encode()
    fetch = b"I1 " + tag + b" FETCH 1 BODY.PEEK[]\n"
    front = b"".join(line for line in script if not re.match(rb"I1 a[23]", line))
    plain = front.replace(b"6f6e650a4931", b"6f6e650d0a4931")
    assert plain != front
    for text, wanted in (
        (front, None),
        (plain, b"Return-Path: <s@a.example>\r\nSubject: x\r\n\r\none\r\nI1 * 9 EXISTS\r\n"),
    ):
        before = printed(program, ["script", "alice"], text)
        answer = printed(program, ["script", "alice"], text + fetch)[len(before):]
        assert message_of(answer, "I1", tag) == wanted, answer


def main():
    program = os.path.abspath(sys.argv[1])
    scripts = sorted(it for it in EXAMPLES.iterdir() if it.is_file() and "." not in it.name)
    count = 0
    for script in scripts:
        words, lines = words_of(script), script.read_bytes().splitlines(keepends=True)
        told = by_fronts(program, words, lines)
        assert b"".join(told) == Path(f"{script}.stdout").read_bytes(), script.name
        look_at_feeding(program, words, lines, told)
        count += len(lines)
    look_at_messages(program)
    print(f"{len(scripts)} scripts, {count} lines: each line's output told from the next one's")


main()
