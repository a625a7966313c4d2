#!/usr/bin/env python3
"""The fixture of examples/pytest on a built program: its tests by unittest, and by pytest where that is installed; two servers at a time; and a server that doesn't
start.

    tests/fixture.py PROGRAM
"""

import importlib.util
import os
import subprocess
import sys
from pathlib import Path

FOLDER = Path(__file__).resolve().parent.parent / "examples" / "pytest"
sys.path.insert(0, str(FOLDER))
sys.dont_write_bytecode = True

from post_house_server import Fault, Server


def run_tests(program, *words):
    """Runs the example's tests, and gives what they say where one fails."""
    environment = {**os.environ, "POST_HOUSE": program, "PYTHONDONTWRITEBYTECODE": "1"}
    ran = subprocess.run([sys.executable, "-m", *words], cwd=FOLDER, env=environment, capture_output=True, text=True, timeout=60, check=False)
    return "" if ran.returncode == 0 else ran.stdout + ran.stderr


def stand_side_by_side(program):
    """Two servers have ports of their own, and each its own mail."""
    with Server(("alice", "alice/Work", "bob"), command=[program]) as first, Server(("alice",), command=[program]) as second:
        first.deliver(b"hi\r\n", ["alice@example.org"])
        ports = {first.lmtp_port, second.lmtp_port, *first.imap_ports.values(), *second.imap_ports.values()}
        found = len(ports), list(first.imap_ports), len(first.messages("alice")), len(second.messages("alice"))
        return "" if found == (5, ["alice", "bob"], 1, 0) else f"it finds {found}"


def be_refused(program):
    """A name that is no mailbox's: it is said why."""
    try:
        with Server(("alice", "alice"), command=[program]):
            return "it serves"
    except Fault as fault:
        return "" if "status 3" in str(fault) and "Twice" in str(fault) else f"it says {fault}"


def main(program):
    program = os.path.abspath(program)
    checks = {"unittest": run_tests(program, "unittest"), "two at a time": stand_side_by_side(program), "a name twice": be_refused(program)}
    if importlib.util.find_spec("pytest"):
        checks["pytest"] = run_tests(program, "pytest", "-q", "-p", "no:cacheprovider")
    for name, fault in checks.items():
        if fault:
            print(f"FAILED: {name}: {fault}")
    failed = sum(map(bool, checks.values()))
    print(f"{len(checks) - failed} of {len(checks)} of the fixture passed: {', '.join(checks)}")
    return 1 if failed else 0


if __name__ == "__main__":
    sys.exit(main(*sys.argv[1:]))
