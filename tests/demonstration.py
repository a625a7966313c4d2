#!/usr/bin/env python3
"""The demonstration of README.md on a built program: each command that it shows is run, and prints what it shows. Then the server is started
once more by examples/hold_open.sh, which is told to end, and so ends it.

    tests/demonstration.py PROGRAM

A server is started as README.md starts one, but on ports that are free, which stand in the commands in place of the shown ones. A command begins with
`$`, and goes on while its lines end with a backslash; what it prints follows. A line of two dots stands for any lines. It wants curl.
"""

import os
import re
import signal
import subprocess
import sys

from serving_house import House, end_by_exit, free_ports, ports_of

TOP = os.path.dirname(os.path.dirname(os.path.abspath(__file__)))
USERS = ("alice", "bob")
# The ports that are shown: mail's, and the users'.
SHOWN = ("2424", "14300", "14301")


def block():
    """The lines of the demonstration, without their margin: those of the block of code that has a `$`."""
    with open(os.path.join(TOP, "README.md"), encoding="utf-8") as page:
        text = page.read()
    for found in re.findall(r"(?:^    .*\n|^\n(?=    ))+", text, re.M):
        lines = [line[4:] for line in found.rstrip("\n").split("\n")]
        if any(line.startswith("$ ") for line in lines):
            return lines[lines[0] == "" :]
    sys.exit("demonstration: README.md shows none")


def commands_in(lines):
    """What the server says first, and each command with what it prints."""
    said, commands, is_open = [], [], False
    for line in lines:
        if line.startswith("$ "):
            commands.append(([line[2:]], []))
        elif is_open:
            commands[-1][0].append(line)
        else:
            (commands[-1][1] if commands else said).append(line)
        is_open = bool(commands) and commands[-1][0][-1].endswith("\\") and not commands[-1][1]
    return said, [("\n".join(words), printed) for words, printed in commands]


def is_shown(wanted, came):
    """Whether these lines came, where two dots stand for any."""
    pattern = "".join(r"(?:.*\n)*" if line == ".." else re.escape(line) + "\n" for line in wanted)
    return re.fullmatch(pattern, came) is not None


def on_ports_of(house, text):
    """A text with this server's ports in place of the shown ones."""
    ports = dict(zip(SHOWN, map(str, [house.mail_port, *house.imap_ports])))
    return re.sub(r"\d+", lambda found: ports.get(found[0], found[0]), text)


def show(program):
    """Runs all commands, and says what failed, and of how many checks."""
    said, commands = commands_in(block())
    house = House(program, USERS, ("--uidvalidity", "7"))
    checks = [("what it listens on", said, house.said.decode())]
    for words, printed in commands:
        run = subprocess.run(["sh", "-c", on_ports_of(house, words)], cwd=TOP, capture_output=True, timeout=30, check=False)
        checks.append((words, printed, run.stdout.decode().replace("\r\n", "\n")))
    wrong = [
        f"{name}\n--- it printed\n{came}--- and not\n" + "\n".join(wanted)
        for name, wanted, came in checks
        if not is_shown([on_ports_of(house, line) for line in wanted], came)
    ]
    if (status := house.stop()) != 0 or house.faults():
        wrong.append(f"the server ended with status {status} and {house.faults()!r}")
    return wrong, len(checks) + 1


def hold_open(program):
    """Starts a server by the script, tells that to end, and says what was wrong, and of how many checks."""
    port = free_ports(2)
    options = [*ports_of(port, port + 1), "--uidvalidity", "7", "alice"]
    script = os.path.join(TOP, "examples", "hold_open.sh")
    held = subprocess.Popen([script, program, "serve", *options], stdout=subprocess.PIPE, stderr=subprocess.PIPE)
    said = held.stdout.readline() + held.stdout.readline()
    held.send_signal(signal.SIGTERM)
    more, faults = held.communicate(timeout=10)
    wanted = f"LMTP 127.0.0.1:{port}\nIMAP 127.0.0.1:{port + 1} alice\n".encode()
    if (said + more, faults, held.returncode) == (wanted, b"", 0):
        return [], 1
    return [f"hold_open.sh: {said + more!r}, {faults!r}, status {held.returncode}"], 1


def main(program):
    end_by_exit()
    failed = count = 0
    for part in (show, hold_open):
        wrong, checks = part(os.path.abspath(program))
        failed, count = failed + len(wrong), count + checks
        for text in wrong:
            print(f"FAILED: {text}")
    print(f"{count - failed} passed, {failed} failed")
    return 1 if failed else 0


if __name__ == "__main__":
    sys.exit(main(*sys.argv[1:]))
