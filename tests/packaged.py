#!/usr/bin/env python3
"""What a package has put below a folder, used from there.

    tests/packaged.py ROOT PROGRAM

- The command takes mail for two users, who read it. It is told SIGTERM while a relay brings message after message. Each message that was answered 250 by then was
  read just before; who idles is told BYE at last; the relay is told 421 or reads the end, and nothing else but replies; the status is 0, within six seconds.
- So it is where the signal goes to all processes of its group, and with SIGINT and SIGHUP. The program's own words (`--version`, a script) come out of the command.
- The man page has each option that the program has, and each exit status. The unit runs what the package has.
- Where systemd-analyze is there, it takes the unit's exposure for less than 2.0.
"""

import gzip
import os
import re
import shutil
import signal
import subprocess
import sys
import threading
import time
from pathlib import Path

TOP = Path(__file__).resolve().parent.parent
sys.path.insert(0, str(TOP / "examples" / "pytest"))
sys.dont_write_bytecode = True

from post_house_server import Server
from talks import DELIVERED, ImapTalk, MailTalk, Over, Wrong, data_of, name_of
from serving_house import connect, end_by_exit, is_gone

# So many seconds a server has to end in.
IN_TIME = 6


class Installed(Server):
    """A server that is run by the installed command, and stopped by a signal to the command, or to its group."""

    def __init__(self, command, number, is_to_all=False):
        # What a shell starts in the background has SIGINT ignored, and a script can't trap what it was started with ignored.
        super().__init__(("alice", "bob"), command=["env", "--default-signal", "setsid", command])
        self.number, self.is_to_all = number, is_to_all

    def end(self):
        (os.killpg if self.is_to_all else os.kill)(self.process.pid, self.number)


def expect(what, came, wanted):
    """This has to have come."""
    if came != wanted:
        raise Wrong(f"{what}: {came!r} came in place of {wanted!r}")


class Relay(threading.Thread):
    """A relay that brings message after message to alice until it is told to go. `brought` has the names of those that were answered 250."""

    def __init__(self, server):
        super().__init__()
        self.peer, self.brought, self.end = MailTalk(connect(server.lmtp_port)).open(), [], None
        self.start()

    def run(self):
        try:
            while self.end is None:
                name = f"m{len(self.brought) + 1}"
                answers = self.peer.deliver(["alice"], data_of(name))
                if answers == [DELIVERED]:
                    self.brought.append(name)
                    # However long a busy machine takes until the stop, the mailbox isn't full by then.
                    time.sleep(0.005)
                else:
                    self.end = f"{answers!r} was said of a message"
        except Over:
            self.end = ""
        except Wrong as fault:
            self.end = "" if "b'421 4.3.2 Shutting down' came in place of" in str(fault) else str(fault)


def read_names(server):
    """The names of the messages that alice reads."""
    reader = ImapTalk(connect(server.imap_ports["alice"])).open()
    reader.ask(b"SELECT INBOX")
    answers, _ = reader.ask(b"UID FETCH 1:* (BODY.PEEK[])")
    reader.ask(b"LOGOUT")
    reader.close()
    return [name_of(answer.partition(b"\r\n")[2]) for answer in answers if b" BODY[] " in answer]


def stop_under_mail(command, number, is_to_all):
    """A server is told to stop while mail comes."""
    server = Installed(command, number, is_to_all)
    server.start()
    group, idler, relay = server.process.pid, ImapTalk(connect(server.imap_ports["alice"])).open(), Relay(server)
    idler.ask(b"SELECT INBOX")
    idler.start(b"IDLE")
    while len(relay.brought) < 20 and relay.is_alive():
        time.sleep(0.01)
    brought = list(relay.brought)
    expect("what can be read", read_names(server)[: len(brought)], brought)
    began = time.monotonic()
    server.stop()
    if time.monotonic() - began > IN_TIME:
        raise Wrong(f"it took {time.monotonic() - began:.1f} s to end")
    relay.join()
    expect("how the relay ended", relay.end, "")
    expect("whether mail was brought", len(relay.brought) >= 20, True)
    expect("the last of one who idles", idler.rest().split(b"\r\n")[-2:], [b"* BYE Shutting down", b""])
    expect("whether all of it is gone", is_gone(group), True)


def read_mail(command):
    """A message for two is read by both, and the server is stopped."""
    message = b"Subject: hello\r\n\r\n.hi\r\n"
    with Installed(command, signal.SIGTERM) as server:
        answers = server.deliver(message, ["alice@example.org", "bob@example.org", "carol@example.org"])
        expect("the answers", [code for code, _ in answers.values()], [250, 250, 550])
        for user in ("alice", "bob"):
            expect(f"{user}'s mail", server.messages(user), [b"Return-Path: <sender@example.com>\r\n" + message])


def speak_as_the_program(command, program):
    """What isn't `serve` is the program's own."""
    script = (TOP / "examples" / "first_message").read_bytes()
    for words, text in ((["--version"], b""), (["script", "alice"], script), (["serve", "--help"], b""), (["serve", "alice", "alice"], b"")):
        ran = [subprocess.run([it, *words], input=text, capture_output=True, timeout=20, check=False) for it in (command, program)]
        expect(" ".join(words), *[(it.returncode, it.stdout, it.stderr) for it in ran])


def look_at_page(root, program):
    """The man page has all options and statuses."""
    page = gzip.decompress((root / "usr/share/man/man8/post_house.8.gz").read_bytes()).decode().replace("\\-", "-")
    for name in ("script", "serve"):
        told = subprocess.run([program, name, "--help"], capture_output=True, text=True, check=True).stdout
        options = re.findall(r"--[a-z-]+ <", told)
        expect(f"options of {name} that the page lacks", [it for it in options if it not in page], [])
        expect(f"whether {name} has options", bool(options), True)
    expect("statuses", re.findall(r"^\.B (\d)$", page, re.M), ["0", "2", "3", "4", "5", "6"])
    if shutil.which("man"):
        ran = subprocess.run(["man", "-l", "--warnings", root / "usr/share/man/man8/post_house.8.gz"], capture_output=True, text=True, check=False)
        expect("what man says of it", (ran.returncode, ran.stderr), (0, ""))


def look_at_unit(root):
    """The unit runs what the package has, and leaves little open."""
    unit = root / "usr/lib/systemd/system/post_house.service"
    paths = re.findall(r"/usr/[\w/.-]+", unit.read_text())
    expect("paths of the unit that aren't there", [path for path in paths if not (root / path[1:]).exists()], [])
    if shutil.which("systemd-analyze"):
        words = ["systemd-analyze", "security", "--offline=true", "--threshold=20", "--no-pager", unit]
        ran = subprocess.run(words, capture_output=True, text=True, check=False)
        expect("its exposure", (ran.returncode, ran.stderr), (0, ""))


def main(root, program):
    end_by_exit()
    root, program = Path(root), os.path.abspath(program)
    command = str(root / "usr/bin/post_house")
    checks = [("mail is read", read_mail, (command,)), ("the program's own words", speak_as_the_program, (command, program))]
    for number in (signal.SIGTERM, signal.SIGINT, signal.SIGHUP):
        for is_to_all in (False, True):
            checks.append((f"{number.name} to {'all' if is_to_all else 'the command'}", stop_under_mail, (command, number, is_to_all)))
    checks += [("the man page", look_at_page, (root, program)), ("the unit", look_at_unit, (root,))]
    failed = 0
    for name, check, words in checks:
        try:
            check(*words)
        except (Wrong, Over, OSError, RuntimeError) as fault:
            failed += 1
            print(f"FAILED: {name}: {fault}")
    print(f"{len(checks) - failed} of {len(checks)} of the package passed")
    return 1 if failed else 0


if __name__ == "__main__":
    sys.exit(main(*sys.argv[1:]))
