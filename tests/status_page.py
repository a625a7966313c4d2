#!/usr/bin/env python3
"""The page of a server, asked for over HTTP, beside what the server's clients are told.

    tests/status_page.py PROGRAM

- `/` and `/metrics` before and after mail, with a copy that is refused, an open connection, and a session that idles: each mailbox, and each count.
- HEAD, a path where nothing is, a method that isn't allowed, another host, a head that is too long or too slow, and bytes that are no request.
- A peer that says nothing holds up another for five seconds and no longer, and doesn't hold up the stop.
- Ports of the page that are refused, or taken. Where `promtool` is installed, what it says of the figures.

It prints a line for each check that fails, and last how many of how many passed.
"""

import contextlib
import html
import http.client
import os
import re
import shutil
import socket
import subprocess
import sys
import time

from hostile.checks import PATIENCE, Tally
from serving_house import ADDRESS, connect, end_by_exit, ports_of
from talks import DELIVERED, ImapTalk, MailTalk, Wrong, data_of, standing

FULL = b"452 4.2.2 Mailbox full"
LINES = re.compile(
    rf"LMTP {ADDRESS}:(\d+)\nIMAP {ADDRESS}:(\d+) alice\nIMAP {ADDRESS}:(\d+) bob\nSTATUS http://{ADDRESS}:(\d+)/\n".replace(".", r"\.")
)
REASONS = ("mailbox full", "shard full", "shard closed", "UIDs spent", "no memory")
ROW = re.compile(r"<tr><th scope=\"row\">(.*)</th>(.*)</tr>")


def expect(what, came, wanted):
    """This has to have come."""
    if came != wanted:
        raise Wrong(f"{what}: {came!r} came in place of {wanted!r}")


class Server:
    """A server of alice, bob and a folder of alice's, on ports that the system chooses, with a page."""

    def __init__(self, program, options=()):
        words = [program, "serve", *ports_of(0, 0), "--status-port", "0", "--uidvalidity", "7"]
        words += ["--workers", "2", "--messages", "2", "--ring", "16", *options, "alice", "bob", "alice/Work"]
        pipe = subprocess.PIPE
        self.process = subprocess.Popen(words, stdin=pipe, stdout=pipe, stderr=pipe, start_new_session=True)
        said = b"".join(self.process.stdout.readline() for _ in range(4)).decode()
        if not (ports := LINES.fullmatch(said)):
            self.process.kill()
            raise Wrong(f"its lines are {said!r}, and {self.process.communicate()!r}")
        self.lmtp, self.alice, self.bob, self.page = map(int, ports.groups())

    def stop(self):
        """Stops it, and gives the seconds that this took."""
        started = time.monotonic()
        _, faults = self.process.communicate(timeout=PATIENCE)
        expect("its status and faults", (self.process.returncode, faults), (0, b""))
        return time.monotonic() - started


@contextlib.contextmanager
def serving(program):
    """A server, which is killed where a check fails."""
    server = Server(program)
    try:
        yield server
    finally:
        server.process.kill()
        server.process.wait()


# ---- what is asked


def ask(server, path, method="GET"):
    """The answer to a request: its status, its header fields, and its body."""
    line = http.client.HTTPConnection(ADDRESS, server.page, timeout=15)
    try:
        line.request(method, path)
        answer = line.getresponse()
        return answer.status, {name.lower(): value for name, value in answer.getheaders()}, answer.read()
    finally:
        line.close()


def say(server, text):
    """What is answered to these bytes, to the end of the connection."""
    with connect(server.page) as peer:
        peer.sendall(text)
        came = b""
        while piece := peer.recv(65536):
            came += piece
    return came


def figures(server):
    """The samples that a monitor reads, by name and label."""
    status, fields, body = ask(server, "/metrics")
    expect("the status of the figures", status, 200)
    expect("their type", fields["content-type"], "text/plain; version=0.0.4; charset=utf-8")
    lines = body.decode().splitlines()
    samples = dict(line.rsplit(" ", 1) for line in lines if not line.startswith("#"))
    named = {line.split()[2] for line in lines if line.startswith("# TYPE ")}
    expect("whether each has its type", {name.split("{")[0] for name in samples}, named)
    return {name.removeprefix("post_house_"): int(value) for name, value in samples.items()}


def rows(server):
    """The rows of the page: a name, and its cells."""
    status, fields, body = ask(server, "/")
    expect("the status of the page", status, 200)
    expect("its type", fields["content-type"], "text/html; charset=utf-8")
    expect("whether it is kept", fields["cache-control"], "no-store")
    text = body.decode()
    expect("whether it is whole", (text.startswith("<!DOCTYPE html>\n"), text.endswith("</html>\n")), (True, True))
    return [(html.unescape(name), re.findall("<td>(.*?)</td>", cells)) for name, cells in ROW.findall(text)]


def row(server, name):
    """The cells of the one row of this name."""
    found = [cells for one, cells in rows(server) if one == name]
    expect(f"how many rows {name!r} has", len(found), 1)
    return found[0]


def mailbox(messages, unseen, size, following):
    """What is told of a mailbox, as the figures name it."""
    return {"messages": messages, "unseen": unseen, "bytes": size, "uid_next": following}


def mailboxes(samples):
    """What the figures tell of each mailbox."""
    told = {}
    for name, value in samples.items():
        if of := re.fullmatch(r'mailbox_(\w+)\{mailbox="(.*)"\}', name):
            told.setdefault(of[2], {})[of[1]] = value
    return told


def settle(look, wanted):
    """Looks until this is seen, which takes a moment where a thread has to do it."""
    until = time.monotonic() + 5
    while (seen := look()) != wanted and time.monotonic() < until:
        time.sleep(0.02)
    expect("what is seen at last", seen, wanted)


# ---- what is checked


def tell_nothing_yet(server):
    """A server that has done nothing."""
    empty = mailbox(0, 0, 0, 1)
    samples = figures(server)
    expect("the mailboxes", mailboxes(samples), {"alice": empty, "bob": empty, "alice/Work": empty})
    refused = {f'copies_refused_total{{reason="{reason}"}}': 0 for reason in REASONS}
    counted = ("messages_total", "copies_stored_total", "connections_total", "sessions_total", "log_lines_lost_total", "open_connections", "open_sessions")
    rest = {name: value for name, value in samples.items() if not name.startswith("mailbox_")}
    expect("the rest", rest, {**refused, **dict.fromkeys(counted, 0)})
    expect("a row of the page", row(server, "alice/Work"), ["0", "0", "0", "1"])
    expect("another", row(server, "Copies refused: mailbox full"), ["0"])


def tell_mail(server):
    """Mail for two users, of which one copy is refused; the connection stays open until all was looked at."""
    texts = [data_of("one"), data_of("two", 3), data_of("three")]
    sizes = [len(standing(text)) for text in texts]
    peer = MailTalk(connect(server.lmtp)).open()
    expect("the first", peer.deliver(("alice", "bob"), texts[0]), [DELIVERED] * 2)
    expect("the second", peer.deliver(("alice",), texts[1]), [DELIVERED])
    expect("the third", peer.deliver(("alice", "bob"), texts[2]), [FULL, DELIVERED])
    samples = figures(server)
    expect("the messages", (samples["messages_total"], samples["copies_stored_total"]), (3, 4))
    expect("the refused", samples['copies_refused_total{reason="mailbox full"}'], 1)
    expect("the connections", (samples["connections_total"], samples["open_connections"]), (1, 1))
    held = {"alice": mailbox(2, 2, sizes[0] + sizes[1], 3), "bob": mailbox(2, 2, sizes[0] + sizes[2], 3), "alice/Work": mailbox(0, 0, 0, 1)}
    expect("the mailboxes", mailboxes(samples), held)
    expect("the row of bob", row(server, "bob"), ["2", "2", str(sizes[0] + sizes[2]), "3"])
    expect("the connection's row", [cells for name, cells in rows(server) if name in ("1", "2")], [["talking"]])
    peer.quit()
    settle(lambda: figures(server)["open_connections"], 0)


def tell_sessions(server):
    """A session that has seen a message and idles, and that goes."""
    talk = ImapTalk(connect(server.bob)).open()
    talk.select()
    talk.ask(b"UID STORE 1 +FLAGS (\\Seen)")
    expect("the session's row", [cells[1] for name, cells in rows(server) if name == "bob" and len(cells) == 2], ["talking"])
    talk.start(b"IDLE")
    talk.expect(b"+ idling")
    expect("the session's row as it idles", [cells[1] for name, cells in rows(server) if name == "bob" and len(cells) == 2], ["idling"])
    samples = figures(server)
    expect("the sessions", (samples["sessions_total"], samples["open_sessions"]), (1, 1))
    expect("how many of bob's are unseen", mailboxes(samples)["bob"]["unseen"], 1)
    talk.close()
    settle(lambda: figures(server)["open_sessions"], 0)


def answer_others(server):
    """Requests that are answered with another status, and bytes that are no request."""
    whole, head = ask(server, "/"), ask(server, "/", "HEAD")
    expect("the answer to HEAD", (head[0], head[1], head[2]), (200, whole[1], b""))
    expect("the length that is told", int(whole[1]["content-length"]), len(whole[2]))
    expect("a path with a query", ask(server, "/?x=1")[0], 200)
    expect("a path where nothing is", ask(server, "/x")[::2], (404, b"404 Not Found\n"))
    status, fields, body = ask(server, "/metrics", "POST")
    expect("a method that isn't allowed", (status, fields["allow"], body), (405, "GET, HEAD", b"405 Method Not Allowed\n"))
    long = b"GET / HTTP/1.1\r\nHost: a\r\nX: " + b"x" * 9000
    expect("a head that is too long", say(server, long)[:40], b"HTTP/1.1 431 Request Header Fields Too L")
    expect("bytes that are no request", say(server, b"\x01\r\n\r\n")[:24], b"HTTP/1.1 400 Bad Request")
    hosts = ((b"", b"400 Bad Request"), (b"Host: rebound.example\r\n", b"421 Misdirected Request"), (b"Host: LocalHost:1\r\n", b"200 OK"))
    for host, status in hosts:
        first = say(server, b"GET / HTTP/1.1\r\n%s\r\n" % host).split(b"\r\n")[0]
        expect(f"a request with {host!r}", first, b"HTTP/1.1 " + status)
    with connect(server.page) as slow:
        for byte in b"GET / HT":
            slow.sendall(bytes((byte,)))
            time.sleep(0.05)
        expect("a head that comes byte by byte", slow.recv(100)[:28], b"HTTP/1.1 408 Request Timeout")


def hold_nobody_up(server):
    """A peer that says nothing is let go after five seconds; who comes behind it is answered then."""
    with connect(server.page) as silent:
        started = time.monotonic()
        expect("the other's status", ask(server, "/metrics")[0], 200)
        seconds = time.monotonic() - started
        if not 4 < seconds < 8:
            raise Wrong(f"the other was answered after {seconds:.1f} s")
        expect("what the silent one is told", silent.recv(100), b"")


def stop_at_once(server):
    """The stop doesn't wait for a peer that says nothing."""
    with connect(server.page) as silent, connect(server.page) as behind:
        silent.sendall(b"GET / HT")
        time.sleep(0.2)
        if (seconds := server.stop()) > 3:
            raise Wrong(f"the stop took {seconds:.1f} s")
        behind.close()
    with contextlib.suppress(ConnectionRefusedError):
        connect(server.page).close()
        raise Wrong("somebody listens still")


def ask_promtool(server):
    """What promtool says of the figures, where it is installed."""
    if tool := shutil.which("promtool"):
        body = ask(server, "/metrics")[2]
        ended = subprocess.run([tool, "check", "metrics"], input=body, capture_output=True, check=False)
        expect("what promtool says", (ended.returncode, ended.stdout + ended.stderr), (0, b""))


def refuse_ports(program):
    """Ports that the page can't have: too low, no number, or taken."""
    words = ["serve", *ports_of(0, 0), "--status-port"]
    for port in ("80", "1023", "+5", "65536", "x"):
        ended = subprocess.run([program, *words, port, "alice"], input=b"", capture_output=True, timeout=20, check=False)
        expect(f"port {port}", (ended.returncode, ended.stdout, b"--status-port" in ended.stderr), (2, b"", True))
    with socket.socket() as taken:
        taken.bind((ADDRESS, 0))
        taken.listen()
        words.append(str(taken.getsockname()[1]))
        ended = subprocess.run([program, *words, "alice"], input=b"", capture_output=True, timeout=20, check=False)
        expect("a port that is taken", (ended.returncode, ended.stdout, ended.stderr), (4, b"", b"post_house: device fault\n"))


def main():
    program = os.path.abspath(sys.argv[1])
    end_by_exit()
    tally = Tally()
    checks = (
        ("a server that has done nothing", tell_nothing_yet),
        ("mail, and a copy that is refused", tell_mail),
        ("a session that idles", tell_sessions),
        ("requests that are answered otherwise", answer_others),
        ("the figures as promtool reads them", ask_promtool),
        ("a peer that says nothing", hold_nobody_up),
        ("the stop beside such a peer", stop_at_once),
    )
    with serving(program) as server:
        for name, act in checks:
            with tally.case(name):
                act(server)
    with tally.case("ports that it can't have"):
        refuse_ports(program)
    print(f"{tally.passed} of {tally.passed + tally.failed} of the page of a server")
    sys.exit(1 if tally.failed else 0)


if __name__ == "__main__":
    main()
