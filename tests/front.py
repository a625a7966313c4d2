#!/usr/bin/env python3
"""Dovecot in front of two servers, by the recipe of examples/front/.

    tests/front.py PROGRAM

One server has alice with her folder Work, another one has bob; both run with `--compatible`. Dovecot runs in a scratch folder, with a copy of examples/front/ in
which only ports, paths and the system's user are others. Python's imaplib is the client. It comes over TLS, with the passwords of the example.

Tried are: who gets in; what is read, found, sorted and threaded; flags, removals and appended messages, seen from both sides; how soon a client that idles is told
of mail; mail to both users through Dovecot's LMTP; what is refused; and a server that is away and comes again. It prints a line for each thing tried, and ends with
1 where one isn't as expected.

Wanted: Dovecot 2.3 with IMAP and LMTP, openssl, the superuser. Where Dovecot isn't installed nothing is tried, and that is said.
"""

import calendar
import contextlib
import imaplib
import os
import re
import shutil
import signal
import smtplib
import socket
import ssl
import subprocess
import sys
import tempfile
import time
from pathlib import Path

TOP = Path(__file__).resolve().parent.parent
RECIPE = TOP / "examples" / "front"
sys.path.insert(0, str(TOP / "examples" / "pytest"))
sys.dont_write_bytecode = True

from post_house_server import Fault, Server
from serving_house import end_by_exit, free_ports, ports_of, share

PASSWORDS = {"alice": "example-only-alice", "bob": "example-only-bob"}
PATIENCE = 20
# The system's user that nothing belongs to; the recipe has one of its own.
NOBODY = 65534
ARRIVALS = 20
# So many clients a user may have at once, by the recipe.
CLIENTS = 12
CANNOT = b"[CANNOT] Not offered here"
# The date of a message that is appended, as RFC 9051 has one in an example.
SUMMER = calendar.timegm((1996, 7, 17, 9, 44, 25))


class Wrong(Exception):
    """What came isn't what has to come."""


def expect(what, came, wanted):
    if came != wanted:
        raise Wrong(f"{what}: {came!r} came in place of {wanted!r}")


def lines(*text):
    return "".join(f"{line}\r\n" for line in text).encode()


PLANS = lines(
    "Received: from relay.b.example (relay.b.example [192.0.2.7])",
    "\tby mx.example.org (Postfix) with ESMTP id 4XyZ",
    "\tfor <alice@example.org>; Fri, 27 Nov 2026 10:20:30 +0200 (EET)",
    "Received: from desk.b.example by relay.b.example; Thu, 26 Nov 2026 09:00:01 +0000",
    "From: Bob Builder <bob@b.example>",
    "To: alice@example.org",
    "Subject: plans",
    "Date: Thu, 26 Nov 2026 09:00:00 +0000",
    "Message-ID: <plans@b.example>",
    "MIME-Version: 1.0",
    'Content-Type: multipart/mixed; boundary="cut"',
    "",
    "--cut",
    "Content-Type: text/plain; charset=utf-8",
    "Content-Transfer-Encoding: 8bit",
    "",
    "Grüße from the yard",
    "",
    "--cut",
    'Content-Type: application/octet-stream; name="plan.bin"',
    'Content-Disposition: attachment; filename="plan.bin"',
    "Content-Transfer-Encoding: base64",
    "",
    "AAEC",
    "--cut--",
)
ANSWER = lines(
    "Received: by mx.example.org; Sat, 28 Nov 2026 23:59:59 -0500",
    "From: carol@c.example",
    "To: alice@example.org",
    "Subject: Re: plans",
    "Date: Sat, 28 Nov 2026 23:59:00 -0500",
    "Message-ID: <answer@c.example>",
    "In-Reply-To: <plans@b.example>",
    "References: <plans@b.example>",
    "",
    "First the roof.",
)
# No relay wrote a date into this one.
APPLES = lines("From: dave@d.example", "Subject: apples", "Date: Mon, 23 Nov 2026 08:00:00 +0000", "Message-ID: <apples@d.example>", "", "They are ripe.")

# What RFC 9051 (7.5.2) has of PLANS.
ENVELOPE = (
    b'1 (ENVELOPE ("Thu, 26 Nov 2026 09:00:00 +0000" "plans" (("Bob Builder" NIL "bob" "b.example")) (("Bob Builder" NIL "bob" "b.example"))'
    b' (("Bob Builder" NIL "bob" "b.example")) ((NIL NIL "alice" "example.org")) NIL NIL NIL "<plans@b.example>"))'
)
STRUCTURE = (
    b'1 (BODYSTRUCTURE (("text" "plain" ("charset" "utf-8") NIL NIL "8bit" 23 1 NIL NIL NIL NIL)'
    b'("application" "octet-stream" ("name" "plan.bin") NIL NIL "base64" 4 NIL ("attachment" ("filename" "plan.bin")) NIL NIL)'
    b' "mixed" ("boundary" "cut") NIL NIL NIL))'
)
DATES = [calendar.timegm(when) for when in ((2026, 11, 27, 8, 20, 30), (2026, 11, 29, 4, 59, 59), (1970, 1, 1, 0, 0, 0))]


class House(Server):
    """A server with the compatible profile, and what its port of IMAP shows to a client that logs in there."""

    def __init__(self, program, *mailboxes):
        super().__init__(mailboxes, ("--compatible", "--sessions", "16"), [program])
        self.user = self.users[0]

    def come_again(self):
        """It starts anew on the ports that it had, behind a stop."""
        ports = ports_of(self.lmtp_port, self.imap_ports[self.user])
        words = [*self.command, "serve", "--uidvalidity", str(int(time.time())), *ports, *self.options, *self.mailboxes]
        self.process = subprocess.Popen(words, stdin=subprocess.PIPE, stdout=subprocess.PIPE, stderr=subprocess.PIPE)
        expect("whether it listens again", self._listens(), True)

    @contextlib.contextmanager
    def reader(self, mailbox="INBOX"):
        client = imaplib.IMAP4("127.0.0.1", self.imap_ports[self.user], timeout=PATIENCE)
        try:
            client.login(self.user, "any")
            client.select(mailbox)
            yield client
        finally:
            with contextlib.suppress(imaplib.IMAP4.error, OSError):
                client.logout()

    def stored(self, message):
        """A message that is stored for its user: what was answered."""
        return self.deliver(message, [f"{self.user}@example.org"])[f"{self.user}@example.org"][0]


class Front:
    """Dovecot, as examples/front/ has it."""

    def __init__(self, room, alice, bob):
        self.room, self.places = Path(room), [alice, bob]
        self.imaps = free_ports(2)
        self.lmtp = self.imaps + 1

    def __enter__(self):
        self.room.chmod(0o755)
        self.configure()
        self.make_certificate()
        (self.room / "home").mkdir()
        os.chown(self.room / "home", NOBODY, NOBODY)
        words = [dovecot(), "-F", "-c", self.room / "dovecot.conf"]
        self.process = subprocess.Popen(words, stdin=subprocess.DEVNULL, start_new_session=True, env={"PATH": os.environ["PATH"], "TZ": "UTC"})
        try:
            self.wait_for_listener()
        except BaseException:
            self.__exit__()
            raise
        return self

    def __exit__(self, *_):
        self.process.terminate()
        with contextlib.suppress(subprocess.TimeoutExpired):
            self.process.wait(10)
        with contextlib.suppress(ProcessLookupError):
            os.killpg(self.process.pid, signal.SIGKILL)
        self.process.wait()

    def configure(self):
        """Copies the recipe with other ports, paths and another user of the system. What Dovecot keeps of itself goes to the folder, too."""
        alice, bob = self.places
        self.copy("users.imap", (r"port=14300$", f"port={alice.imap_ports['alice']}"), (r"port=14301$", f"port={bob.imap_ports['bob']}"))
        self.copy("users.lmtp", (r"^(alice:.*)=2424$", rf"\1={alice.lmtp_port}"), (r"^(bob:.*)=2424$", rf"\1={bob.lmtp_port}"))
        self.copy(
            "dovecot.conf",
            (r"/etc/dovecot/front/", f"{self.room}/"),
            (r"uid=post_front gid=post_front home=/var/lib/post_front/", f"uid={NOBODY} gid={NOBODY} home={self.room}/home/"),
            (r"port = 993$", f"port = {self.imaps}"),
            (r"port = 24$", f"port = {self.lmtp}"),
            (r"\Z", f"base_dir = {self.room}/run\nstate_dir = {self.room}/run\nlog_path = {self.room}/log\n"),
        )

    def copy(self, name, *changes):
        text = (RECIPE / name).read_text()
        for old, new in changes:
            text, count = re.subn(old, new, text, flags=re.M)
            if count == 0:
                raise Wrong(f"examples/front/{name} has no {old!r}")
        (self.room / name).write_text(text)

    def make_certificate(self):
        words = "openssl req -x509 -newkey rsa:2048 -nodes -days 2 -subj /CN=localhost -addext subjectAltName=DNS:localhost -keyout key.pem -out cert.pem"
        subprocess.run(words.split(), cwd=self.room, check=True, capture_output=True)

    def wait_for_listener(self):
        until = time.monotonic() + PATIENCE
        while True:
            with contextlib.suppress(ConnectionRefusedError):
                socket.create_connection(("127.0.0.1", self.imaps), PATIENCE).close()
                return
            if self.process.poll() is not None or time.monotonic() > until:
                raise Fault(f"Dovecot doesn't listen: {self.log()[-2000:]}")
            time.sleep(0.1)

    def connect(self):
        trust = ssl.create_default_context(cafile=str(self.room / "cert.pem"))
        return imaplib.IMAP4_SSL("localhost", self.imaps, ssl_context=trust, timeout=PATIENCE)

    @contextlib.contextmanager
    def reader(self, user, mailbox="INBOX"):
        """A client of this user, who has logged in and selected a mailbox."""
        client = self.connect()
        try:
            client.login(user, PASSWORDS[user])
            expect("SELECT", client.select(mailbox)[0], "OK")
            yield client
        finally:
            with contextlib.suppress(imaplib.IMAP4.error, OSError):
                client.logout()

    def log(self):
        with contextlib.suppress(FileNotFoundError):
            return (self.room / "log").read_text(errors="replace")
        return ""


def dovecot():
    return shutil.which("dovecot", path=f"{os.environ['PATH']}:/usr/sbin:/sbin")


def answer(client, items, message="1"):
    """The literal of an answer to FETCH, or its last line; what it is told besides, as of new flags, comes before."""
    status, found = client.fetch(message, items)
    expect(f"FETCH {items}", status, "OK")
    literals = [part[1] for part in found if isinstance(part, tuple)]
    return (literals or found)[-1]


def seconds_of(line):
    """The INTERNALDATE of an answer, in seconds since 1970."""
    return int(time.mktime(imaplib.Internaldate2tuple(line)))


def flags(client, message):
    return set(imaplib.ParseFlags(answer(client, "(FLAGS)", message))) - {rb"\Recent"}


def numbers(client):
    """The numbers of all messages, as a FETCH tells them, in the form of a SEARCH's answer."""
    return [b" ".join(line.split()[0] for line in client.fetch("1:*", "(UID)")[1])]


def until_shown(what, client, look, wanted):
    """What another client did is shown within some NOOPs."""
    until = time.monotonic() + 10
    while (came := look(client)) != wanted and time.monotonic() < until:
        client.noop()
        time.sleep(0.1)
    expect(what, came, wanted)


def refused(what, call, words):
    """It is refused, with these words among the answer's."""
    try:
        came = call()
    except imaplib.IMAP4.error as fault:
        came = ("NO", [str(fault).encode()])
    expect(f"whether {what} is refused", came[0], "NO")
    if words not in b" ".join(came[1]):
        raise Wrong(f"{what}: {came!r} has no {words!r}")


# ---- what is tried


def getting_in(alice, bob, front):
    for user, password in PASSWORDS.items():
        client = front.connect()
        expect("LOGIN", client.login(user, password)[0], "OK")
        expect("LOGOUT", client.logout()[0], "BYE")


def wrong_passwords(alice, bob, front):
    """Last of all, since Dovecot has who errs wait."""
    for user, password in (("alice", PASSWORDS["bob"]), ("carol", PASSWORDS["alice"])):
        client = front.connect()
        refused(f"{user} with another's password", lambda client=client, user=user, password=password: client.login(user, password), b"[AUTHENTICATIONFAILED]")
        client.shutdown()


def mailboxes(alice, bob, front):
    with front.reader("alice") as client:
        for ask in (client.list, client.lsub):
            expect("her mailboxes", sorted(line.rpartition(b" ")[2] for line in ask()[1]), [b"INBOX", b"Work"])
        expect("STATUS", client.status("Work", "(MESSAGES UNSEEN)"), ("OK", [b"Work (MESSAGES 0 UNSEEN 0)"]))
        expect("SUBSCRIBE", client.subscribe("Work")[0], "OK")
        expect("SELECT", client.select("INBOX"), ("OK", [b"3"]))
        with alice.reader() as there:
            expect("UIDVALIDITY", client.response("UIDVALIDITY"), there.response("UIDVALIDITY"))


def reading(alice, bob, front):
    with front.reader("alice") as client:
        expect("ENVELOPE", answer(client, "(ENVELOPE)"), ENVELOPE)
        expect("BODYSTRUCTURE", answer(client, "(BODYSTRUCTURE)"), STRUCTURE)
        fields = answer(client, "(BODY.PEEK[HEADER.FIELDS (SUBJECT FROM)])")
        expect("two header fields", fields, b"From: Bob Builder <bob@b.example>\r\nSubject: plans\r\n\r\n")
        expect("the first part", answer(client, "(BODY.PEEK[1])").decode(), "Grüße from the yard\r\n")
        expect("the second part", answer(client, "(BODY.PEEK[2])"), b"AAEC")
        expect("all of it", answer(client, "(BODY.PEEK[])"), b"Return-Path: <sender@example.com>\r\n" + PLANS)
        expect("its size", answer(client, "(RFC822.SIZE)"), b"1 (RFC822.SIZE %d)" % (35 + len(PLANS)))


def dates(alice, bob, front):
    with front.reader("alice") as client:
        found = [answer(client, "(INTERNALDATE)", str(number)) for number in (1, 2, 3)]
        expect("when they came", [seconds_of(line) for line in found], DATES)


def searching(alice, bob, front):
    with front.reader("alice") as client:
        for words, wanted in (
            ("SUBJECT plans", b"1 2"),
            ("FROM builder", b"1"),
            ("BODY yard", b"1"),
            ("BODY roof", b"2"),
            ("SINCE 28-Nov-2026", b"2"),
            ("BEFORE 28-Nov-2026", b"1 3"),
            ("SENTSINCE 26-Nov-2026", b"1 2"),
            ("UNSEEN LARGER 400", b"1"),
        ):
            expect(f"SEARCH {words}", client.search(None, *words.split()), ("OK", [wanted]))
        expect("SORT", client.sort("(SUBJECT)", "UTF-8", "ALL"), ("OK", [b"3 1 2"]))
        expect("SORT by arrival", client.sort("(REVERSE ARRIVAL)", "UTF-8", "ALL"), ("OK", [b"2 1 3"]))
        expect("THREAD", client.thread("ORDEREDSUBJECT", "UTF-8", "ALL"), ("OK", [b"(3)(1 2)"]))
        expect("which THREAD is offered", [word for word in client.capabilities if word.startswith("THREAD")], ["THREAD=ORDEREDSUBJECT"])


def flags_both_ways(alice, bob, front):
    with front.reader("alice") as client, alice.reader() as there:
        expect("STORE through the front", client.store("2", "+FLAGS", r"(\Flagged)")[0], "OK")
        until_shown("the flag at the server", there, lambda it: flags(it, "2"), {rb"\Flagged"})
        expect("STORE at the server", there.store("3", "+FLAGS", r"(\Seen \Answered)")[0], "OK")
        until_shown("flags at the front", client, lambda it: flags(it, "3"), {rb"\Seen", rb"\Answered"})


def appending(alice, bob, front):
    draft = lines("Received: by d.example; Sun, 1 Nov 2026 12:00:00 +0000", "Subject: draft", "", "so far")
    with front.reader("alice") as client, alice.reader("Work") as there:
        expect("APPEND", client.append("Work", r"(\Draft)", None, draft)[0], "OK")
        there.noop()
        expect("what was appended", answer(there, "(BODY.PEEK[])"), draft)
        expect("its flag", flags(there, "1"), {rb"\Draft"})
        expect("APPEND with a date", client.append("Work", None, '"17-Jul-1996 02:44:25 -0700"', draft)[0], "OK")
        there.noop()
        expect("its date at the server", seconds_of(answer(there, "(INTERNALDATE)", "2")), SUMMER)
        expect("STATUS", client.status("Work", "(MESSAGES)"), ("OK", [b"Work (MESSAGES 2)"]))
    with front.reader("alice", "Work") as client:
        expect("its date through the front", seconds_of(answer(client, "(INTERNALDATE)", "2")), SUMMER)


def copying(alice, bob, front):
    """COPY and MOVE by the front, of messages with flags and a date; and how often each is there."""
    with front.reader("alice", "Work") as client, alice.reader() as there:
        expect("STORE", client.store("2", "+FLAGS", r"(\Flagged)")[0], "OK")
        expect("COPY", client.copy("1:2", "INBOX")[0], "OK")
        until_shown("the copies at the server", there, numbers, [b"1 2 3 4 5"])
        expect("the text of a copy", answer(there, "(BODY.PEEK[])", "4"), answer(client, "(BODY.PEEK[])", "1"))
        expect("its flag", flags(there, "4"), {rb"\Draft"})
        expect("the flag of the other", flags(there, "5"), {rb"\Flagged"})
        expect("the date of the other", seconds_of(answer(there, "(INTERNALDATE)", "5")), SUMMER)
    with front.reader("alice") as client, alice.reader("Work") as there:
        expect("what the client finds", numbers(client), [b"1 2 3 4 5"])
        expect("MOVE", client.uid("MOVE", b",".join(client.uid("SEARCH", "4:5")[1][0].split()).decode(), "Work")[0], "OK")
        expect("what is left", numbers(client), [b"1 2 3"])
        until_shown("what was moved, at the server", there, numbers, [b"1 2 3 4"])
        expect("the date of what was copied and moved", seconds_of(answer(there, "(INTERNALDATE)", "4")), SUMMER)


def removing(alice, bob, front):
    for subject in ("gone from the front", "gone from the server"):
        expect("a message", alice.stored(lines(f"Subject: {subject}", "", "hi")), 250)
    with front.reader("alice") as client, alice.reader() as there:
        client.store("4", "+FLAGS", r"(\Deleted)")
        expect("EXPUNGE through the front", client.expunge()[0], "OK")
        until_shown("the removal at the server", there, numbers, [b"1 2 3 4"])
        there.store("4", "+FLAGS", r"(\Deleted)")
        expect("EXPUNGE at the server", there.expunge()[0], "OK")
        until_shown("the removal at the front", client, numbers, [b"1 2 3"])


def arrival(client, house, count):
    """How many ms after its 250 a client that idles is told of a message."""
    expect("a message", house.stored(lines(f"Subject: {count}", "", "hi")), 250)
    began = time.monotonic()
    while (line := client.readline()) != b"* %d EXISTS\r\n" % count:
        expect("what comes while it idles", line[:2], b"* ")
    return (time.monotonic() - began) * 1000


def idling(alice, bob, front):
    with front.reader("bob") as client:
        client.send(b"i1 IDLE\r\n")
        expect("IDLE", client.readline(), b"+ idling\r\n")
        took = []
        for count in range(1, ARRIVALS + 1):
            took.append(arrival(client, bob, count))
            time.sleep(0.05)
        client.send(b"DONE\r\n")
        while not (line := client.readline()).startswith(b"i1 "):
            expect("what comes behind DONE", line[:2], b"* ")
        expect("the end of IDLE", line[:6], b"i1 OK ")
    print(f"    EXISTS through the front: p50 {share(took, 0.5):.0f} ms, most {max(took):.0f} ms, n {len(took)}")
    expect("whether a client is told within five seconds", max(took) < 5000, True)


def two_users(alice, bob, front):
    with front.reader("alice") as one, front.reader("bob") as other:
        expect("alice's", one.search(None, "ALL"), ("OK", [b"1 2 3"]))
        expect("bob's", other.search(None, "SUBJECT", "plans"), ("OK", [b""]))
        refused("alice's folder for bob", lambda: other.select("Work"), b"")


def mail_through_the_front(alice, bob, front):
    people = ["alice@example.org", "bob@example.org", "alice+work@example.org"]
    with smtplib.LMTP("127.0.0.1", front.lmtp) as relay:
        relay.ehlo()
        relay.mail("sender@example.com")
        expect("RCPT", [relay.rcpt(one)[0] for one in [*people, "carol@example.org"]], [250, 250, 250, 550])
        expect("DATA", relay.docmd("DATA")[0], 354)
        relay.send(lines("Subject: for all", "", "hi", "."))
        expect("its answers", [relay.getreply()[0] for _ in people], [250, 250, 250])
    for user, mailbox in (("alice", "INBOX"), ("bob", "INBOX"), ("alice", "Work")):
        with front.reader(user, mailbox) as client:
            found = client.search(None, "SUBJECT", '"for all"')[1][0].decode().split()
            expect(f"what {user} has in {mailbox}", len(found), 1)
            age = time.time() - seconds_of(answer(client, "(INTERNALDATE)", found[0]))
            expect("whether Dovecot wrote when it came", -2 < age < 60, True)


def what_is_refused(alice, bob, front):
    with front.reader("alice") as client:
        before = [client.status(name, "(MESSAGES)") for name in ("INBOX", "Work")]
        refused("a keyword", lambda: client.store("1", "+FLAGS", "($Forwarded)"), b"[CANNOT] Can't create new keywords")
        refused("CREATE", lambda: client.create("Trash"), CANNOT)
        refused("RENAME", lambda: client.rename("Work", "Play"), CANNOT)
        # Behind a DELETE Dovecot no longer has its mailbox selected there, which it doesn't know: this client goes.
        refused("DELETE", lambda: client.delete("Work"), CANNOT)
    with front.reader("alice") as client:
        expect("whether all is there", [client.status(name, "(MESSAGES)") for name in ("INBOX", "Work")], before)
        expect("her message", answer(client, "(BODY.PEEK[2])"), b"AAEC")


def too_many(alice, bob, front):
    with contextlib.ExitStack() as stack:
        for _ in range(CLIENTS):
            stack.enter_context(front.reader("alice"))
        refused("one client more", lambda: front.connect().login("alice", PASSWORDS["alice"]), b"[LIMIT]")


def no_errors(alice, bob, front):
    expect("what Dovecot wrote", [line for line in front.log().splitlines() if re.search(r"(Error|Fatal|Panic):", line)], [])


def a_server_that_is_away(alice, bob, front):
    bob.stop()
    client = front.connect()
    client.login("bob", PASSWORDS["bob"])
    refused("SELECT", lambda: client.select("INBOX"), b"Internal error occurred")
    client.shutdown()
    with smtplib.LMTP("127.0.0.1", front.lmtp) as relay:
        relay.ehlo()
        relay.mail("sender@example.com")
        expect("RCPT of alice and bob", [relay.rcpt(f"{one}@example.org")[0] for one in ("alice", "bob")], [250, 451])
    with front.reader("alice") as other:
        expect("alice's", answer(other, "(BODY.PEEK[2])"), b"AAEC")
    bob.come_again()
    expect("a message", bob.stored(lines("Subject: anew", "", "hi")), 250)
    with front.reader("bob") as client:
        expect("what bob has", numbers(client), [b"1"])
        expect("its subject", answer(client, "(BODY.PEEK[HEADER.FIELDS (SUBJECT)])"), b"Subject: anew\r\n\r\n")


CHECKS = (
    ("LOGIN with the right passwords", getting_in),
    ("LIST, LSUB, STATUS, SUBSCRIBE, SELECT", mailboxes),
    ("ENVELOPE, BODYSTRUCTURE, header fields, MIME parts, whole messages", reading),
    ("INTERNALDATE is the date of the first Received field", dates),
    ("SEARCH, SORT, THREAD", searching),
    ("flags both ways", flags_both_ways),
    ("APPEND, with its date", appending),
    ("COPY and MOVE, with flags and dates", copying),
    ("EXPUNGE both ways", removing),
    ("IDLE", idling),
    ("each user sees the own server's mail alone", two_users),
    ("one transaction of LMTP for both users and a folder", mail_through_the_front),
    ("twelve clients of a user, and one more that is refused", too_many),
    ("no error in Dovecot's log so far", no_errors),
    ("keywords, CREATE, RENAME, DELETE are refused, and nothing is lost", what_is_refused),
    ("a server that is away and comes again", a_server_that_is_away),
    ("LOGIN with another's password, and as nobody who is known", wrong_passwords),
)


def attempt(name, check, *world):
    """Tries one thing, and says what came of it."""
    try:
        check(*world)
    except (Wrong, Fault, imaplib.IMAP4.error, OSError, smtplib.SMTPException) as fault:
        print(f"FAILED: {name}: {fault!r}", flush=True)
        return False
    print(f"ok: {name}", flush=True)
    return True


def main(program):
    end_by_exit()
    if dovecot() is None:
        print("front.py: Dovecot isn't installed, nothing is tried")
        return 0
    if os.geteuid() != 0:
        print("front.py: Dovecot is started by the superuser alone, nothing is tried")
        return 0
    program = os.path.abspath(program)
    with contextlib.ExitStack() as stack:
        alice = stack.enter_context(House(program, "alice", "alice/Work"))
        bob = stack.enter_context(House(program, "bob"))
        room = stack.enter_context(tempfile.TemporaryDirectory())
        front = stack.enter_context(Front(room, alice, bob))
        for message in (PLANS, ANSWER, APPLES):
            expect("a message", alice.stored(message), 250)
        passed = sum(attempt(name, check, alice, bob, front) for name, check in CHECKS)
        if passed < len(CHECKS):
            print(front.log())
    print(f"{passed} of {len(CHECKS)} of what a client finds through the front")
    return 0 if passed == len(CHECKS) else 1


if __name__ == "__main__":
    sys.exit(main(*sys.argv[1:]))
