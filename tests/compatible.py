#!/usr/bin/env python3
"""A server with the compatible profile, as clients of IMAP4rev1 find it.

    tests/compatible.py PROGRAM

Python's own imaplib is the client, which refuses a server that doesn't say IMAP4rev1. It logs in by each way that there is, is refused under another name,
asks who the server is, reads what came over LMTP, subscribes, appends, changes flags, removes, checks, and hears of mail while it idles. Without the option
imaplib gets no further than the greeting's capabilities. What each command answers is compared with what RFC 3501 and RFC 9051 say. It prints a line for each check that fails, and last how many of how
many passed.
"""

import base64
import calendar
import imaplib
import os
import shutil
import socket
import subprocess
import sys
import tempfile
import time

from serving_house import House

USERS = ("alice", "bob")
CAPABILITIES = ("IMAP4REV2", "IMAP4REV1", "AUTH=PLAIN", "ENABLE", "ESEARCH", "ID", "IDLE", "LITERAL-", "MOVE", "NAMESPACE", "SASL-IR", "UIDPLUS", "UNSELECT")
PATIENCE = 20
MOST_SESSIONS = 16

tried, failures = 0, []


def expect(what, found, wanted):
    global tried
    tried += 1
    if found != wanted:
        failures.append(f"{what}: {found!r}, not {wanted!r}")


def deliver(house, text, *recipients):
    """A message over LMTP, answered 250 for each recipient."""
    lines = ["LHLO c.example", "MAIL FROM:<s@a.example>", *(f"RCPT TO:<{one}@example.org>" for one in recipients), "DATA", *text, ".", "QUIT"]
    with house.connect_lmtp() as relay:
        relay.sendall("".join(f"{line}\r\n" for line in lines).encode())
        replies = b"".join(iter(lambda: relay.recv(65536), b""))
    expect("copies that were delivered", replies.count(b"250 2.1.5 Delivered"), len(recipients))


def version_of(program):
    """What `--version` says: `post_house 0.2.0, proved with ..`."""
    said = subprocess.run((program, "--version"), capture_output=True, text=True, check=True).stdout
    return said.split()[1].rstrip(",")


def connect(port):
    return imaplib.IMAP4("127.0.0.1", port, timeout=PATIENCE)


def refused(what, call):
    try:
        expect(what, call(), "a refusal")
    except imaplib.IMAP4.error:
        expect(what, True, True)


def before_login(house):
    """Nothing but a LOGIN of this port's user leads on."""
    client = connect(house.imap_ports[0])
    expect("the state", client.state, "NONAUTH")
    expect("the capabilities", client.capabilities, CAPABILITIES)
    refused("another user's name", lambda: client.login("bob", "secret"))
    expect("LOGIN", client.login("alice", 'my "secret"'), ("OK", [b"LOGIN completed"]))
    return client


def who_it_is(client, version):
    """ID tells the version that the program has, and ENABLE that there is nothing to enable. imaplib knows ID and ENABLE by no call of its own."""
    imaplib.Commands.setdefault("ID", ("NONAUTH", "AUTH", "SELECTED"))
    expect("ID", client._simple_command("ID", '("name" "imaplib")')[0], "OK")
    expect("who it is", client.response("ID"), ("ID", [f'("name" "post_house" "version" "{version}")'.encode()]))
    expect("ENABLE", client.enable("CONDSTORE"), ("OK", [b"ENABLE completed"]))
    expect("what is enabled", client.response("ENABLED"), ("ENABLED", [b""]))


def authenticating(house):
    """AUTHENTICATE PLAIN, asked for its response and not; and a LOGIN whose arguments are literals, as imaplib sends none."""
    client = connect(house.imap_ports[0])
    refused("another user's response", lambda: client.authenticate("PLAIN", lambda challenge: b"\0bob\0x"))
    expect("the challenge and its response", client.authenticate("PLAIN", lambda challenge: b"\0alice\0x"), ("OK", [b"AUTHENTICATE completed"]))
    expect("SELECT by a literal", by_literal(client, "SELECT", b"INBOX"), "OK")
    client.logout()
    with socket.create_connection(("127.0.0.1", house.imap_ports[0]), timeout=PATIENCE) as peer, peer.makefile("rb") as told:
        told.readline()
        response = base64.b64encode(b"alice\0alice\0" + b"p" * 300)
        peer.sendall(b"a1 AUTHENTICATE PLAIN " + response + b"\r\n")
        expect("a response at once", told.readline(), b"a1 OK AUTHENTICATE completed\r\n")
        peer.sendall(b"a2 STATUS {5+}\r\nINBOX (UIDNEXT)\r\na3 NOOP\r\n")
        expect("what is behind a literal", [told.readline() for _ in range(3)][1:], [b"a2 OK STATUS completed\r\n", b"a3 OK NOOP completed\r\n"])
    with socket.create_connection(("127.0.0.1", house.imap_ports[0]), timeout=PATIENCE) as peer, peer.makefile("rb") as told:
        told.readline()
        for sent, answer in ((b"a1 LOGIN {5}\r\n", b"+ ready\r\n"), (b"alice {8}\r\n", b"+ ready\r\n"), (b'a "b" \\c\r\n', b"a1 OK LOGIN completed\r\n")):
            peer.sendall(sent)
            expect("LOGIN by literals", told.readline(), answer)


def by_literal(client, command, argument):
    """What a command is answered whose argument is a literal that the server asks for."""
    client.literal = argument
    return client._simple_command(command)[0]


def folders(client):
    expect("LSUB", client.lsub(), ("OK", [b'() "/" INBOX']))
    expect("SUBSCRIBE", client.subscribe("inbox")[0], "OK")
    expect("SUBSCRIBE of none", client.subscribe("Play")[0], "NO")
    expect("UNSUBSCRIBE", client.unsubscribe("INBOX")[0], "OK")
    expect("STATUS", client.status("INBOX", "(MESSAGES RECENT UNSEEN)"), ("OK", [b"INBOX (MESSAGES 1 RECENT 0 UNSEEN 1)"]))


def dates(client, house):
    """When a message came is what its last relay wrote; without that it is the first second of 1970, of which imaplib makes a time too."""
    received = ("Received: from a.example by mx.example.org", "\t(Postfix) id 4; Tue, 24 Nov 2026 10:20:30 +0100 (CET)", "Received: by a.example; Mon, 2 Nov 2026 1:02:03 GMT")
    deliver(house, (*received, "Subject: dated", "", "hi"), "alice")
    expect("SELECT", client.select("INBOX"), ("OK", [b"2"]))
    found = client.fetch("1:*", "(INTERNALDATE)")[1]
    expect("dates", found, [b'1 (INTERNALDATE "01-Jan-1970 00:00:00 +0000")', b'2 (INTERNALDATE "24-Nov-2026 10:20:30 +0100")'])
    expect("a time of it", calendar.timegm(time.gmtime(time.mktime(imaplib.Internaldate2tuple(found[1])))), calendar.timegm((2026, 11, 24, 9, 20, 30)))
    header = b"Return-Path: <s@a.example>\r\nSubject: one\r\n\r\n"
    expect("a header", client.fetch("1", "(RFC822.HEADER)")[1][0], (b"1 (RFC822.HEADER {%d}" % len(header), header))
    expect("a message", client.fetch("1", "(RFC822)")[1], [(b"1 (RFC822 {%d}" % (len(header) + 4), header + b"hi\r\n"), b" FLAGS (\\Seen))"])
    expect("FAST", client.fetch("1", "FAST")[1], [b'1 (FLAGS (\\Seen) INTERNALDATE "01-Jan-1970 00:00:00 +0000" RFC822.SIZE %d)' % (len(header) + 4)])
    expect("what is taken back", client.store("1", "-FLAGS", r"(\Seen)")[0], "OK")
    expect("a flag", client.store("2", "+FLAGS", r"(\Deleted)")[0], "OK")
    expect("EXPUNGE", client.expunge(), ("OK", [b"2"]))
    expect("CLOSE", client.close()[0], "OK")


def many(house):
    """Sixteen sessions of one user are open at a time; one more is told so after two seconds, and is let in once another has left."""
    clients = [connect(house.imap_ports[0]) for _ in range(MOST_SESSIONS)]
    for client in clients:
        expect("one of many", client.login("alice", "x")[0], "OK")
    for client in clients:
        expect("each of them serves", client.select("INBOX", readonly=True)[0], "OK")
    began = time.monotonic()
    with socket.create_connection(("127.0.0.1", house.imap_ports[0]), timeout=PATIENCE) as late:
        expect("one too many", b"".join(iter(lambda: late.recv(4096), b"")), b"* BYE Too many sessions\r\n")
    expect("how long it waited", 1.5 < time.monotonic() - began < 5, True)
    clients.pop().logout()
    clients.append(connect(house.imap_ports[0]))
    expect("one that came when another had left", clients[-1].login("alice", "x")[0], "OK")
    for client in clients:
        client.logout()


def reading(client, house):
    expect("SELECT", client.select("INBOX"), ("OK", [b"1"]))
    expect("EXISTS", client.response("EXISTS"), ("EXISTS", [b"1"]))
    expect("RECENT", client.response("RECENT"), ("RECENT", [b"0"]))
    text = client.fetch("1", "(BODY[])")[1][0][1]
    expect("the message", text, b"Return-Path: <s@a.example>\r\nSubject: one\r\n\r\nhi\r\n")
    deliver(house, ("Subject: two", "", "hi"), "alice")
    expect("CHECK", client.check(), ("OK", [b"CHECK completed"]))
    expect("what CHECK showed", client.response("EXISTS"), ("EXISTS", [b"2"]))
    expect("a flag", client.store("1", "+FLAGS", r"(\Deleted)")[0], "OK")
    expect("EXPUNGE", client.expunge(), ("OK", [b"1"]))
    expect("APPEND", client.append("INBOX", r"(\Seen)", '"17-Jul-1996 02:44:25 -0700"', b"Subject: three\r\n\r\nhi\r\n")[0], "OK")
    expect("what is there", client.status("INBOX", "(MESSAGES UNSEEN)"), ("OK", [b"INBOX (MESSAGES 2 UNSEEN 1)"]))
    # What EXPUNGE and APPEND showed of flags stands before the answer, as imaplib hands out all that it holds.
    expect("the date of what was appended", client.fetch("2", "(INTERNALDATE)")[1][-1], b'2 (INTERNALDATE "17-Jul-1996 02:44:25 -0700")')
    expect("a search by it", client.search(None, "ON", "17-Jul-1996"), ("OK", [b"2"]))


def counting(client):
    """A search that says what it is to return; imaplib reads the answer as any other that it doesn't know (RFC 9051, 7.3.4)."""
    expect("SEARCH RETURN", client.search(None, "RETURN", "(MIN COUNT)", "SEEN")[0], "OK")
    found = client.response("ESEARCH")[1][-1]
    expect("what it returns", found.partition(b") ")[2], b"MIN 2 COUNT 1")
    expect("UID SEARCH RETURN", client.uid("SEARCH", "RETURN", "()", "DRAFT")[0], "OK")
    expect("of none", client.response("ESEARCH")[1][-1].partition(b")")[2], b" UID")


def idling(client, house):
    """imaplib has no IDLE of its own before Python 3.14."""
    client.send(b"i1 IDLE\r\n")
    expect("IDLE", client.readline(), b"+ idling\r\n")
    deliver(house, ("Subject: four", "", "hi"), "alice")
    expect("what came meanwhile", client.readline(), b"* 3 EXISTS\r\n")
    client.send(b"DONE\r\n")
    expect("the end of IDLE", client.readline(), b"i1 OK IDLE completed\r\n")


def copying(house):
    """Messages are copied and moved, one and several by one command, with their flags (RFC 9051, 6.4.7 and 6.4.8)."""
    client = connect(house.imap_ports[1])
    client.login("bob", "")
    expect("his mail", client.select(), ("OK", [b"1"]))
    client.response("EXISTS")
    expect("a flag", client.store("1", "+FLAGS", r"(\Flagged)")[0], "OK")
    expect("COPY", client.copy("1", "inbox"), ("OK", [b"[COPYUID 7 1 2] COPY completed"]))
    expect("what it showed", client.response("EXISTS"), ("EXISTS", [b"2"]))
    client.literal = b"INBOX"
    expect("UID COPY by a literal", client.uid("COPY", "2")[0], "OK")
    texts = [part[1] for part in client.fetch("1:3", "(BODY.PEEK[])")[1] if isinstance(part, tuple)]
    expect("the copies' texts", texts, [texts[0]] * 3)
    expect("the copies' flags", client.fetch("1:3", "(FLAGS)")[1], [b"%d (FLAGS (\\Flagged))" % number for number in (1, 2, 3)])
    expect("COPY elsewhere", client.copy("1", "Play")[0], "NO")
    expect("what is there", client.status("INBOX", "(MESSAGES UIDNEXT)"), ("OK", [b"INBOX (MESSAGES 3 UIDNEXT 4)"]))
    expect("UID MOVE", client.uid("MOVE", "1", "INBOX")[0], "OK")
    expect("what is there then", client.uid("SEARCH", "ALL"), ("OK", [b"2 3 4"]))
    expect("COPY of two", client.copy("1:2", "INBOX"), ("OK", [b"[COPYUID 7 2:3 5:6] COPY completed"]))
    expect("MOVE of all", client.uid("MOVE", "1:*", "INBOX")[0], "OK")
    expect("where they are", client.response("COPYUID")[1][-1], b"7 2:6 7:11")
    expect("what is there now", client.uid("SEARCH", "FLAGGED"), ("OK", [b"7 8 9 10 11"]))
    for uid in (7, 8, 9, 10):
        expect("a flag", client.uid("STORE", str(uid), "+FLAGS.SILENT", r"(\Deleted)")[0], "OK")
    expect("EXPUNGE", client.expunge()[0], "OK")
    expect("what is left", client.uid("SEARCH", "ALL"), ("OK", [b"11"]))
    client.logout()


def taking_out(house):
    """The script that takes mail out of a server logs in too, and leaves nothing there. It is tried where mbsync and curl are installed."""
    if not (shutil.which("mbsync") and shutil.which("curl")):
        return
    script = os.path.join(os.path.dirname(os.path.abspath(__file__)), "..", "examples", "take_mail.sh")
    with tempfile.TemporaryDirectory() as folder:
        taken = subprocess.run([script, folder, str(house.imap_ports[0]), *USERS], capture_output=True, timeout=60)
        expect("take_mail.sh", (taken.returncode, b"Error" in taken.stderr), (0, False))
        found = [len(os.listdir(f"{folder}/{user}/INBOX/new")) + len(os.listdir(f"{folder}/{user}/INBOX/cur")) for user in USERS]
        expect("mail that was taken out", found, [3, 1])
    for port, user in zip(house.imap_ports, USERS):
        client = connect(port)
        client.login(user, "")
        expect("what is left", client.select(), ("OK", [b"0"]))
        client.logout()


def main():
    program = sys.argv[1]
    house = House(program, USERS, ("--uidvalidity", "7", "--compatible", "--sessions", str(MOST_SESSIONS)))
    deliver(house, ("Subject: one", "", "hi"), "alice", "bob")
    client = before_login(house)
    who_it_is(client, version_of(program))
    authenticating(house)
    folders(client)
    dates(client, house)
    reading(client, house)
    counting(client)
    idling(client, house)
    expect("LOGOUT", client.logout()[0], "BYE")
    other = connect(house.imap_ports[1])
    expect("another user", other.login("bob", ""), ("OK", [b"LOGIN completed"]))
    expect("his mail", other.select(readonly=True), ("OK", [b"1"]))
    other.logout()
    copying(house)
    many(house)
    taking_out(house)
    expect("the status at the end", house.stop(), 0)
    house = House(program, USERS, ("--uidvalidity", "7"))
    refused("a client of IMAP4rev1 without the option", lambda: connect(house.imap_ports[0]))
    expect("the status at its end", house.stop(), 0)
    for failure in failures:
        print(failure)
    print(f"{tried - len(failures)} of {tried} of what a client of IMAP4rev1 finds")
    sys.exit(1 if failures else 0)


main()
