"""A mail server for tests: it is started on free ports, takes mail, is read over IMAP, and is stopped in good order. It wants the standard library of Python 3.9
or later, and nothing else.

    with Server(("alice", "bob")) as server:
        server.deliver(b"Subject: hello\\r\\n\\r\\nhi\\r\\n", ["alice@example.org"])
        inbox = server.imap("alice")

The program is that of the variable POST_HOUSE, or the one that a package has put in its place.
"""

import imaplib
import os
import re
import select
import smtplib
import subprocess
import time

ADDRESS = "127.0.0.1"
INSTALLED = "/usr/lib/post_house/post_house"

# The server offers IMAP4rev2 alone, and imaplib knows older ones by itself.
if "IMAP4REV2" not in imaplib.AllowedVersions:
    imaplib.AllowedVersions += ("IMAP4REV2",)

# So many seconds a server may take to listen, and to end.
PATIENCE = 20


class Fault(RuntimeError):
    """The server doesn't start, or doesn't end as it has to."""


class Server:
    """A server with these mailboxes, each `user`, or `user/folder` behind its user. `command` are the words that start the program, in front of its own."""

    def __init__(self, mailboxes=("alice",), options=(), command=None):
        self.command = list(command or [os.environ.get("POST_HOUSE", INSTALLED)])
        self.mailboxes, self.options = list(mailboxes), list(options)
        self.users = [name for name in mailboxes if "/" not in name]
        self.process = None

    def __enter__(self):
        self.start()
        return self

    def __exit__(self, kind, *_):
        # A test that has failed is told, and not what came of the server behind it.
        try:
            self.stop()
        except Fault:
            if kind is None:
                raise

    def start(self):
        """Starts it, and waits until it listens on all its ports, which the system chooses."""
        ports = ["--lmtp-port", "0", "--imap-port", "0"]
        words = [*self.command, "serve", "--uidvalidity", str(int(time.time())), *ports, *self.options, *self.mailboxes]
        self.process = subprocess.Popen(words, stdin=subprocess.PIPE, stdout=subprocess.PIPE, stderr=subprocess.PIPE)
        if not self._listens():
            self.process.kill()
            _, faults = self.process.communicate()
            raise Fault(f"it doesn't serve: status {self.process.returncode}, {faults!r}")

    def _listens(self):
        """Whether it has said each of its listeners, as it does once it listens on all ports. Their lines name the ports."""
        said, until = b"", time.monotonic() + PATIENCE
        while said.count(b"\n") < 1 + len(self.users):
            if not select.select([self.process.stdout], [], [], max(0, until - time.monotonic()))[0]:
                return False
            piece = os.read(self.process.stdout.fileno(), 4096)
            if not piece:
                # It has ended, or is about to.
                self.process.wait(PATIENCE)
                return False
            said += piece
        self.lmtp_port = int(re.search(rb"^LMTP .*:(\d+)$", said, re.M)[1])
        self.imap_ports = {user.decode(): int(port) for port, user in re.findall(rb"^IMAP .*:(\d+) (\S+)$", said, re.M)}
        return True

    def end(self):
        """What has it stop: its input ends."""
        self.process.stdin.close()

    def stop(self):
        """Stops it in good order: who is connected is told, and it ends with status 0."""
        if self.process is None:
            return
        try:
            self.end()
            status = self.process.wait(PATIENCE)
            faults = self.process.stderr.read()
        except subprocess.TimeoutExpired:
            raise Fault(f"it still serves after {PATIENCE} seconds") from None
        finally:
            self._let_go()
        if status != 0 or faults:
            raise Fault(f"it ended with status {status}: {faults!r}")

    def _let_go(self):
        """Ends it at once, if it still runs."""
        process, self.process = self.process, None
        process.kill()
        process.wait()
        for stream in (process.stdin, process.stdout, process.stderr):
            stream.close()

    def deliver(self, message, recipients, sender="sender@example.com"):
        """Brings a message over LMTP, and gives of each recipient what was answered: the code and the text, of RCPT where that was refused, else of its copy."""
        answers, accepted = {}, []
        with smtplib.LMTP(ADDRESS, self.lmtp_port) as relay:
            relay.ehlo()
            relay.mail(sender)
            for recipient in recipients:
                answers[recipient] = relay.rcpt(recipient)
                if answers[recipient][0] == 250:
                    accepted.append(recipient)
            if accepted:
                relay.docmd("DATA")
                relay.send(b"".join(b"." + line if line.startswith(b".") else line for line in message.splitlines(keepends=True)) + b".\r\n")
                # Behind the data there is a reply of each copy.
                answers.update({recipient: relay.getreply() for recipient in accepted})
        return answers

    def imap(self, user, mailbox="INBOX"):
        """A connection to a user's port, which has a mailbox selected."""
        client = imaplib.IMAP4(ADDRESS, self.imap_ports[user], timeout=PATIENCE)
        client.select(mailbox)
        return client

    def messages(self, user, mailbox="INBOX"):
        """The texts of a mailbox's messages, in the order of their UIDs; they stay unseen."""
        client = self.imap(user, mailbox)
        try:
            _, answers = client.uid("FETCH", "1:*", "(BODY.PEEK[])")
            return [answer[1] for answer in answers if isinstance(answer, tuple)]
        finally:
            client.logout()
