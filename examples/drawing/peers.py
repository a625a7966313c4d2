"""Who speaks in a script, as far as what is said and answered tells which copies are handed over and what a session has selected."""

import re


class Copy:
    """A message for one mailbox: who handed it over, and what was answered of it at last."""

    def __init__(self, source, mailbox):
        self.source, self.mailbox, self.verdict = source, mailbox, ""

    def is_refused(self):
        """Whether it was answered that it doesn't stand."""
        return bool(self.verdict) and not self.verdict.startswith(("250", "OK"))

    def was_put(self):
        """Whether it came into a lane, as far as the answer tells."""
        return not re.search("Shard full|Shard closed|too big|NUL byte", self.verdict)


class Connection:
    """A peer that brings mail."""

    def __init__(self, name, mailboxes):
        self.name, self.mailboxes, self.title = name, mailboxes, "connection"
        self.said, self.replies = b"", []
        self.recipients, self.awaited, self.heard = [], [], []
        self.is_greeted = self.is_in_data = False

    def hear(self, piece):
        """Takes what the peer sent. What it hands over shows in what it is answered."""
        self.said += piece
        return []

    def go_on(self, replies):
        """Goes through what was said, as far as these further replies reach, and gives the copies that were handed over."""
        self.replies, self.heard, handed = self.replies + replies, [], []
        if not self.is_greeted and self.replies:
            self.is_greeted = bool(self.replies.pop(0))
        while self.hear_verdicts() and b"\r\n" in self.said and (self.replies or self.is_in_data):
            line, _, self.said = self.said.partition(b"\r\n")
            if not self.is_in_data:
                self.answered(line.decode(errors="replace"), self.replies.pop(0))
            elif line == b".":
                self.awaited = [Copy(self.name, name) for name in self.recipients]
                self.recipients, self.is_in_data = [], False
                handed += self.awaited
        return handed

    def hear_verdicts(self):
        """Hears what is answered of the copies that were handed over, and says whether it was all."""
        while self.awaited and self.replies:
            self.awaited[0].verdict = self.replies.pop(0)
            self.heard.append(self.awaited[0])
            self.awaited = self.awaited[1:]
        return not self.awaited

    def answered(self, command, reply):
        """A command was answered so."""
        verb = command[:4].upper()
        if verb == "RCPT" and reply.startswith("250"):
            self.recipients.append(self.mailbox_in(command))
        elif verb in ("MAIL", "RSET", "LHLO") and reply.startswith("250"):
            self.recipients = []
        self.is_in_data = reply.startswith("354")

    def mailbox_in(self, command):
        """The mailbox that a RCPT line names."""
        path = re.search(r"<(?:@[^:]*:)?\"?([^@>\"]*)", command)
        user, _, folder = path[1].partition("+") if path else ("", "", "")
        wanted = user if folder.upper() in ("", "INBOX") else f"{user}/{folder}"
        return next((name for name in self.mailboxes if name.lower() == wanted.lower()), None)


# Behind the answers to these a session has been shown all that was pending.
SHOWING = ("SELECT", "EXAMINE", "NOOP", "UID FETCH", "UID STORE", "UID EXPUNGE", "EXPUNGE", "LIST", "STATUS", "APPEND", "IDLE")


class Session:
    """A client that reads mail. `shown` is how many changes of its mailbox it has been shown."""

    def __init__(self, name, user):
        self.name, self.user, self.title = name, user, f"session of {user}"
        self.said, self.commands = b"", {}
        self.wanted = self.copy = self.selected = None
        self.shown = 0

    def hear(self, piece):
        """Takes what the client sent, and gives the copies that it hands over."""
        self.said += piece
        while self.wanted is None and b"\r\n" in self.said:
            line, _, self.said = self.said.partition(b"\r\n")
            self.command(line.decode(errors="replace"))
        if self.wanted is None or len(self.said) < self.wanted + 2:
            return []
        self.said, self.wanted = self.said[self.wanted + 2 :], None
        return [self.copy, *self.hear(b"")]

    def command(self, line):
        """A line of the client's."""
        tag, *words = line.split(" ")
        if not words:
            return
        verb = " ".join(words[: 2 if words[0].upper() == "UID" else 1]).upper()
        argument = words[1] if len(words) > 1 else ""
        self.commands[tag] = verb, argument
        literal = re.search(r"\{(\d+)\+?\}$", line)
        if verb == "APPEND" and literal:
            self.wanted, self.copy = int(literal[1]), Copy(self.name, self.mailbox_in(argument))

    def hear_verdict(self, tag, text):
        """What is answered of the message that the client appends, if this answers that."""
        if self.copy and self.verb_of(tag) == "APPEND":
            self.copy.verdict, self.copy, self.wanted = text, None, None

    def answered(self, tag, text, count_of):
        """A command was answered so; `count_of` says how many changes a mailbox has had."""
        verb, argument = self.commands.get(tag, ("", ""))
        if text.startswith("OK") and verb in ("SELECT", "EXAMINE"):
            self.selected = self.mailbox_in(argument)
        elif text.startswith("OK") and verb in ("CLOSE", "UNSELECT", "LOGOUT"):
            self.selected = None
        if verb in SHOWING:
            self.shown = count_of(self.selected)

    def verb_of(self, tag):
        """The command of this tag; an empty word where there is none."""
        return self.commands.get(tag, ("", ""))[0]

    def mailbox_in(self, word):
        """The mailbox that a word names to this user."""
        word = word.strip('"')
        return self.user if word.upper() == "INBOX" else f"{self.user}/{word}"
