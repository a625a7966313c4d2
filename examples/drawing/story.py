"""What happened in a script, row by row."""

import collections
import re

from .peers import Connection, Session
from .runs import sayings

# What a row may be. Columns go by their names: `L1`, `lane 0`, `alice`, `I1`.
# - A paragraph of comments.
Note = collections.namedtuple("Note", "text")
# - The script's line of this number begins.
Line = collections.namedtuple("Line", "number")
# - Something is said at a column: it comes in there, or goes out, and then it may come from the column `source`.
Said = collections.namedtuple("Said", "column is_inward lines kind source")
# - Something goes from column to column; at each behind the first it has a box with a word in it.
Moved = collections.namedtuple("Moved", "columns words kind")
# - Something begins or ends at a column: a connection is `open`, a lane `held`, a session's client `idle`.
Span = collections.namedtuple("Span", "column kind is_begun")

IS_CHANGE = re.compile(r"\* \d+ (EXISTS|EXPUNGE|FETCH \(UID (\d+) FLAGS (\(.*\))\))")
LINES = {"add": "EXISTS", "gone": "EXPUNGE"}


def shows(lines, change):
    """Whether these lines are the one that shows this change."""
    found, (kind, uid, *flags) = IS_CHANGE.fullmatch(lines[0]), change.split(" ", 2)
    if not found or len(lines) > 1:
        return False
    return [found[2], found[3]] == [uid, *flags] if kind == "flags" else found[1] == LINES[kind]


def count_shown(group, verb, pending):
    """How many of the lines before an answer, the last ones, show a change that was pending; of messages that came one behind another one line is told."""
    if verb in ("SELECT", "EXAMINE", "FETCH", "STORE"):
        return 0
    pending, count = list(pending), 0
    while count < len(group) and pending and shows(group[-1 - count], pending[-1]):
        while pending.pop().startswith("add") and pending and pending[-1].startswith("add"):
            pass
        count += 1
    return count


class Story:
    """The rows, and who is in them."""

    def __init__(self, mailboxes, shards):
        self.mailboxes, self.shards = mailboxes, shards
        self.rows, self.peers, self.titles = [], {}, {}
        self.logs = {name: [] for name in mailboxes}
        self.waiting = [[] for _ in range(shards)]

    def add(self, event):
        """One line of the script."""
        self.rows += [*map(Note, event.notes), Line(event.number)]
        for name, changes in event.changes.items():
            self.logs[name] += changes
        told = list(sayings(event.printed))
        handed = self.come(event.line, told) + self.hear_answers(told)
        self.move(handed, event.changes, told)
        for who in dict.fromkeys(who for who, _ in told):
            self.tell(who, [lines for name, lines in told if name == who])

    # ---- what comes from outside

    def come(self, line, told):
        """What a line of the script brings, and the copies that a client hands over by it."""
        who, rest = line[:2], line[2:]
        if line.startswith("TAIL ") or any(name == "?" for name, _ in told):
            self.rows.append(Said(None, True, [line], "asked", None))
        elif line.startswith(("HOLD ", "FREE ", "CLOSE ")):
            self.come_to_lane(*line.split(" "))
        elif rest.startswith("="):
            self.enter(Session(who, rest[1:]))
        elif rest == "!":
            self.rows += [Said(who, True, ["is gone"], "mark", None), Span(who, "open", False)]
            self.peers.pop(who, None)
        else:
            if who not in self.peers:
                self.enter(Connection(who, self.mailboxes))
            piece = bytes.fromhex(rest[2:]) if rest.startswith("x ") else rest[1:].encode() + b"\r\n"
            self.rows.append(Said(who, True, lines_of(piece), "said", None))
            return self.peers[who].hear(piece)
        return []

    def come_to_lane(self, verb, shard):
        """A shard stands still, goes on, or is closed."""
        lane = f"lane {int(shard)}"
        self.rows.append(Moved([lane], [verb], "mark"))
        if verb != "CLOSE":
            self.rows.append(Span(lane, "held", verb == "HOLD"))

    def enter(self, peer):
        """A connection or a session begins."""
        self.peers[peer.name], self.titles[peer.name] = peer, peer.title
        self.rows.append(Span(peer.name, "open", True))

    def hear_answers(self, told):
        """Has each peer hear what it was answered of its copies, and gives the copies that connections have handed over."""
        handed = []
        for name, peer in self.peers.items():
            lines = [lines[0] for who, lines in told if who == name]
            if isinstance(peer, Connection):
                handed += peer.go_on([line for line in lines if not line.startswith("250-")])
            else:
                for line in lines:
                    peer.hear_verdict(*line.partition(" ")[::2])
        return handed

    # ---- what goes from column to column

    def lane_of(self, mailbox):
        """The number of a mailbox's lane: shards keep the mailboxes by turns."""
        return self.mailboxes.index(mailbox) % self.shards

    def move(self, handed, changes, told):
        """Copies go into their lanes, and out of them into their mailboxes; sessions change mailboxes."""
        handed = [copy for copy in handed if copy.mailbox in self.mailboxes]
        for copy in handed:
            if copy.was_put():
                self.waiting[self.lane_of(copy.mailbox)].append(copy)
        delivered = [pair for name, made in changes.items() for pair in self.take(name, made)]
        # A copy that is handed over and delivered by one line makes one row.
        words = {copy: word for copy, word in delivered}
        for copy in handed + [copy for copy, _ in delivered if copy not in handed]:
            columns, boxes = [f"lane {self.lane_of(copy.mailbox)}"], [copy.mailbox]
            if copy in words:
                columns, boxes = columns + [copy.mailbox], boxes + [words[copy]]
            source = [copy.source] if copy in handed else []
            self.rows.append(Moved(source + columns, boxes if source else boxes[1:], "refused" if copy.is_refused() else "put"))
        for name, made in changes.items():
            source = self.who_changes(name, told)
            self.rows += [Moved([*source, name], [change], "changed") for change in made if not change.startswith("add")]

    def take(self, mailbox, changes):
        """What leaves a mailbox's lane: a copy for each message that has come to stand, and those that were refused. Gives each with a word for its box."""
        lane = self.waiting[self.lane_of(mailbox)]
        added = [change for change in changes if change.startswith("add")]
        taken = []
        for copy in [copy for copy in lane if copy.mailbox == mailbox]:
            if copy.is_refused() or added:
                lane.remove(copy)
                taken.append((copy, "refused" if copy.is_refused() else added.pop(0)))
        return taken

    def who_changes(self, mailbox, told):
        """The session that has changed a mailbox: one that has it selected, and was told something."""
        spoke = [who for who, _ in told]
        found = [name for name, peer in self.peers.items() if isinstance(peer, Session) and peer.selected == mailbox and name in spoke]
        # Another one that idles was told of it too, but it is the one that spoke last.
        last = [row.column for row in self.rows if isinstance(row, Said) and row.is_inward]
        return [name for name in found if len(found) == 1 or name == last[-1]]

    # ---- what is told

    def tell(self, who, said):
        """What one was told."""
        if who == "?":
            self.rows += [Said(None, False, lines, "fault", None) for lines in said]
        elif who == "T":
            mailbox = said[0][0].split(" ")[1]
            self.rows.append(Said(mailbox, False, [lines[0] for lines in said], "tail", None))
        elif who[0] == "L":
            self.tell_connection(self.peers[who], said)
        else:
            self.tell_session(self.peers[who], said)

    def tell_connection(self, peer, said):
        """Replies, of which one may have several lines. One of a copy comes from where that copy has come."""
        lines = []
        for (line,) in said:
            lines.append(line)
            if line.startswith("250-"):
                continue
            source = None
            if peer.heard and peer.heard[0].verdict == line:
                copy = peer.heard.pop(0)
                source = None if not copy.was_put() else copy.mailbox
            self.rows.append(Said(peer.name, False, lines, "refusal" if line[0] in "45" else "reply", source))
            lines = []
            if line.startswith(("221", "421")):
                self.leave(peer.name)

    def tell_session(self, session, said):
        """Answers, what stands before each, and what is told unasked."""
        group = []
        for lines in said:
            tag, _, text = lines[0].partition(" ")
            if tag in ("*", "+"):
                group.append(lines)
                continue
            verb = session.verb_of(tag)
            pending = self.logs.get(session.selected, [])[session.shown :]
            self.tell_group(session, group, verb, count_shown(group, verb, pending))
            self.rows.append(Said(session.name, False, lines, "reply" if text.startswith("OK") else "refusal", None))
            session.answered(tag, text, lambda name: len(self.logs.get(name, ())))
            if verb == "IDLE":
                self.rows.append(Span(session.name, "idle", False))
            group = []
        self.tell_group(session, group, "", sum(IS_CHANGE.fullmatch(lines[0]) is not None for lines in group))
        if group and not group[0][0].startswith("* PREAUTH"):
            session.shown = len(self.logs.get(session.selected, ()))
        if any(lines[0].startswith("* BYE") for lines in said):
            self.leave(session.name)

    def tell_group(self, session, group, verb, shown):
        """Lines without a tag, of which the last so many show changes. Those of a SELECT make one row, with the count of messages in front."""
        answers = group[: len(group) - shown]
        if verb in ("SELECT", "EXAMINE") and answers:
            lines = sorted((lines[0] for lines in answers), key=lambda line: not line.endswith("EXISTS"))
            answers = [[lines[0], *lines[1:]]]
        self.rows += [Said(session.name, False, lines, "reply", None) for lines in answers]
        self.rows += [Said(session.name, False, lines, "shown", session.selected) for lines in group[len(group) - shown :]]
        if ["+ idling"] in group:
            self.rows.append(Span(session.name, "idle", True))

    def leave(self, name):
        """A connection or a session is over."""
        self.rows.append(Span(name, "open", False))
        del self.peers[name]


def lines_of(piece):
    """What came, as lines; one that isn't whole ends in three dots. An LF that ends none is drawn as its sign."""
    *lines, rest = piece.decode(errors="replace").split("\r\n")
    lines += [f"{rest}\N{HORIZONTAL ELLIPSIS}"] if rest else []
    return [line.replace("\n", "\N{SYMBOL FOR LINE FEED}") for line in lines]
