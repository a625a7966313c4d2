"""A session that idles and doesn't read while more changes come than its mailbox keeps."""

import collections

from hostile.checks import PATIENCE, end
from serving_house import House
from talks import DELIVERED, Wrong, data_of, mail, session


LAPPED = b"* BYE Too many changes were missed"


def is_answered(talk, count, times):
    """All messages were asked for so many times over. Each is answered; or, of an answer that wasn't read while some were removed, those that stood still; or the
    client is told within it that it missed too many changes, and that is no answer."""
    rows = []
    while not (text := talk.response()).startswith((b"q ", LAPPED)):
        rows.append(text)
    if any(row.count(b"BODY[] {") != times for row in rows):
        raise Wrong("a message was answered in part")
    if text == LAPPED:
        return False
    if text == b"q OK FETCH completed" and len(rows) == count:
        return True
    if text != b"q NO [EXPUNGEISSUED] Some messages are gone" or len(rows) >= count:
        raise Wrong(f"{len(rows)} messages of {count} were answered, and then {text!r}")
    return True


class Racing:
    """A mailbox of which one session makes changes, more than it keeps, and another idles and doesn't read meanwhile."""

    RING, MESSAGES, CHANGES = 16, 8, 48

    def __init__(self, house):
        self.house = house
        self.bringing, self.making = mail(house), session(house)
        self.uids, self.following = [], 1
        for _ in range(4):
            self.bring(60)
        self.making.select()

    def bring(self, kilobytes=0):
        """A message, and the line that tells of it."""
        data = data_of(f"{self.following}") + (b"x" * 62 + b"\r\n") * 16 * kilobytes
        if (answers := self.bringing.deliver(["alice"], data)) != [DELIVERED]:
            raise Wrong(f"a message was answered {answers!r}")
        self.uids.append(self.following)
        self.following += 1
        return b"* %d EXISTS" % len(self.uids)

    def flag(self, position, sign, flag):
        """Sets or takes a flag of the message at this position, and the line that tells of it."""
        line = b"* %d FETCH (UID %d FLAGS (%s))" % (position, self.uids[position - 1], flag if sign == b"+" else b"")
        answer = self.making.ask(b"UID STORE %d %sFLAGS (%s)" % (self.uids[position - 1], sign, flag))
        if answer[0][-1:] != [line] or answer[1] != b"OK UID STORE completed":
            raise Wrong(f"a STORE was answered {answer!r}")
        return line

    def remove(self):
        """Removes the first message, which has \\Deleted, and the line that tells of it."""
        self.making.expect_answer(b"EXPUNGE", b"* 1 EXPUNGE")
        del self.uids[0]
        return b"* 1 EXPUNGE"

    def make_changes(self):
        """So many changes, and the lines that tell of them, in order."""
        lines = []
        while len(lines) < self.CHANGES:
            last = len(self.uids)
            lines += [self.flag(last, b"+", b"\\Flagged"), self.flag(last, b"-", b"\\Flagged"), self.bring(60)]
            lines += [self.flag(2, b"+", b"\\Seen"), self.flag(2, b"-", b"\\Seen"), self.flag(1, b"+", b"\\Deleted"), self.remove()]
        return lines

    def fall_behind(self, times):
        """A session that asks for all messages so many times over, idles, and reads only when all changes are made. Whether it was told them all."""
        idling = session(self.house)
        count, _ = idling.select()
        question = b"q FETCH 1:* (" + b" ".join([b"BODY.PEEK[]"] * times) + b")\r\n" if times else b""
        idling.say(question + b"i IDLE\r\n")
        idling.has_more(PATIENCE)
        lines = self.make_changes()
        if times and not is_answered(idling, count, times):
            idling.expect_end()
            return False
        idling.expect(b"+ idling")
        return self.told(idling, lines)

    def told(self, idling, lines):
        """Reads what it is told: the lines in order, up to the last or to the BYE, and behind that the end."""
        for line in lines:
            came = idling.line()
            if came == LAPPED:
                idling.expect_end()
                return False
            if came != line:
                raise Wrong(f"{came!r} came in place of {line!r}")
        idling.say(b"DONE\r\n")
        if (answer := idling.finish(b"i")) != ([], b"OK IDLE completed"):
            raise Wrong(f"DONE was answered {answer!r}")
        idling.quit()
        return True


def fall_behind(tally, program, is_quick):
    """Sessions that don't read for a while: with room for what they are told, and without."""
    house, racing = None, None
    with tally.case("lapped: a server"):
        house = House(program, ["alice"], ["--ring", str(Racing.RING), "--messages", str(Racing.MESSAGES), "--uidvalidity", "7", "--workers", "2"])
        racing = Racing(house)
    for times, rounds in ((0, 5 if is_quick else 30), (60, 2 if is_quick else 10)):
        outcomes = collections.Counter()
        for number in range(rounds):
            with tally.case(f"lapped: after {times} times all messages, round {number}"):
                outcomes[racing.fall_behind(times)] += 1
                if outcomes[True] and times:
                    raise Wrong("a session was told of changes that its mailbox doesn't keep")
        told = f"{outcomes[True]} were told all changes, {outcomes[False]} that they had missed too many"
        print(f"lapped: {rounds} sessions asked {times} times for all messages, idled, and read late: {told}")
    with tally.case("lapped: the end"):
        racing.making.quit()
        racing.bringing.quit()
        end(house)
