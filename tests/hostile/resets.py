"""Connections that are reset in the middle of what they say, and in the middle of what they are told."""

import re
import socket
import time

from hostile.checks import ROOM, STRIDE, Copies, end, expect_standing
from serving_house import House
from talks import DELIVERED, GREETING, HELLO, PREAUTH, RECIPIENT_OK, SENDER_OK, START_INPUT
from talks import ImapTalk, MailTalk, Wrong, data_of, envelope, mail, opening, session


# Each of so many positions is tried, and behind them some.
NEAR = 40


def positions_up_to(length, is_quick):
    """Positions behind which a connection is reset, of so many: each near one, and every seventh behind them; in a quick run every seventh."""
    near = range(1, min(NEAR, length) + 1, STRIDE if is_quick else 1)
    return [*near, *range(near[-1] + STRIDE, length, STRIDE), length]


class Beside:
    """A mail connection and a session that idles, which notice nothing of what becomes of others."""

    def __init__(self, house):
        self.mail, self.session = mail(house), session(house)
        self.messages, _ = self.session.select()
        self.tag = self.session.start(b"IDLE")
        self.session.expect(b"+ idling")

    def expect_undisturbed(self, messages):
        """The mail connection is answered, and the session is told of each message, up to so many."""
        self.mail.note()
        while self.messages < messages:
            line = self.session.line()
            # Sessions that are reset set a flag, and take it away.
            if not re.fullmatch(rb"\* 1 FETCH \(UID 1 FLAGS \((\\Seen)?\)\)", line):
                self.messages += 1
                if line != b"* %d EXISTS" % self.messages:
                    raise Wrong(f"the session beside was told {line!r} in place of {self.messages} EXISTS")

    def end(self):
        """Both end in good order, and nothing else was to be told."""
        self.session.say(b"DONE\r\n")
        told, tagged = self.session.finish(self.tag)
        if tagged != b"OK IDLE completed" or any(b"EXISTS" in line for line in told):
            raise Wrong(f"DONE was answered {told!r} and {tagged!r}")
        self.session.quit()
        self.mail.quit()


class Resets:
    """A server, and connections that are reset, one after another; behind each comes a client that is served."""

    DATA_REPLIES = [GREETING, *HELLO, SENDER_OK, RECIPIENT_OK, START_INPUT, DELIVERED]
    SESSION = b"a1 SELECT INBOX\r\na2 UID FETCH 1:2 (FLAGS BODY.PEEK[])\r\na3 STORE 1 +FLAGS (\\Seen)\r\na4 IDLE\r\nDONE\r\na5 STORE 1 -FLAGS (\\Seen)\r\na6 NOOP\r\n"

    def __init__(self, program):
        self.house = House(program, ["alice"], [*ROOM, "--workers", "2", "--sessions", "2"])
        self.copies, self.number = Copies(), 0
        for _ in range(2):
            self.bring()
        self.beside = Beside(self.house)

    def bring(self):
        """A whole message of a client that is served."""
        self.number += 1
        name, bringing = f"whole-{self.number}", mail(self.house)
        self.copies.send(name, data_of(name))
        if (answers := bringing.deliver(["alice"], data_of(name))) != [DELIVERED]:
            raise Wrong(f"a message was answered {answers!r}")
        self.copies.settle(name, 1, 1)
        bringing.quit()

    def visit(self):
        """A session of a client that is served: it sees as many messages as stand at least."""
        visiting = session(self.house)
        count, _ = visiting.select()
        if not sum(self.copies.least.values()) <= count <= sum(self.copies.most.values()):
            raise Wrong(f"there are {count} messages")
        visiting.expect_answer(b"NOOP")
        visiting.quit()
        return count

    def go_on(self):
        """Clients come behind a reset, and those beside it are there still."""
        self.bring()
        self.beside.expect_undisturbed(self.visit())

    def reset_mail(self, sent, was_read, pause):
        """A mail connection that sends so many bytes of a message, or all, reads so many of the answers, and is reset."""
        self.number += 1
        name = f"reset-{self.number}"
        data = data_of(name)
        said = b"LHLO c.example\r\n" + envelope(["alice"]) + data + b".\r\n"
        replies = b"".join(line + b"\r\n" for line in self.DATA_REPLIES)
        self.copies.send(name, data)
        self.copies.settle(name, was_read >= len(replies), sent is None or sent >= len(said))
        peer = MailTalk(self.house.connect_lmtp())
        peer.say(said[:sent])
        if (came := peer.take(was_read)) != replies[:was_read]:
            raise Wrong(f"{came!r} came first")
        time.sleep(pause)
        peer.reset()
        self.go_on()

    def reset_session(self, sent, was_read, pause):
        """A session that sends so many bytes, or all, reads so many of the answers, and is reset; in some a message comes in between."""
        peer = ImapTalk(self.house.connect_imap(0))
        peer.say(self.SESSION[:sent])
        came = peer.take(was_read)
        first = (PREAUTH + b"\r\n" + opening(0, 0)[0] + b"\r\n")[:was_read]
        if not came.startswith(first):
            raise Wrong(f"{came!r} came first")
        if pause:
            self.bring()
        peer.reset()
        self.go_on()

    def half_close(self):
        """A mail connection and a session that close the side that they write to: what they said before is answered, and then they are let go."""
        self.number += 1
        name = f"half-{self.number}"
        peer = MailTalk(self.house.connect_lmtp())
        self.copies.send(name, data_of(name))
        self.copies.settle(name, 1, 1)
        peer.say(b"LHLO c.example\r\n" + envelope(["alice"]) + data_of(name) + b".\r\nNOO")
        peer.stream.shutdown(socket.SHUT_WR)
        peer.expect(*self.DATA_REPLIES)
        peer.expect_end()
        peer = session(self.house)
        peer.say(b"a LIST \"\" *\r\nb IDLE\r\n")
        peer.stream.shutdown(socket.SHUT_WR)
        peer.expect(b'* LIST () "/" INBOX', b"a OK LIST completed", b"+ idling")
        peer.expect_end()
        self.go_on()

    def end(self):
        """What stands is right, and the server ends."""
        count = expect_standing(self.house, self.copies)
        self.beside.expect_undisturbed(count)
        self.beside.end()
        end(self.house)
        return count


def reset_all(tally, program, is_quick):
    """Each reset, at once and a little later."""
    resets, pauses = None, (0,) if is_quick else (0, 0.002)
    mail_sent = len(b"LHLO c.example\r\n" + envelope(["alice"]) + data_of("reset-1") + b".\r\n") + 2
    mail_read = sum(len(line) + 2 for line in Resets.DATA_REPLIES)
    cases = [("mail", "reset_mail", mail_sent, mail_read), ("session", "reset_session", len(Resets.SESSION), 700)]
    with tally.case("resets: a server with clients"):
        resets = Resets(program)
    for who, act, sent, was_read in cases if resets else ():
        plan = [(count, 0, pause) for pause in pauses for count in positions_up_to(sent, is_quick)]
        plan += [(None, count, pause) for pause in pauses for count in positions_up_to(was_read, is_quick)]
        for count, read, pause in plan:
            with tally.case(f"resets: a {who} connection, {count} bytes sent, {read} read, {pause} s"):
                getattr(resets, act)(count, read, pause)
        print(f"resets: {len(plan)} {who} connections were reset, behind up to {sent} bytes sent and {was_read} read")
    with tally.case("resets: connections that are closed on one side"):
        resets.half_close()
    with tally.case("resets: what stands, and the end"):
        print(f"resets: {resets.end()} messages stand")
