"""What clients say, in other pieces: the answers are the same."""

import time

from hostile.checks import ROOM, STRIDE, end
from serving_house import House
from talks import DELIVERED, GREETING, HELLO, PREAUTH, RECIPIENT_OK, SENDER_OK, START_INPUT
from talks import ImapTalk, MailTalk, Wrong, data_of, mail, opening, session, standing


# What a mail client says, with dots at the heads of lines, CR and LF alone, a recipient who isn't there, and a command with LF in it.
MAIL_SAID = (
    b"LHLO c.example\r\nMAIL FROM:<s@a.example>\r\nRCPT TO:<alice@example.org>\r\nRCPT TO:<nobody@example.org>\r\nRCPT TO:<bob@example.org>\r\n"
    b"DATA\r\n..\r\n..x\r\nx.\r\na\n.\r\r\n.\r.\r\n\n.\nb\r\n\r\n.\r\nNOOP a\nb\r\nNOOP\r\nQUIT\r\n"
)
MAIL_ANSWERS = b"\r\n".join(
    [GREETING, *HELLO, SENDER_OK, RECIPIENT_OK, b"550 5.1.1 Mailbox unknown", RECIPIENT_OK, START_INPUT, DELIVERED, DELIVERED]
    + [b"501 5.5.4 Invalid arguments", b"250 2.0.0 OK", b"221 2.0.0 Bye", b""]
)
MAIL_TEXT = standing(b".\r\n.x\r\nx.\r\na\n.\r\r\n\r.\r\n\n.\nb\r\n\r\n")

# Of three messages one session removes two, and the other is told of it.
REMOVES = b"b1 SELECT INBOX\r\nb2 STORE 1:2 +FLAGS (\\Deleted)\r\nb3 EXPUNGE\r\nb4 LOGOUT\r\n"
REMOVES_ANSWERS = b"\r\n".join(
    [PREAUTH, *opening(3, 4), b"b1 OK [READ-WRITE] SELECT completed"]
    + [b"* 1 FETCH (FLAGS (\\Deleted))", b"* 2 FETCH (FLAGS (\\Deleted))", b"b2 OK STORE completed"]
    + [b"* 1 FETCH (UID 1 FLAGS (\\Deleted))", b"* 2 FETCH (UID 2 FLAGS (\\Deleted))"]
    + [b"* 1 EXPUNGE", b"* 1 EXPUNGE", b"b3 OK EXPUNGE completed", b"* BYE Logging out", b"b4 OK LOGOUT completed", b""]
)
IS_TOLD = b"a2 FETCH 1:3 (UID)\r\na3 NOOP\r\na4 UID FETCH 1:* (FLAGS BODY.PEEK[])\r\na5 LOGOUT\r\n"
IS_TOLD_ANSWERS = b"\r\n".join(
    [b"* 3 FETCH (UID 3)", b"a2 NO [EXPUNGEISSUED] Some messages are gone"]
    + [b"* 1 FETCH (UID 1 FLAGS (\\Deleted))", b"* 2 FETCH (UID 2 FLAGS (\\Deleted))", b"* 1 EXPUNGE", b"* 1 EXPUNGE", b"a3 OK NOOP completed"]
    + [b"* 1 FETCH (UID 3 FLAGS () BODY[] {%d}\r\n%s)" % (len(standing(data_of("3"))), standing(data_of("3")))]
    + [b"a4 OK UID FETCH completed", b"* BYE Logging out", b"a5 OK LOGOUT completed", b""]
)

# A session appends two messages, the first with its bytes unasked for, and reads them.
APPENDS = (
    b"b1 APPEND INBOX (\\Seen) {5+}\r\nhel\r\n\r\nb2 NOOP\r\nb3 APPEND INBOX {3}\r\nabc\r\n"
    b"b4 SELECT INBOX\r\nb5 UID FETCH 1:* (FLAGS BODY.PEEK[])\r\nb6 LOGOUT\r\n"
)
APPENDS_ANSWERS = b"\r\n".join(
    [PREAUTH, b"b1 OK [APPENDUID 7 1] APPEND completed", b"b2 OK NOOP completed", b"+ ready", b"b3 OK [APPENDUID 7 2] APPEND completed"]
    + [*opening(2, 3), b"b4 OK [READ-WRITE] SELECT completed"]
    + [b"* 1 FETCH (UID 1 FLAGS (\\Seen) BODY[] {5}\r\nhel\r\n)", b"* 2 FETCH (UID 2 FLAGS () BODY[] {3}\r\nabc)"]
    + [b"b5 OK UID FETCH completed", b"* BYE Logging out", b"b6 OK LOGOUT completed", b""]
)

# So many users of a server have a mailbox for one case each.
USERS = 50


def pieces(text, cut):
    """The text in two pieces, or in single bytes where the cut is -1, or whole where it is 0."""
    if cut < 0:
        return [text[position : position + 1] for position in range(len(text))]
    return [piece for piece in (text[:cut], text[cut:]) if piece]


def say_in_pieces(talk, parts):
    """Sends the pieces, with a pause in which the other side can read; the first comes in without one."""
    for position, part in enumerate(parts):
        if position:
            time.sleep(0.003 if len(parts) == 2 else 0.0005)
        talk.say(part)


def expect_same(came, wanted, before):
    """These bytes were to come, by the protocol; and the same as before, where the text was whole."""
    if came != wanted:
        position = next((position for position, (one, other) in enumerate(zip(came, wanted)) if one != other), min(len(came), len(wanted)))
        raise Wrong(f"at byte {position} came {came[max(0, position - 40):position + 40]!r} in place of {wanted[max(0, position - 40):position + 40]!r}")
    if before is not None and came != before:
        raise Wrong("it isn't the same as that of the whole")


def cut_positions(text, is_quick):
    """Whole, each position within, and single bytes."""
    return [0, *range(1, len(text), STRIDE if is_quick else 1), -1]


def cut_mail(tally, program, is_quick):
    """What a mail client says, cut at every position. Each run leaves a copy for two users, which are looked at behind the last."""
    house, whole, runs = House(program, ["alice", "bob"], ROOM), None, 0
    for cut in cut_positions(MAIL_SAID, is_quick):
        with tally.case(f"cuts: mail, cut at {cut}"):
            talk = MailTalk(house.connect_lmtp())
            say_in_pieces(talk, pieces(MAIL_SAID, cut))
            came = talk.rest()
            talk.close()
            expect_same(came, MAIL_ANSWERS, whole)
            whole, runs = came, runs + 1
    for user in range(2):
        with tally.case(f"cuts: the texts of user {user}"):
            looking = session(house, user)
            looking.select()
            if looking.messages() != [(uid, MAIL_TEXT) for uid in range(1, runs + 1)]:
                raise Wrong("other texts stand than were sent")
    with tally.case("cuts: the end of the first server"):
        end(house)
    print(f"cuts: what a mail client says, {len(MAIL_SAID)} bytes, in {runs} ways, on one server; replies tell no UIDs")


def open_mailboxes(house):
    """Brings three messages to each of the users, and a session for each that knows them."""
    bringing = mail(house)
    for name in ("1", "2", "3"):
        if bringing.deliver(house.users, data_of(name)) != [DELIVERED] * len(house.users):
            raise Wrong("a copy wasn't delivered")
    bringing.quit()
    for user in range(len(house.users)):
        watching = session(house, user)
        if watching.select() != (3, 4):
            raise Wrong("there aren't three messages")
        yield watching


def cut_in_mailboxes(tally, program, cuts, what, prepare, run):
    """Runs each cut over a mailbox of its own, of fifty on a server. `prepare` gives what each run on a server begins with."""
    for first in range(0, len(cuts), USERS):
        house, begun = None, ()
        with tally.case(f"cuts: a server for {what} from {first} on"):
            house = House(program, [f"u{number}" for number in range(USERS)], ["--uidvalidity", "7"])
            begun = list(prepare(house))
        for user, (cut, told) in enumerate(zip(cuts[first:], begun)):
            with tally.case(f"cuts: {what}, cut at {cut}"):
                run(house, user, cut, told)
        with tally.case(f"cuts: the end of the server for {what} from {first} on"):
            end(house)


def hear_all(talk, said, cut, answers):
    """Says all of it in pieces, and expects these answers."""
    say_in_pieces(talk, pieces(said, cut))
    expect_same(talk.rest(), answers, None)
    talk.close()


def cut_sessions(tally, program, is_quick):
    """What two sessions say, cut at every position: one removes messages, the other is told."""

    def remove(house, user, cut, told):
        hear_all(ImapTalk(house.connect_imap(user)), REMOVES, cut, REMOVES_ANSWERS)
        hear_all(told, IS_TOLD, cut, IS_TOLD_ANSWERS)

    cuts = cut_positions(max(REMOVES, IS_TOLD, key=len), is_quick)
    cut_in_mailboxes(tally, program, cuts, "sessions", open_mailboxes, remove)
    print(f"cuts: what two sessions say, {len(REMOVES)} and {len(IS_TOLD)} bytes, in {len(cuts)} ways, each with a mailbox of its own")


def cut_appends(tally, program, is_quick):
    """What a session says that appends, cut at every position."""

    def append(house, user, cut, _):
        hear_all(ImapTalk(house.connect_imap(user)), APPENDS, cut, APPENDS_ANSWERS)

    cuts = cut_positions(APPENDS, is_quick)
    cut_in_mailboxes(tally, program, cuts, "a session that appends", lambda house: house.users, append)
    print(f"cuts: what a session says that appends, {len(APPENDS)} bytes, in {len(cuts)} ways, each with a mailbox of its own")


def cut_all(tally, program, is_quick):
    """Mail, sessions, and sessions that append."""
    cut_mail(tally, program, is_quick)
    cut_sessions(tally, program, is_quick)
    cut_appends(tally, program, is_quick)
