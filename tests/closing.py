#!/usr/bin/env python3
"""Long scripts in which shards are closed among lines that look random: what stands at the end is what was answered as stored, each copy once.

    tests/closing.py PROGRAM [SEED..]

Four mailboxes, each on a shard of its own. Four connections bring mail for two of them at a time, and a session of dave appends; each message has a number.
Some shards stand still for a while, and each but the last is closed in time. At the end the mailboxes are told by TAIL, and read by a session each.
"""

import random
import re
import subprocess
import sys

SEEDS = ["1", "2", "3"]
LINES = 3000
USERS = ["alice", "bob", "carol", "dave"]
WORDS = ["script", "--shards", "4", "--depth", "2", *USERS]

# Lines of the script's own, at these places. The second CLOSE of a shard is refused.
OWN = {
    40: "HOLD 1",
    300: "FREE 1",
    750: "CLOSE 0",
    760: "CLOSE 0",
    1000: "HOLD 2",
    1150: "CLOSE 2",
    1300: "FREE 2",
    1600: "HOLD 0",
    2000: "CLOSE 1",
    2200: "FREE 0",
}

SESSION = 4
STORED, CLOSED, FULL = "250 2.1.5 Delivered", "450 4.2.1 Shard closed", "452 4.3.1 Shard full"
APPENDED = re.compile(r"a(\d+) OK \[APPENDUID 1 (\d+)\] APPEND completed")


def recipients(number):
    """Whom the message of this number is for."""
    return ["alice", "bob" if number % 2 else "carol"]


def brought(connection, number):
    said = ["LHLO c.example", "MAIL FROM:<s@a.example>", *(f"RCPT TO:<{user}@example.org>" for user in recipients(number)), "DATA", f"number {number}", "."]
    return [f"L{connection} {line}" for line in said]


def appended(number):
    text = f"number {number}"
    return [f"I1 a{number} APPEND INBOX {{{len(text)}+}}", f"I1 {text}"]


class Speakers:
    """Four connections and a session: what each is about to say, and the numbers of the messages that each began."""

    def __init__(self):
        self.waiting = [[] for _ in range(SESSION + 1)]
        self.begun = [[] for _ in range(SESSION + 1)]
        self.count = 0

    def say(self, speaker):
        if not self.waiting[speaker]:
            self.count += 1
            self.begun[speaker].append(self.count)
            self.waiting[speaker] = appended(self.count) if speaker == SESSION else brought(speaker + 1, self.count)
        return self.waiting[speaker].pop(0)

    def rest(self):
        return [line for lines in self.waiting for line in lines]


def reading(place, user):
    """A session of this user that reads all that stands in her mailbox."""
    return [f"I{place}={user}", f"I{place} r SELECT INBOX", f"I{place} s UID FETCH 1:* BODY.PEEK[]"]


def script(seed, speakers):
    chance = random.Random(int(seed))
    lines = ["I1=dave"]
    lines += [OWN.get(place) or speakers.say(chance.randrange(SESSION + 1)) for place in range(LINES)]
    lines += speakers.rest()
    lines += [f"TAIL {user}" for user in USERS]
    return lines + [line for place, user in enumerate(USERS, 2) for line in reading(place, user)]


def run(program, lines):
    text = "".join(line + "\n" for line in lines)
    ended = subprocess.run([program, *WORDS], input=text, capture_output=True, text=True, timeout=60, check=True)
    return ended.stdout.splitlines()


def said_by(mark, printed):
    return [line[len(mark) + 1 :] for line in printed if line.startswith(mark + " ")]


def answered(replies, numbers):
    """What a connection was told of its copies: (user, number, reply) for each, in its order. Its replies come transaction by transaction."""
    replies, told = iter(replies), []
    for number in numbers:
        while next(replies) != "250 2.1.0 Sender OK":
            pass
        accepted = [user for user in recipients(number) if next(replies) == "250 2.1.5 Recipient OK"]
        if next(replies) == "354 Start mail input":
            told += [(user, number, next(replies)) for user in accepted]
    return told


def kept(printed, speakers):
    """What was answered as stored, user by user: the numbers of the messages."""
    found = {user: [] for user in USERS}
    told = [copy for place in range(SESSION) for copy in answered(said_by(f"L{place + 1}", printed), speakers.begun[place])]
    for user, number, reply in told:
        if reply == STORED:
            found[user].append(number)
    found["dave"] += [int(number) for number, _ in appends(printed)]
    return {user: sorted(numbers) for user, numbers in found.items()}


def appends(printed):
    """The number and the UID of each message of dave's that was stored."""
    return [told.groups() for told in map(APPENDED.fullmatch, said_by("I1", printed)) if told]


def standing(place, printed):
    """What stands in a mailbox by the session at this place: (UID, number) for each message."""
    return re.findall(r"^\* \d+ FETCH \(UID (\d+) BODY\[\] .*\n(?:Return-Path.*\n)?number (\d+)", "\n".join(said_by(f"I{place}", printed)), re.M)


def count_ending(reply, printed):
    return sum(line.endswith(reply) for line in printed)


def faults_of(printed, speakers):
    """What isn't as it is to be."""
    wanted = kept(printed, speakers)
    for place, user in enumerate(USERS, 2):
        found = standing(place, printed)
        if sorted(int(number) for _, number in found) != wanted[user]:
            yield f"{user}: what stands isn't what was answered as stored"
        if said_by(f"T {user}", printed) != [f"add {uid}" for uid, _ in found] + [f"total {len(found)}"]:
            yield f"{user}: TAIL tells something else than FETCH"
    if not set(appends(printed)) <= {(number, uid) for uid, number in standing(5, printed)}:
        yield "dave: a message stands under another UID than was answered"
    if sum(map(len, wanted.values())) <= 250 or len(wanted["dave"]) <= 100:
        yield "few copies were stored"
    if count_ending(CLOSED, printed) <= 100 or count_ending(FULL, printed) == 0:
        yield "few copies were refused"
    if [line for line in printed if line.startswith("? ")] != ["? 762 Busy"]:
        yield "a line of the script's own was taken otherwise"


def main(words):
    program, seeds, failed = words[0], words[1:] or SEEDS, 0
    for seed in seeds:
        speakers = Speakers()
        for fault in faults_of(run(program, script(seed, speakers)), speakers):
            failed += 1
            print(f"closing: seed {seed}: {fault}")
    print(f"{len(seeds)} scripts, {failed} failed")
    return 1 if failed else 0


if __name__ == "__main__":
    sys.exit(main(sys.argv[1:]))
