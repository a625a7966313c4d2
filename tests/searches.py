#!/usr/bin/env python3
"""Searches of all kinds, asked of a server and answered beside it by this script.

    tests/searches.py PROGRAM [SEARCHES] [SEED]

A mailbox has messages of several sizes, dates and flags, of several fields and words, and gaps between their UIDs. Keys are made at random, nested as deep as
five, and sent as SEARCH and as UID SEARCH, in upper and lower case. What each of them means of each message is what RFC 9051, 6.4.4 says, worked out here over
plain values. It prints each search that was answered otherwise with the seed by which it comes again, and last how many there were.
"""

import imaplib
import random
import re
import sys

from serving_house import House

FLAGS = ("Answered", "Deleted", "Draft", "Flagged", "Seen")
MESSAGES = 24
PATIENCE = 20


MONTHS = "Jan Feb Mar Apr May Jun Jul Aug Sep Oct Nov Dec".split()

# Fields with a key of their own, others, and of what their bodies and those of messages are made. Bytes of a quoted string that an atom can't have are among them.
NAMED = ("Subject", "From", "To", "Cc", "Bcc")
OTHERS = ("X-Tag", "Received", "Return-Path", "X-None", "Sub")
WORDS = ("Lunch", "dinner", "at noon", "Subject: dinner", 'say "hi"', "a\\b", "(yes)", "100%", "[b]", "{3}", "ann@a.example", "")


def fields_of(header):
    """The name of each field, and what stands behind its colon without the ends of its lines, in lower case."""
    lines = re.sub(rb"\r\n(?=[ \t])", b"", header.lower()).split(b"\r\n")
    return [(name.rstrip(b" \t"), body) for name, colon, body in (line.partition(b":") for line in lines) if colon]


class Message:
    def __init__(self, position, uid, size, date, flags, text):
        self.position, self.uid, self.size, self.date, self.flags, self.text = position, uid, size, date, flags, text
        header, _, self.body = text.partition(b"\r\n\r\n")
        self.fields = fields_of(header)


def a_date(chance):
    """A year, a month and a day, few enough to be met again."""
    return chance.randint(2024, 2026), chance.randint(1, 12), chance.choice((1, 2, 14, 28))


def received(date, chance):
    """The line of a relay that took a message then, in a zone in which the day may be another elsewhere."""
    year, month, day = date
    return f"Received: by a.example; {day} {MONTHS[month - 1]} {year} {chance.choice(('00:10:00 +1400', '23:50:59 -1200', '12:00:00 +0000'))}"


def a_field(name, chance):
    """A field with a few words, which may be folded between them, as its lines."""
    words = "".join(chance.choice((" ", " ", "\r\n ", "\r\n\t")) + chance.choice(WORDS) for _ in range(chance.randint(0, 4)))
    return f"{name}{chance.choice(('', '', ' '))}:{words}".split("\r\n")


def a_message(size, chance):
    """The lines of a message of about this size."""
    relays = [received(a_date(chance), chance)] if chance.random() < 0.9 else []
    names = [name for name in (*NAMED, "X-Tag", "X-Tag") if chance.random() < 0.6]
    fields = [line for name in names for line in a_field(chance.choice((name, name.upper())), chance)]
    words = [" ".join(chance.choice(WORDS) for _ in range(3)) for _ in range(chance.randint(0, 2))]
    return [*relays, *fields, "", *words, "x" * size]


def deliver(house, sizes, chance):
    """A message of about each size, over LMTP, with a date or without."""
    with house.connect_lmtp() as relay:
        lines = ["LHLO c.example"]
        for size in sizes:
            lines += ["MAIL FROM:<s@a.example>", "RCPT TO:<alice@example.org>", "DATA", *a_message(size, chance), "."]
        relay.sendall("".join(f"{line}\r\n" for line in [*lines, "QUIT"]).encode())
        replies = b"".join(iter(lambda: relay.recv(65536), b""))
    if replies.count(b"250 2.1.5 Delivered") != len(sizes):
        raise RuntimeError(f"not all was delivered: {replies!r}")


def messages_of(client, chance):
    """Those that stay of the messages in the mailbox, as they are set here."""
    for number in range(1, MESSAGES + 1):
        flags = " ".join(f"\\{flag}" for flag in FLAGS if chance.random() < 0.4)
        client.store(str(number), "FLAGS.SILENT", f"({flags})")
    client.uid("STORE", "1,4:5,11", "+FLAGS.SILENT", r"(\Deleted)")
    client.uid("EXPUNGE", "1,4:5,11")
    client.noop()
    texts = {int(part[0].split()[0]): part[1] for part in client.fetch("1:*", "(BODY.PEEK[])")[1] if isinstance(part, tuple)}
    found = []
    for line in client.uid("FETCH", "1:*", "FAST")[1]:
        told = line.decode()
        position, uid, size = (int(re.search(pattern, told)[1]) for pattern in (r"^(\d+) ", r"UID (\d+)", r"SIZE (\d+)"))
        day, month, year = re.search(r'INTERNALDATE "(\d+)-(\w+)-(\d+) ', told).groups()
        found.append(Message(position, uid, size, (int(year), MONTHS.index(month) + 1, int(day)), {flag for flag in FLAGS if f"\\{flag}" in told}, texts[position]))
    return found


def a_set(chance, greatest):
    """A set of numbers as a line has it, and what it means of a number."""
    ranges = []
    for _ in range(chance.randint(1, 3)):
        ends = [chance.choice(("*", chance.randint(1, greatest + 3))) for _ in range(chance.randint(1, 2))]
        ranges.append(ends)
    spelled = ",".join(":".join(str(end) for end in ends) for ends in ranges)

    def names(number):
        for ends in ranges:
            bounds = [greatest if end == "*" else end for end in ends]
            if min(bounds) <= number <= max(bounds):
                return True
        return False

    return spelled, names


def in_any_case(chance, words):
    return "".join(chance.choice((char.lower(), char.upper())) for char in words)


def spelled(chance, words):
    """Words as a line has them: an atom, where they can be one, or within quotes."""
    if words and not set(words) & set('(){%*"\\ ') and chance.random() < 0.5:
        return words
    return '"' + re.sub(r'(["\\])', r"\\\1", words) + '"'


def some_words(chance, messages):
    """A part of a line of some message, or other words, in any case."""
    line = chance.choice((*chance.choice(messages).text.decode("ascii").split("\r\n"), *WORDS, "nowhere")).strip("\t")
    start = chance.randint(0, len(line))
    return in_any_case(chance, line[start : start + chance.choice((0, 1, 2, 4, 8, 16))])


def a_key_of_words(chance, messages):
    """A key that asks for words in a field, behind the header or in all of a message, and what it means."""
    words = some_words(chance, messages)
    wanted = words.lower().encode()
    kind = chance.randrange(4)
    if kind == 0:
        return f"BODY {spelled(chance, words)}", lambda m: wanted in m.body.lower()
    if kind == 1:
        return f"TEXT {spelled(chance, words)}", lambda m: wanted in m.text.lower()
    name = chance.choice(NAMED if kind == 2 else NAMED + OTHERS)
    key = name.upper() if kind == 2 else f"HEADER {spelled(chance, in_any_case(chance, name))}"
    return f"{key} {spelled(chance, words)}", lambda m: any(field == name.lower().encode() and wanted in body for field, body in m.fields)


def a_plain_key(chance, messages):
    """A key without others in it: its words, and what it means of a message."""
    kind = chance.randrange(11)
    if kind > 7:
        return a_key_of_words(chance, messages)
    if kind < 2:
        flag = chance.choice(FLAGS)
        has = kind == 0
        return ("" if has else "UN") + flag.upper(), lambda m: (flag in m.flags) == has
    if kind == 2:
        word, value = chance.choice((("ALL", True), ("OLD", True), ("NEW", False), ("RECENT", False), ("KEYWORD $Junk", False), ("UNKEYWORD x", True)))
        return word, lambda m: value
    if kind == 3:
        size = chance.choice(messages).size + chance.randint(-1, 1)
        return f"LARGER {size}", lambda m: m.size > size
    if kind == 4:
        size = chance.choice(messages).size + chance.randint(-1, 1)
        return f"SMALLER {size}", lambda m: m.size < size
    if kind == 5:
        year, month, day = wanted = chance.choice((a_date(chance), chance.choice(messages).date))
        word, means = chance.choice((("BEFORE", lambda m: m.date < wanted), ("ON", lambda m: m.date == wanted), ("SINCE", lambda m: m.date >= wanted)))
        quote, zero = chance.choice(("", '"')), chance.choice(("", "0")) if day < 10 else ""
        return f"{word} {quote}{zero}{day}-{MONTHS[month - 1]}-{year}{quote}", means
    if kind == 6:
        spelled, names = a_set(chance, messages[-1].position)
        return spelled, lambda m: names(m.position)
    spelled, names = a_set(chance, messages[-1].uid)
    return f"UID {spelled}", lambda m: names(m.uid)


def a_key(chance, messages, levels):
    kind = chance.randrange(6) if levels else 5
    if kind == 0:
        words, means = a_key(chance, messages, levels - 1)
        return f"NOT {words}", lambda m: not means(m)
    if kind in (1, 2):
        one, two = (a_key(chance, messages, levels - 1) for _ in range(2))
        return f"OR {one[0]} {two[0]}", lambda m: one[1](m) or two[1](m)
    if kind == 3:
        words, means = some_keys(chance, messages, levels - 1)
        return f"({words})", means
    return a_plain_key(chance, messages)


def some_keys(chance, messages, levels):
    """Keys one after the other, all of which are meant."""
    keys = [a_key(chance, messages, levels) for _ in range(chance.choice((1, 1, 2, 3)))]
    return chance.choice((" ", " ", "  ")).join(words for words, _ in keys), lambda m: all(means(m) for _, means in keys)


def ask(client, words, by_uid):
    """The numbers that the server finds."""
    status, answer = client.uid("SEARCH", words) if by_uid else client.search(None, words)
    return [int(number) for number in answer[0].split()] if status == "OK" else f"{status} {answer}"


def main():
    program = sys.argv[1]
    count = int(sys.argv[2]) if len(sys.argv) > 2 else 1500
    seed = int(sys.argv[3]) if len(sys.argv) > 3 else random.SystemRandom().randrange(1 << 32)
    chance = random.Random(seed)
    house = House(program, ["alice"], ["--compatible"])
    wrong = 0
    try:
        deliver(house, [chance.randint(0, 60) for _ in range(MESSAGES)], chance)
        with imaplib.IMAP4("127.0.0.1", house.imap_ports[0], timeout=PATIENCE) as client:
            client.login("alice", "secret")
            client.select()
            messages = messages_of(client, chance)
            for number in range(count):
                words, means = some_keys(chance, messages, 5)
                by_uid = number % 2 == 1
                wanted = [m.uid if by_uid else m.position for m in messages if means(m)]
                found = ask(client, words.lower() if chance.random() < 0.3 else words, by_uid)
                if found != wanted:
                    wrong += 1
                    print(f"searches: seed {seed}: {'UID ' if by_uid else ''}SEARCH {words}: {found}, not {wanted}")
    finally:
        house.kill()
    print(f"{count - wrong} of {count} searches of {len(messages)} messages are answered as they mean")
    sys.exit(1 if wrong else 0)


if __name__ == "__main__":
    main()
