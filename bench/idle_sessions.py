#!/usr/bin/env python3
"""What a server takes while all its sessions idle and nothing comes.

    idle_sessions.py PROGRAM [--users 62] [--sessions 4] [--seconds 10]

Printed are how many sessions there are, the ticks of processor time in the seconds (100 a second), the same in microseconds by the process's own clock, and the
memory that it has at the end, in MB (1,000,000 bytes). Afterwards each user is sent a message, and each session must be told of it.
"""

import argparse
import os
import sys
import time

from clients import DATA, DELIVERED, House, begin, end_by_exit, greet, idle, processor_seconds, read_until


def ticks(pid):
    """Processor time in ticks: the program's and the system's for it."""
    with open(f"/proc/{pid}/stat", encoding="ascii") as stat:
        # What stands behind the name, which may have spaces in it.
        fields = stat.read().rpartition(")")[2].split()
    return int(fields[11]) + int(fields[12])


def memory(pid):
    """The bytes of memory that are there for the process."""
    with open(f"/proc/{pid}/statm", encoding="ascii") as statm:
        return int(statm.read().split()[1]) * os.sysconf("SC_PAGE_SIZE")


def measure(house, seconds):
    """Ticks and microseconds of processor time in so many seconds."""
    first_ticks, first_seconds = ticks(house.pid), processor_seconds(house.pid)
    time.sleep(seconds)
    return ticks(house.pid) - first_ticks, (processor_seconds(house.pid) - first_seconds) * 1e6


def send_all(house):
    """Sends each user a message."""
    mail = greet(house.connect_lmtp())
    for user in house.users:
        begin(mail, user)
        mail.sendall(DATA)
        read_until(mail, DELIVERED)


def are_told(sessions):
    """Each of these sessions, which have idled all the time, is told of its first message; where one isn't, that is an error after a while."""
    for session in sessions:
        read_until(session, b"* 1 EXISTS\r\n")


def main():
    reader = argparse.ArgumentParser(description="What a server takes while all its sessions idle.")
    reader.add_argument("program")
    reader.add_argument("--users", type=int, default=62)
    reader.add_argument("--sessions", type=int, default=4)
    reader.add_argument("--seconds", type=float, default=10)
    words = reader.parse_args()
    end_by_exit()
    users = [f"u{number}" for number in range(words.users)]
    house = House(words.program, users, ("--sessions", str(words.sessions), "--uidvalidity", "7"))
    sessions = [idle(house.connect_imap(user)) for user in range(words.users) for _ in range(words.sessions)]
    time.sleep(1)
    spent, microseconds = measure(house, words.seconds)
    print(f"sessions={len(sessions)} ticks={spent} cpu={microseconds:.0f} memory={memory(house.pid) / 1e6:.1f}", flush=True)
    send_all(house)
    are_told(sessions)
    status = house.stop()
    house.kill()
    sys.exit(0 if status == 0 else f"idle_sessions: the program's status is {status}")


if __name__ == "__main__":
    main()
