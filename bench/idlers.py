#!/usr/bin/env python3
"""Sessions that idle and read what they are told, until the server ends them.

    idlers.py PORT COUNT

So many sessions of one user, on that user's port. Once all idle the word `idle` is written.
"""

import select
import sys

from clients import connect, idle


def read_all(sessions):
    """Reads until each session was closed; what is read is dropped."""
    while sessions:
        ready = select.select(sessions, [], [])[0]
        ended = [session for session in ready if not session.recv(65536)]
        sessions = [session for session in sessions if session not in ended]


def main():
    port, count = int(sys.argv[1]), int(sys.argv[2])
    sessions = [idle(connect(port)) for _ in range(count)]
    print("idle", flush=True)
    read_all(sessions)


if __name__ == "__main__":
    main()
