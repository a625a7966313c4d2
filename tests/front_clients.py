#!/usr/bin/env python3
"""The mail clients of tests/direct_clients.py, through Dovecot.

    tests/front_clients.py PROGRAM [NAME ...]

Each client does its job as there. But its server stands behind a Dovecot of its own, with a copy of examples/front/ in which, besides ports, paths and the system's
user, the password is theirs, and TLS is left out: the proxy that keeps what both say stands between client and Dovecot. What is asked of the mailbox itself is asked
past both.

The lines, the status and the words are those of tests/direct_clients.py. What a client does and what it is refused here stands in FRONTED, where it isn't what it does
directly: as it was seen once, and read in what both said. So for those a change is told, and no more. What is done at the server is compared as there.

Wanted: Dovecot 2.3, openssl, the superuser. Where Dovecot isn't installed nothing is tried, and that is said.
"""

import contextlib
import copy
import os
import re
import sys
import tempfile
from pathlib import Path

sys.dont_write_bytecode = True

from direct_clients import ALL, KNOWN, NOT_HERE, Place, Wire, attempt
from front import Front, dovecot
from serving_house import end_by_exit

PLAIN_LISTENER = """
ssl = no
disable_plaintext_auth = no
service imap-login {
  inet_listener imap {
    port = %d
  }
  inet_listener imaps {
    port = 0
  }
}
"""


class PlainFront(Front):
    """Dovecot without TLS, whose alice has the password that the clients were given."""

    def configure(self):
        super().configure()
        users = self.room / "users.imap"
        users.write_text(re.sub(r"(?m)^alice:[^:]*:", "alice:{PLAIN}secret:", users.read_text()))
        with (self.room / "dovecot.conf").open("a") as config:
            config.write(PLAIN_LISTENER % self.imaps)


class PlaceBehind(Place):
    """A place whose wire leads to Dovecot."""

    def __init__(self, program, room, folders=()):
        super().__init__(program, room, folders)
        self.wire.close()
        self.front_room, owner = tempfile.TemporaryDirectory(), copy.copy(self.house)
        owner.imap_ports = dict.fromkeys(("alice", "bob"), self.house.imap_ports[0])
        self.front = PlainFront(Path(self.front_room.name), owner, owner)
        self.front.__enter__()
        self.wire = Wire(self.front.imaps)
        self.port = self.wire.port

    def close(self):
        self.front.__exit__()
        super().close()
        with contextlib.suppress(OSError):
            self.front_room.cleanup()


# Some write "(0.001 + 0.000 secs)." behind an answer, as Dovecot does.
NO_TRASH = f'create "Trash" {NOT_HERE} ..'
# What a client does through Dovecot, and is refused, where that isn't what it does directly.
FRONTED = {
    "imap_tools": {"does": f"{ALL} idles"},
    # Its job has one mailbox on both sides: what it copies comes again. So it isn't tried.
    "interimap": {"here": lambda: False},
    # It shows the list and idles. No message was opened: the key that is typed for that came to nothing.
    "aerc": {"does": "lists", "refused": ()},
    # It opens the last message, not the first.
    "alpine": {"does": "lists", "refused": ()},
    "mailutils' movemail": {"does": "reads removes", "refused": ()},
    "mailutils' mail": {"does": "lists reads", "refused": ()},
    "PHP imap's overview": {"does": "overviews", "refused": ()},
    "PHP imap's search": {"does": "searches", "refused": ()},
    "PHP imap's structure": {"does": "reads", "refused": ()},
    "Thunderbird": {"refused": (NO_TRASH,)},
}


def main(binary, *names):
    end_by_exit()
    if dovecot() is None or os.geteuid() != 0:
        print("front_clients.py: Dovecot isn't installed, or this isn't the superuser: nothing is tried")
        return 0
    failed = 0
    for name, known in KNOWN.items():
        if names and name not in names:
            continue
        fronted = known._replace(**FRONTED.get(name, {}))
        if not fronted.here():
            print(f"not here: {name}")
        elif not attempt(os.path.abspath(binary), name, fronted, bool(names), PlaceBehind):
            failed += 1
    return 1 if failed else 0


if __name__ == "__main__":
    sys.exit(main(*sys.argv[1:]))
