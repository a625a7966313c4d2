#!/usr/bin/env python3
"""A server whose memory is refused, and whose peers vanish, dawdle, never read, bring too much or fall behind: what fails on one connection ends that connection alone.

    tests/hostile_serving.py PROGRAM [--part NAME] [--quick]

Parts; `--quick` tries every seventh case of each, or fewer.

- `memory`: the server with each allocation refused in turn, and with each thread. It starts, or says why not. A refusal later costs one connection or one reply;
  the next clients are served, each copy that was answered `250` stands once and no other does, and the end is as ever.
- `resets`: connections that are reset behind each byte that was sent, and behind each that was read. Each copy whose `250` was read stands once; none stands
  whose data had not ended. The next client is served, and clients beside it notice nothing.
- `cuts`: what clients say, cut at every position into two pieces, and byte by byte: the answers are those that the whole has, byte for byte.
- `slow`: two hundred connections to the port of mail and as many to a user's, which say nothing, or a byte a second, or never read. Mail goes on where a worker
  is free, memory doesn't grow, and the end of the input ends the server.
- `answers`: clients that ask for a thousand times what stands, in one line, and never read, or a byte a second: they hold their own sessions, and memory for no
  more than a few rows; mail goes on. Whoever reads has all of it.
- `fillers`: relays that bring more than `--memory` lets stand, as fast as they can, beside a client that takes out what they brought. Small mail is taken and read meanwhile, what was
  answered `250` is read once, and the server's memory stays within what `docs/OPERATING.md` ("Memory") says.
- `lapped`: a session that idles and doesn't read while more changes come than its mailbox keeps: it is told them in order, or that it missed too many.
- `patience`, only where it is named, for it takes five minutes: a mail connection that says nothing is let go, and whoever waited is served; a session isn't.

What is read has to be what the protocols ask for, line by line; only `cuts` compares the program with itself too, and there with such lines first. A server
ends within six seconds, with status 0 and nothing on standard error, and leaves no process and no listener.
"""

import argparse
import os
import sys
import threading
import time

from hostile.answers import answer_much
from hostile.checks import Tally
from hostile.cuts import cut_all
from hostile.fillers import fill_up
from hostile.lapped import fall_behind
from hostile.memory import refuse_memory
from hostile.resets import reset_all
from hostile.slow import be_patient, be_slow
from serving_house import end_by_exit

PARTS = {
    "memory": refuse_memory,
    "resets": reset_all,
    "cuts": cut_all,
    "slow": be_slow,
    "answers": answer_much,
    "fillers": fill_up,
    "lapped": fall_behind,
}
BY_NAME = {**PARTS, "patience": be_patient}


# So many seconds it may take in all, and as a quick run.
LIMITS = {False: 3600, True: 600}


def limit_time(seconds):
    """Ends the script where it takes so long, with whatever stands still. Servers end with it, for their input does."""

    def give_up():
        print(f"FAILED: all of it takes more than {seconds} s", flush=True)
        os._exit(1)

    timer = threading.Timer(seconds, give_up)
    timer.daemon = True
    timer.start()


def main():
    reader = argparse.ArgumentParser(description="Serves hostile peers, and where memory is refused.")
    reader.add_argument("program")
    reader.add_argument("--part", choices=BY_NAME)
    reader.add_argument("--quick", action="store_true")
    words = reader.parse_args()
    end_by_exit()
    limit_time(LIMITS[words.quick])
    tally = Tally()
    for name in [words.part] if words.part else PARTS:
        started = time.monotonic()
        BY_NAME[name](tally, words.program, words.quick)
        print(f"{name}: {time.monotonic() - started:.0f} s", flush=True)
    print(f"{tally.passed} passed, {tally.failed} failed")
    sys.exit(0 if tally.failed == 0 else 1)


if __name__ == "__main__":
    main()
