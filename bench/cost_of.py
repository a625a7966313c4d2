#!/usr/bin/env python3
"""Runs a load that doesn't measure itself, and tells what it cost the server.

    cost_of.py PID COPIES COMMAND..

The one line that is written tells, as lmtp_load does, copies a second over the command's whole run, and microseconds of processor time that the
process PID took for a copy, COPIES being those that the command sends. A command that fails is an error.
"""

import subprocess
import sys
import time

from clients import processor_seconds


def main():
    pid, copies, command = int(sys.argv[1]), int(sys.argv[2]), sys.argv[3:]
    started, spent = time.monotonic(), processor_seconds(pid)
    subprocess.run(command, check=True, stdin=subprocess.DEVNULL, stdout=sys.stderr)
    seconds, spent = time.monotonic() - started, processor_seconds(pid) - spent
    print(f"copies={copies} refused=0 rate={copies / seconds:.0f} cpu={spent / copies * 1e6:.2f} p50=nan p99=nan")


if __name__ == "__main__":
    main()
