#!/usr/bin/env python3
"""Says what its input has to a port of the loopback address, and prints what comes back, up to the other side's end. `nc` does the same.

    examples/say.py PORT < LINES
"""

import socket
import sys

with socket.create_connection(("127.0.0.1", int(sys.argv[1]))) as stream:
    stream.sendall(sys.stdin.buffer.read())
    while piece := stream.recv(65536):
        sys.stdout.buffer.write(piece)
