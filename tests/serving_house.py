"""A program that serves, started on free ports of the loopback address, for the checks and measures that are written in Python.

Whoever starts one ends it; what is left at the script's exit is killed, also where the script is told to end. A script that is killed itself
leaves nothing either: the program's input is then at its end.
"""

import atexit
import os
import random
import select
import signal
import socket
import subprocess
import sys
import tempfile
import time

ADDRESS = "127.0.0.1"

# Below the ports that the system gives to clients, where one of those could take a port between the look and the start.
LOWEST, HIGHEST = 10_240, 32_000


def _is_free(port):
    with socket.socket() as listener:
        listener.setsockopt(socket.SOL_SOCKET, socket.SO_REUSEADDR, 1)
        try:
            listener.bind((ADDRESS, port))
        except OSError:
            return False
        return True


def free_ports(count):
    """The first of so many ports that follow one another and were free just now."""
    for _ in range(1000):
        first = random.SystemRandom().randrange(LOWEST, HIGHEST - count)
        if all(_is_free(first + more) for more in range(count)):
            return first
    raise RuntimeError(f"there are no {count} free ports in a row")


def ports_of(mail, first):
    """The words that give a server its ports: that of mail, and that of the first user's sessions. 0 leaves one to the system."""
    return ["--lmtp-port", str(mail), "--imap-port", str(first)]


class DoesNotServe(RuntimeError):
    """A program that was to serve, and doesn't: its status, what it said of its listeners and what it was to say, and what it wrote to standard error."""

    def __init__(self, house):
        self.status, self.said, self.announcement, self.faults = house.process.poll(), house.said, house.announcement(), house.faults()
        super().__init__(f"the program doesn't serve: status {self.status}, {self.faults!r}")


class House:
    """A server with these users, and with these folders of theirs, which listens. `options` are further words of its command line, `environment` is what it has of it
    beside ours. Where the first of its ports is given it is started once, else on ports that are free."""

    def __init__(self, program, users, options=(), environment=(), port=None, folders=()):
        self.users, self._port, self._folders = list(users), port, list(folders)
        for _ in range(5 if port is None else 1):
            self._start(program, options, environment)
            if self._listens():
                return
            # Somebody else has taken a port since it was found free.
            if self.process.wait(10) != 4:
                break
        fault = DoesNotServe(self)
        self.kill()
        raise fault

    def _start(self, program, options, environment):
        self.mail_port = free_ports(1 + len(self.users)) if self._port is None else self._port
        self.imap_ports = [self.mail_port + 1 + number for number in range(len(self.users))]
        words = [program, "serve", *ports_of(self.mail_port, self.imap_ports[0]), *options, *self.users, *self._folders]
        self._faults = tempfile.TemporaryFile()
        self.process = subprocess.Popen(
            words,
            stdin=subprocess.PIPE,
            stdout=subprocess.PIPE,
            stderr=self._faults,
            start_new_session=True,
            env={**os.environ, **dict(environment)},
        )
        self.pid = self.process.pid
        atexit.register(self.kill)

    def announcement(self):
        """What it has to say of its listeners, where it was told a UIDVALIDITY."""
        users = "".join(f"IMAP {ADDRESS}:{port} {user}\n" for port, user in zip(self.imap_ports, self.users))
        return f"LMTP {ADDRESS}:{self.mail_port}\n{users}"

    # Whether it said so of each listener.
    def _listens(self):
        wanted = self.announcement().encode()
        self.said, until = b"", time.monotonic() + 30
        while self.said.count(b"\n") < wanted.count(b"\n") and time.monotonic() < until:
            if select.select([self.process.stdout], [], [], 0.1)[0]:
                piece = os.read(self.process.stdout.fileno(), 65536)
                if not piece:
                    break
                self.said += piece
        return self.said.startswith(wanted)

    def connect_lmtp(self):
        """A connection to the port that mail comes to."""
        return connect(self.mail_port)

    def connect_imap(self, number):
        """A connection to the port of the user of this number."""
        return connect(self.imap_ports[number])

    def resident(self, row="VmRSS"):
        """What it has resident, in KB; by the row `VmHWM` the most that it ever had."""
        with open(f"/proc/{self.pid}/status", encoding="ascii") as lines:
            return next(int(line.split()[1]) for line in lines if line.startswith(f"{row}:"))

    def close_input(self):
        """Ends the program's input, which stops it."""
        self.process.stdin.close()

    def stop(self, within=10):
        """Stops the program, and gives its status; None where it wasn't through in time."""
        self.close_input()
        try:
            return self.process.wait(within)
        except subprocess.TimeoutExpired:
            return None

    def faults(self):
        """What it wrote to standard error."""
        self._faults.seek(0)
        return self._faults.read().decode(errors="replace")

    def leaves_nothing(self):
        """Whether no process of its session is left, and nobody listens on its ports. Ask once it has ended."""
        return is_gone(self.pid) and all(_is_free(port) for port in [self.mail_port, *self.imap_ports])

    def kill(self):
        """Ends it at once, if it still runs."""
        atexit.unregister(self.kill)
        try:
            os.killpg(self.pid, signal.SIGKILL)
        except ProcessLookupError:
            pass
        self.process.wait()
        for end in (self.process.stdin, self.process.stdout, self._faults):
            end.close()


def is_gone(session):
    """Whether no process of this session is left, and so nobody who could listen."""
    try:
        os.killpg(session, 0)
        return False
    except ProcessLookupError:
        return True


def connect(port):
    """A connection to this port, which sends what it is given at once, and whose reads give up after half a minute."""
    peer = socket.create_connection((ADDRESS, port), 30)
    peer.setsockopt(socket.IPPROTO_TCP, socket.TCP_NODELAY, 1)
    return peer


def processor_seconds(pid):
    """The processor time of a process since its start, with that of threads that have ended."""
    return time.clock_gettime(~pid << 3 | 2)


def share(values, part):
    """The value below which this part of the values lies."""
    return sorted(values)[min(len(values) - 1, int(len(values) * part))]


def end_by_exit():
    """Has a signal that ends the script end it by an exit, so that what it started is ended too."""
    for number in (signal.SIGHUP, signal.SIGTERM):
        signal.signal(number, lambda *_: sys.exit(1))
