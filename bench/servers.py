"""The servers that are measured: builds of the program, Postfix's smtp-sink, and the floor (floor.c). Each is started anew for each load, on free ports."""

import atexit
import contextlib
import os
import shutil
import socket
import subprocess
import tempfile
import time

from clients import House
from serving_house import ADDRESS, free_ports

HERE = os.path.dirname(os.path.abspath(__file__))
TOOLS = ("lmtp_load", "idle_latency", "imap_times", "floor")
ROOM = ("--messages", "32768", "--ring", "65536", "--uidvalidity", "7", "--workers", "8")


def compiler():
    """The C compiler: what the environment names, or one that is there."""
    for name in (os.environ.get("CC"), "cc", "gcc", "clang"):
        if name and shutil.which(name):
            return name
    raise RuntimeError("there is no C compiler")


@contextlib.contextmanager
def compiled():
    """The tools that are written in C, compiled: their paths by their names. They are removed at the end."""
    with tempfile.TemporaryDirectory() as folder:
        paths = {name: os.path.join(folder, name) for name in TOOLS}
        for name, path in paths.items():
            subprocess.run([compiler(), "-std=c11", "-O2", "-Wall", "-Wextra", "-pthread", "-o", path, os.path.join(HERE, f"{name}.c")], check=True)
        yield paths


class Started:
    """A server of others, as far as it is like one of ours: it has a process and ports. It ends when it is told to."""

    def __init__(self, words, output):
        self.process = subprocess.Popen(words, stdin=subprocess.DEVNULL, stdout=output, stderr=subprocess.STDOUT, start_new_session=True)
        self.pid = self.process.pid
        atexit.register(self.kill)

    def stop(self):
        """Ends it. That this signal ended it is no fault; that it has ended before is one, whatever its status."""
        if self.process.poll() is not None:
            return self.process.returncode or -1
        self.process.terminate()
        self.process.wait(10)
        return 0

    def kill(self):
        """Ends it at once, if it still runs."""
        atexit.unregister(self.kill)
        self.process.kill()
        self.process.wait()

    def faults(self):
        """What it wrote isn't kept."""
        return ""


class Program:
    """Servers of a build of the program, with these further words on their command lines."""

    def __init__(self, path, options=()):
        self.name, self.path, self.options = path, path, tuple(options)
        # Who says how many shards there are asks for no load of one.
        says_shards = any(word.startswith("--shards") for word in self.options)
        self.can = frozenset(("mail", "idle", "bodies", "commands", *(() if says_shards else ("one shard",))))

    def start(self, users=64, one_shard=False, **_):
        """Starts one with the users `u0`, `u1` and so on; where there is one user he has four sessions."""
        words = [*ROOM, *(("--sessions", "4") if users == 1 else ()), *(("--shards", "1") if one_shard else ()), *self.options]
        house = House(self.path, [f"u{number}" for number in range(users)], words)
        house.idle_port = house.imap_ports[0]
        return house


class Sink:
    """Servers of smtp-sink, which take mail and throw it away."""

    name, can = "smtp-sink", frozenset(("mail", "one shard"))

    def __init__(self, path):
        self.path = path

    @classmethod
    def installed(cls):
        """As a list of one, or of none where it isn't installed."""
        path = shutil.which("smtp-sink", path=os.environ.get("PATH", "") + ":/usr/sbin:/usr/local/sbin")
        return [cls(path)] if path else []

    def start(self, **_):
        """Starts one."""
        # It wants to be somebody else where the superuser starts it.
        user = ("-u", "postfix") if os.geteuid() == 0 else ()

        def start_one():
            port = free_ports(1)
            server = Started([self.path, "-L", *user, f"{ADDRESS}:{port}", "128"], subprocess.DEVNULL)
            server.lmtp_port = port
            return server

        return first_to_listen(start_one, self.name)


def first_to_listen(start_one, name):
    """A server that serves. It is started again where it doesn't, since somebody can have taken its port since that was found free."""
    for _ in range(5):
        server = start_one()
        if listens(server):
            return server
        faults = server.faults()
        server.kill()
    raise RuntimeError(f"{name} doesn't serve {faults}")


def listens(server):
    """Whether this server lets somebody in before it ends, within ten seconds."""
    until = time.monotonic() + 10
    while server.process.poll() is None and time.monotonic() < until:
        try:
            socket.create_connection((ADDRESS, server.lmtp_port)).close()
            return True
        except OSError:
            time.sleep(0.02)
    return False


class Floor:
    """Servers of the floor, whose sessions are told of a message in this way: `direct` or `chain`. One that keeps what it reads takes mail alone."""

    def __init__(self, path, way="direct", keeps=False):
        self.name, self.path, self.way, self.keeps = "floor", path, way, keeps
        if keeps:
            self.can = frozenset(("mail", "one shard"))
        else:
            self.can = frozenset(("idle",) if way == "chain" else ("mail", "one shard", "idle", "bodies"))

    def start(self, recipients=1, idles=False, bodies=0, **_):
        """Starts one for messages with so many recipients; with sessions where these are wanted, whose FETCH is answered with so many bytes."""
        idle = ("--idle-port", "0", "--idle", self.way, "--fetch", str(bodies)) if idles else ()
        server = Started([self.path, "--recipients", str(recipients), "--keep", str(int(self.keeps)), *idle], subprocess.PIPE)
        with server.process.stdout as lines:
            ports = [lines.readline().rpartition(b":")[2] for _ in range(2 if idles else 1)]
        if not all(ports):
            raise RuntimeError("the floor doesn't serve")
        server.lmtp_port, server.idle_port = int(ports[0]), int(ports[-1])
        return server


@contextlib.contextmanager
def served(kind, **wanted):
    """A server of this kind while a load lasts. One that fails is an error."""
    server = kind.start(**wanted)
    try:
        yield server
        status = server.stop()
        if status != 0:
            raise RuntimeError(f"{kind.name} ended with status {status}: {server.faults()}")
    finally:
        server.kill()
