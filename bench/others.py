"""Dovecot and Cyrus as servers that are measured: LMTP and IMAP on free ports, for users who are made as they come.

Each server is started anew in a folder of its own on a tmpfs, which has its configuration, its sockets and its mail, and is removed when it ends. The system's
configuration of it is neither read nor changed. Each wants the superuser, as each starts processes of other users.
"""

import grp
import os
import pwd
import re
import shutil
import signal
import subprocess
import tempfile
import time

from clients import processor_seconds
from serving_house import free_ports
from servers import Started, first_to_listen

TMPFS = "/dev/shm"
# Where Cyrus's programs lie.
CYRUS_FOLDERS = ("/usr/lib/cyrus/bin", "/usr/lib/cyrus-imapd")
TICKS = os.sysconf("SC_CLK_TCK")


def fields_of(pid):
    """What `/proc` says of a process behind its name: its state first. Nothing where it has ended."""
    try:
        with open(f"/proc/{pid}/stat", encoding="ascii", errors="replace") as stat:
            return stat.read().rpartition(")")[2].split()
    except (FileNotFoundError, ProcessLookupError):
        return None


def processes_of(session):
    """The processes of this session: the one that began it, and all that came of it."""
    all_of_them = [int(name) for name in os.listdir("/proc") if name.isdigit()]
    return [pid for pid in all_of_them if (fields := fields_of(pid)) and int(fields[3]) == session and fields[0] != "Z"]


def spent(session):
    """The processor seconds of a session's processes, with what those took that have ended."""
    seconds = 0.0
    for pid in processes_of(session):
        try:
            own, fields = processor_seconds(pid), fields_of(pid)
        except OSError:
            continue
        ended = sum(map(int, fields[13:15])) if fields else 0
        seconds += own + ended / TICKS
    return seconds


def memory(session):
    """The bytes of memory that a session's processes have. Of a page that several processes have each has its part."""
    kilobytes = 0
    for pid in processes_of(session):
        try:
            with open(f"/proc/{pid}/smaps_rollup", encoding="ascii") as lines:
                kilobytes += next((int(line.split()[1]) for line in lines if line.startswith("Pss:")), 0)
        except (FileNotFoundError, ProcessLookupError):
            continue
    return kilobytes * 1024


class Crowd(Started):
    """A server of several processes, with a folder of its own."""

    def __init__(self, words, folder, ports):
        self.folder, (self.lmtp_port, self.idle_port) = folder, ports
        with open(os.path.join(folder, "output"), "ab") as output:
            super().__init__(words, output)

    def stop(self):
        """Ends it, with all its processes."""
        status, until = super().stop(), time.monotonic() + 10
        while processes_of(self.pid) and time.monotonic() < until:
            time.sleep(0.02)
        return status

    def kill(self):
        """Ends at once what still runs of it, and removes its folder."""
        while left := processes_of(self.pid):
            for pid in left:
                kill(pid)
            self.process.poll()
        super().kill()
        shutil.rmtree(self.folder, ignore_errors=True)

    def faults(self):
        """The last that it wrote."""
        with open(os.path.join(self.folder, "output"), encoding="utf-8", errors="replace") as lines:
            return lines.read()[-500:]

    def files(self):
        """The bytes of the files that it keeps mail in, as they lie on the disk."""
        found = [os.path.join(folder, name) for folder, _, names in os.walk(os.path.join(self.folder, "mail")) for name in names]
        return sum(os.lstat(path).st_blocks * 512 for path in found)


def kill(pid):
    """Ends a process at once, if it is still there."""
    try:
        os.kill(pid, signal.SIGKILL)
    except ProcessLookupError:
        pass


def write(folder, name, text):
    """Writes a file of a server's folder, and gives its path."""
    path = os.path.join(folder, name)
    with open(path, "w", encoding="ascii") as file:
        file.write(text)
    return path


class Other:
    """Servers that keep mail in files. Where there are none `why` says so."""

    can = frozenset(("mail", "idle"))

    def __init__(self):
        self.version, self.why = self.found()
        if not self.why and os.geteuid() != 0:
            self.why = "wants the superuser"

    def start(self, **_):
        """Starts one."""
        return first_to_listen(self.start_one, self.name)

    def start_one(self):
        """Starts one on ports that were free just now, in a folder whose part for mail and the like is of the user who runs it."""
        folder, first, owner = tempfile.mkdtemp(dir=TMPFS, prefix="post_house_bench_"), free_ports(2), pwd.getpwnam("nobody")
        os.chmod(folder, 0o755)
        for name in self.folders:
            os.makedirs(os.path.join(folder, name))
            os.chown(os.path.join(folder, name), owner.pw_uid, owner.pw_gid)
        words = self.words(folder, first, first + 1, grp.getgrgid(owner.pw_gid).gr_name)
        return Crowd(words, folder, (first, first + 1))


def answer(words):
    """What a program says, which is asked for its version."""
    return subprocess.run(words, stdin=subprocess.DEVNULL, stdout=subprocess.PIPE, stderr=subprocess.STDOUT, text=True, check=False).stdout


DOVECOT = """base_dir = {folder}/run
state_dir = {folder}/run
log_path = {folder}/output
protocols = imap lmtp
listen = 127.0.0.1
ssl = no
disable_plaintext_auth = no
auth_username_format = %n
mail_location = sdbox:~/
mail_fsync = never
passdb {{
  driver = static
  args = nopassword=y
}}
userdb {{
  driver = static
  args = uid=nobody gid={group} home={folder}/mail/%n allow_all_users=yes
}}
service imap-login {{
  inet_listener imap {{
    port = {imap}
  }}
  inet_listener imaps {{
    port = 0
  }}
}}
service lmtp {{
  inet_listener lmtp {{
    address = 127.0.0.1
    port = {lmtp}
  }}
}}
"""


class Dovecot(Other):
    """Servers of Dovecot 2.3."""

    name, folders = "Dovecot", ("mail",)

    def found(self):
        """Its version, and what is missing."""
        self.path = shutil.which("dovecot", path=os.environ.get("PATH", "") + ":/usr/sbin")
        if not self.path:
            return "", "not installed"
        version = answer([self.path, "--version"]).split()[0]
        return version, "" if version.startswith("2.3.") else f"version {version} reads another configuration"

    def words(self, folder, lmtp, imap, group):
        """Writes the configuration, and gives the words that start it."""
        path = write(folder, "dovecot.conf", DOVECOT.format(folder=folder, lmtp=lmtp, imap=imap, group=group))
        return [self.path, "-F", "-c", path]


IMAPD = """configdirectory: {folder}/state
defaultpartition: default
partition-default: {folder}/mail
cyrus_user: nobody
cyrus_group: {group}
allowplaintext: yes
autocreate_post: 1
autocreate_quota: 0
duplicatesuppression: 0
sasl_mech_list: PLAIN
master_bind_errors_fatal: 1
"""
CYRUS = """START {{
  recover cmd="{ctl_cyrusdb} -C {conf} -r"
}}
SERVICES {{
  imap cmd="{imapd} -C {conf} -N" listen="127.0.0.1:{imap}" prefork=0
  lmtp cmd="{lmtpd} -C {conf} -a" listen="127.0.0.1:{lmtp}" prefork=0
}}
DAEMON {{
  idled cmd="{idled} -C {conf}"
}}
"""


class Cyrus(Other):
    """Servers of Cyrus IMAP 3. Programs are looked for in this folder first."""

    name, folders = "Cyrus", ("mail", "state", "state/socket", "state/proc", "state/lock")

    def __init__(self, folder=None):
        self.where = [os.path.abspath(folder), *CYRUS_FOLDERS] if folder else CYRUS_FOLDERS
        super().__init__()

    def found(self):
        """Its version, and what is missing."""
        programs = ("master", "ctl_cyrusdb", "lmtpd", "imapd", "idled")
        self.paths = {name: shutil.which(name, path=os.pathsep.join(self.where)) for name in programs}
        missing = [name for name, path in self.paths.items() if not path]
        if len(missing) == len(programs):
            return "", "not installed"
        if missing:
            return "", f"{' and '.join(missing)} not installed"
        version = re.search(r"\d+(\.\d+)+", answer([self.paths["master"], "-V"]))
        return version.group() if version else "", ""

    def words(self, folder, lmtp, imap, group):
        """Writes the configuration, and gives the words that start it."""
        conf = write(folder, "imapd.conf", IMAPD.format(folder=folder, group=group))
        path = write(folder, "cyrus.conf", CYRUS.format(conf=conf, lmtp=lmtp, imap=imap, **self.paths))
        return [self.paths["master"], "-C", conf, "-M", path, "-p", os.path.join(folder, "state", "pid")]
