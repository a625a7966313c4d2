"""What the parts of the checks of hostile use have in common: counts of cases, what has to stand, and how a server ends."""

import collections
import contextlib
import time

from serving_house import DoesNotServe
from talks import Over, Silent, TooLate, Wrong, name_of, no_longer_than, session, standing

# So many seconds a server has to end in.
PATIENCE = 6.0
ROOM = ("--messages", "32768", "--ring", "65536", "--uidvalidity", "7")
# A quick run tries one case of so many.
STRIDE = 7


class Tally:
    """How many cases passed and failed."""

    def __init__(self):
        self.passed = self.failed = 0

    @contextlib.contextmanager
    def case(self, name, seconds=60):
        """Counts what is done within as a case: it fails where it ends by an exception, or takes so many seconds."""
        try:
            with no_longer_than(seconds, "it"):
                yield
        except (Over, Silent, TooLate, Wrong, DoesNotServe, OSError) as fault:
            self.failed += 1
            print(f"FAILED: {name}: {fault or type(fault).__name__}", flush=True)
        else:
            self.passed += 1


class Copies:
    """The copies that were sent to one mailbox: of each name its data, and how many stand at least and at most."""

    def __init__(self):
        self.data, self.least, self.most = {}, collections.Counter(), collections.Counter()

    def send(self, name, data):
        """A copy is sent; by now none may stand."""
        self.data[name] = data

    def settle(self, name, least, most):
        """So many copies more of this name stand, at least and at most."""
        self.least[name] += least
        self.most[name] += most

    def expect(self, messages):
        """These stand, UID and text of each: each was sent as it stands, and as often as it may, under UIDs that rise."""
        counts = collections.Counter()
        for uid, text in messages:
            name = name_of(text)
            if name not in self.data or text != standing(self.data[name]):
                raise Wrong(f"UID {uid} isn't what was sent: {text[:100]!r}")
            counts[name] += 1
        for name in self.data:
            if not self.least[name] <= counts[name] <= self.most[name]:
                raise Wrong(f"of {name} {counts[name]} copies stand, not {self.least[name]} to {self.most[name]}")
        uids = [uid for uid, _ in messages]
        if uids != sorted(set(uids)):
            raise Wrong("the UIDs don't rise")


def end(house):
    """Stops a server, which ends as it should, and gives the seconds that this took."""
    started = time.monotonic()
    status = house.stop(PATIENCE)
    seconds, faults = time.monotonic() - started, house.faults()
    is_clean = status is not None and house.leaves_nothing()
    house.kill()
    if status != 0 or faults:
        raise Wrong(f"its status is {status} after {seconds:.1f} s, and on standard error stands {faults!r}")
    if not is_clean:
        raise Wrong("a process or a listener is left")
    return seconds


def expect_standing(house, copies, user=0):
    """Looks with a new session whether the right copies stand, and gives how many do."""
    looking = session(house, user)
    looking.select()
    messages = looking.messages()
    copies.expect(messages)
    looking.quit()
    return len(messages)
