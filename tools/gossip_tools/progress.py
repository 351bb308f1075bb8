"""How far runs are, and about how long the others take."""
import collections
import statistics
import sys
import time

from gossip_tools.texts import speaker

LAST = 8  # runs that ended tell what share of a processor a run has now
LEAST = 0.001  # seconds are told apart
say = speaker("progress")


class Progress:
    """The work of each run that is still to be made, by STAGE/RUN. On a terminal it shows after each run how far they
    are.

    A run takes processor time by its work, whatever else the machine does. So the rest takes the processor time of its
    work, as that of the runs that have ended, divided by the processors that the runs have now: by the share of one
    that the last of them had, in the middle, as a single run may be held up for long.
    """

    def __init__(self, work=()):
        self.work, self.over, self.shown = dict(work), set(), sys.stderr.isatty()
        self.what, self.total, self.count, self.at_once = "", 0, 0, 1
        self.done_work, self.processor, self.shares = 0, 0.0, collections.deque(maxlen=LAST)
        self.since = time.monotonic()

    def plan(self, work):
        self.work = {name: it for name, it in work.items() if name not in self.over}

    def begin(self, what, to_do, there, at_once=1):
        """A stage in which these runs are to be made, so many at once, while others are there."""
        self.what, self.total, self.count, self.at_once = what, len(to_do), 0, at_once
        for name in there:
            self.drop(name)
        self.since = time.monotonic()
        self.show()

    def drop(self, name):
        self.over.add(f"{self.what}/{name}")
        return self.work.pop(f"{self.what}/{name}", 0)

    def left(self):
        """The seconds that the rest may take; None before the first run has ended."""
        if not self.done_work:
            return None
        processors = statistics.median(self.shares) * min(self.at_once, max(len(self.work), 1))
        return self.processor / self.done_work * sum(self.work.values()) / processors

    def done(self, name, processor=None, seconds=None):
        """A run that has ended, with its processor time and how long it took. Where they aren't known, as on other
        machines, both are the time since the run before it."""
        now = time.monotonic()
        if processor is None:
            processor = seconds = now - self.since
        self.since = now
        self.count += 1
        if work := self.drop(name):
            self.done_work += work
            self.processor += processor
            self.shares.append(max(processor, LEAST) / max(seconds, LEAST))
        self.show()

    def show(self):
        if self.shown and self.total:
            print("\r\033[K" + say("runs", self, left=in_words(self.left())), end="", file=sys.stderr, flush=True)

    def end(self):
        if self.shown:
            print("\r\033[K", end="", file=sys.stderr, flush=True)


def in_words(seconds):
    if seconds is None:
        return say("no_end")
    unit, length = ("s", 1) if seconds < 100 else ("min", 60) if seconds < 6000 else ("h", 3600)
    return say("left", time=seconds / length, unit=unit)
