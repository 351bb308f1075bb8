"""How far the copies of a live cluster lag behind, and whether the machine was fast enough for it."""
import bisect
from collections import defaultdict

from gossip_tools.texts import speaker

LATE = 0.1  # a timer is late that goes off by more than so much of an interval after its time
MOST_LATE = 1 / 20  # of the timers
MOST_LOST = 1 / 1000  # of the datagrams
say = speaker("live")


class Figures:
    """The rows of the report, from what the processes tell of each interval."""

    def __init__(self, plan):
        self.plan = plan
        # (by owner and key, those of the owner's generation of now)
        self.writes = defaultdict(list)
        self.entries = self.cut = self.timers = self.late = self.sent = self.lost = 0
        self.lag = 0.0

    def add(self, write):
        writes = self.writes[write.owner, write.key]
        if writes and writes[-1].mark >> 32 < write.mark >> 32:
            writes.clear()
        writes.append(write)

    def row(self, round, parts):
        tables, generations = {}, {}
        for it in parts:
            tables |= it.marks
            generations |= it.generations
            for write in it.writes:
                self.add(write)
        entries, cut, self.timers, self.late = (sum(getattr(it, name) for it in parts)
                                                for name in ("entries", "cut", "timers", "late"))
        row = {"round": round, "entries": entries - self.entries, "cut": cut - self.cut, "stale": 0, "greatest": 0,
               "leftover": 0}
        for place, held in enumerate(zip(*(tables[it] for it in range(self.plan.nodes)))):
            owner, _ = at = divmod(place, self.plan.keys)
            if behind := [it for it in held if it < held[owner]]:
                first_missed = bisect.bisect_right(self.writes[at], min(behind), key=lambda it: it.mark)
                row["stale"] += len(behind)
                row["greatest"] = max(row["greatest"], round - self.writes[at][first_missed].born + 1)
            if generations[owner]:
                row["leftover"] += sum(0 < it < generations[owner] << 32 for it in held)
        self.entries, self.cut = entries, cut
        self.lag = max(self.lag, *(it.lag for it in parts))
        return row

    def end(self, parts):
        self.sent, received = map(sum, zip(*parts))
        self.lost = max(self.sent - received, 0)

    def is_worthless(self):
        return self.late > MOST_LATE * self.timers or self.lost > MOST_LOST * self.sent

    def how_fast(self):
        return say("how_fast", self, limit=LATE, so=say("worthless") if self.is_worthless() else "")
