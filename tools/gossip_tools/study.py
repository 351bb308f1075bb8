"""The runs that an answer for a cluster rests on: stages, each of them a folder of runs of one scenario.

  few         few intervals, which choose: each mode with what it may take, the chosen one with nodes * writes, and with
              smaller budgets, until one is worse
  many        many intervals, where that is little work, or few show no level; twice as many, as `longer`; and again, as
              `longest`
  few-bound   some intervals to fill, and an hour: with what the runs of few chose, under other seeds, to bound how old
              a copy gets; so for the others
  split       half of the nodes are set apart for some intervals; under the mode that was chosen
  restart     groups of nodes restart, by ascending number, and keep their own state; or, where they lose it too,
  forgotten   the same, in bytes, and they do
  restart-one, forgotten-one    one such group alone
  many-stop   many intervals and some without writes, where a target is told: how old a stale copy is; so for the others

What is run is only what may change the answer, and what no budget can better: one that cuts nothing, where none of the
others does. What heals is run with the budget that is taken, and in the end with all that fits too, where that is more.
An interval has as many rounds as a node calls others in it, and writes in the first of them.
"""
import math
import statistics
from fractions import Fraction

from gossip_tools import cluster, read, rules, scenario
from gossip_tools.commands import Refused, refuse_if
from gossip_tools.texts import speaker

# What heals begins after so many intervals, of which the last ones tell the level; later with a budget below the knee.
FILLING, LEVEL = 30, 20
RESTARTING = 10
LEAST = 2  # mean entries the format that counts bytes takes at least
# How much more processor time a round takes, about: in bytes, in a precise mode, and with less than nodes * writes.
IN_BYTES, IN_PRECISE, IN_SHORT = 3, 1.5, 1.8
# The intervals that runs leave out which bound what a stage has chosen: the tables fill in them.
FILLED = {stage: max(50, first - 1) for stage, (first, _) in rules.WINDOWS.items()}
# The intervals behind these: an hour of seconds, or less where the work of an answer would be above this. The work of a
# round is about a nanosecond of processor time for each node, with another one, and key.
HOUR, SHORTER = 3600, (2400, 1800, 1200, 900, 600, 400, 300, 200, 100)
BOUND_WORK, MOST_WORK = 2.1e10, 3.6e12
LITTLE_WORK = 2e9  # of many intervals
say = speaker("study")


class Study:
    """A cluster, as advise is told it, and the numbers that follow. What is run may be a tenth of it."""

    def __init__(self, told):
        self.told = told
        self.usual = told["mode"] or scenario.USUAL_MODE
        self.all_nodes, self.keys, self.writes = (int(told[name]) for name in ("nodes", "keys", "writes"))
        self.parts = 10 if cluster.is_too_large(self.all_nodes, self.keys) else 1
        self.nodes, usual = self.all_nodes // self.parts, scenario.USUAL_MODE
        refuse_if(self.parts > 1 and self.usual != usual, say("one_mode", self, usual=usual))
        refuse_if(cluster.is_too_large(self.nodes, self.keys), say("tenth_is_too_large", most=scenario.MOST_TRIPLES))
        scenario.limited("nodes", self.nodes)
        self.fanout, self.seconds = int(told["fanout"]), told["interval"] / told["fanout"]
        # (what intervals are called, and how many nodes were run, where that is a tenth)
        self.unit = "rounds" if self.fanout == 1 else "intervals"
        self.nodes_run = f" ({self.nodes} nodes run)" if self.parts > 1 else ""
        self.knee, self.knee_of_all = (max(LEAST, rules.knee(nodes, self.keys, self.writes, self.fanout))
                                       for nodes in (self.nodes, self.all_nodes))
        product = "nodes * writes" if self.writes <= self.keys else "nodes * keys"
        self.knee_name = product + (f" / {self.fanout}" if self.fanout > 1 else "")
        # (whether the packet is told, or the smallest is looked for; and whether the digest takes some of it)
        self.has_packet = told["packet"] is not None
        self.shares = told["shared"] == "yes" and bool(told["digest"])
        self.rooms = {mode: self.room(mode) / self.parts for mode in scenario.MODES}
        modes = (self.usual,) if told["mode"] or self.parts > 1 else scenario.MODES
        room = max(self.rooms[it] for it in modes) if self.has_packet else self.knee
        self.in_bytes = cluster.counts_bytes(told, room)
        self.fits_of_all = {mode: int(self.room(mode)) for mode in modes}
        self.fits = {mode: min(self.run_of(self.fits_of_all[mode]), scenario.LIMITS["budget"][1]) for mode in modes
                     if self.rooms[mode] >= LEAST}
        if self.usual not in self.fits:
            raise Refused(self.why_none_fits())
        # (the largest budget that some mode may take, and the rounds that the worst staleness has at least, by a sum)
        self.largest, (_, last) = self.whole(max(map(self.most, self.fits))), self.window("many")
        self.least_rounds = max(0, int(self.fanout * rules.least_staleness(
            self.largest, self.all_nodes, self.keys, self.writes, self.fanout)))
        refuse_if(self.least_rounds > last, say("none_is_level", self, last=last))
        self.target = None if told["target"] is None else self.target_of(told["target"])
        # (the most that a scenario takes: in rounds, and in sections where each interval has one)
        self.most_intervals = min(scenario.LIMITS["rounds"][1] // self.fanout,
                                  scenario.MOST_SECTIONS if self.fanout > 1 else math.inf)
        self.asked = None if told["hours"] is None else self.intervals_of(told["hours"])
        # (after a hundred intervals in which each key was written four times no more is left to catch up with)
        self.split = min(int(told["split"]), max(100, 4 * math.ceil(self.keys / self.writes)))
        self.restarts = None if told["restarts"] is None else -(-int(told["restarts"]) // self.parts)
        self.asks_for_healing = bool(told["restarts"]) or told["split"] not in (0, int(cluster.SPLIT.default))
        self.forgets, self.loss = told["forget"] == "yes", int(told["loss"] * 10000)
        self.place_healing()

    def room(self, mode):
        """The entries that a delta of all nodes has room for in a mode; without a packet all that are of use."""
        if not self.has_packet:
            return self.all_nodes * self.keys
        return (self.told["packet"] - self.shared_digest(mode)) / self.told["entry"]

    def target_of(self, seconds):
        """The rounds of a target, which the longest runs have to be able to show."""
        rounds, most = int(seconds / self.seconds), rules.highest_level(self.window("longest"))
        refuse_if(not 1 <= rounds <= most, say("target", target=cluster.plain(seconds), rounds=rounds, most=most,
                                               length=cluster.plain(self.seconds)))
        return rounds

    def why_none_fits(self):
        given, entry = self.told["packet"], self.told["entry"]
        values = {"least": LEAST, "entry": cluster.plain(entry), "enough": self.packet(self.usual)}
        if not self.shares:
            return say("none_fits", self, **values)
        digest, alone = self.digest_bytes(self.usual), int(given / entry)
        too_large = say("too_large", self) if digest > given else ""
        values |= {"digest": digest, "alone": alone, "part": alone / self.knee_of_all, "too_large": too_large}
        return say("none_fits_with_digest", self, **values)

    def why_at_least(self):
        """The sum in words, and how large a packet would have to be."""
        return say("at_least", self, copies=(self.all_nodes - 1) * self.keys, packet=self.packet(self.usual))

    def steady_stages(self):
        """The stages that can show a budget to be level, each longer than the one before."""
        is_little = self.work_of(self.intervals("many")) <= LITTLE_WORK
        return [it for it in rules.WINDOWS if self.least_rounds <= rules.highest_level(self.window(it))
                and not (it == "few" and is_little)]

    def later_stages(self, stage):
        stages = self.steady_stages()
        return stages[stages.index(stage) + 1:]

    def digest_numbers(self, mode):
        return scenario.digest_numbers(self.all_nodes, self.keys, mode)

    def digest_bytes(self, mode):
        return int(self.digest_numbers(mode) * self.told["digest"])

    def shared_digest(self, mode):
        """The bytes that it takes of the packet."""
        return self.digest_bytes(mode) if self.shares else 0

    def packet(self, mode, entries=None):
        """The bytes of a packet with room for these entries of all nodes, else nodes * writes, and a shared digest."""
        return math.ceil((entries or self.knee_of_all) * self.told["entry"]) + self.shared_digest(mode)

    def tells_all(self):
        """The entries to reckon with in place of nodes * writes where a node tells all its keys as it starts, and the
        sum in words; None where no groups forget."""
        if self.told["forget"] == "no" or not self.told["restarts"]:
            return None
        all_keys, writes = self.all_nodes * self.keys, self.all_nodes * self.writes
        writes += int(self.told["restarts"]) * self.keys
        name = "nodes * keys" if writes >= all_keys else "nodes * writes + restarts * keys"
        if self.fanout > 1:
            name = f"{name if writes >= all_keys else f'({name})'} / {self.fanout}"
        return min(writes, all_keys) // self.fanout, name

    def run_of(self, entries):
        """A budget of the whole cluster as one of what is run, on the same side of nodes * writes."""
        run = entries * self.nodes // self.all_nodes
        return max(run, self.knee) if entries >= self.knee_of_all else min(run, self.knee - 1)

    def whole(self, budget):
        """A budget of what is run as one of the whole cluster: exactly what fits there, nodes * keys, or what is looked
        at by nodes * writes, if it is that."""
        if self.parts == 1:
            return budget
        exact = {self.fits.get(self.usual): self.fits_of_all[self.usual],
                 self.nodes * self.keys: self.all_nodes * self.keys}
        exact |= {self.knee * over // under: self.knee_of_all * over // under for over, under in rules.LOOKED_AT}
        return exact.get(budget, budget * self.knee_of_all // self.knee)

    def most(self, mode):
        return rules.most_of(self.fits[mode], self.nodes, self.keys, self.knee)

    def ample(self):
        """A budget that cuts nothing, as a node lacks no more than all keys; or the largest of a scenario."""
        entries, most = self.nodes * self.keys, scenario.LIMITS["budget"][1]
        if self.in_bytes:
            entries, most = (int(it // scenario.MEAN) for it in (
                entries * scenario.LARGEST + scenario.MEAN, scenario.LIMITS["budget_bytes"][1]))
        return min(entries, most)

    def keeps_to_target(self, figure):
        """Whether a worst staleness is within the target under all seeds, for the whole cluster."""
        return (rules.reckoned(figure) if self.parts > 1 else max(figure)) <= self.target

    def place_healing(self):
        """When what is to be healed begins, in intervals, and how many are run after it."""
        slowness = -(-self.knee // self.most(self.usual))
        tail = 30 + min(3 * self.keys * slowness, 400)
        if self.fanout > 1:
            # (each interval is a section of the scenario)
            slowness = min(slowness, 10)
            tail = min(tail, scenario.MOST_SECTIONS - (FILLING + LEVEL) * slowness - max(self.split, RESTARTING))
        self.waits, self.tail = (FILLING + LEVEL) * slowness, tail
        self.before = rules.rounds_of((FILLING * slowness + 1, self.waits), self.fanout)
        self.begins = self.before[1] + 1

    def work_of(self, intervals, seeds=rules.BOUNDING):
        """About the nanoseconds of processor time of runs with so many intervals under these seeds."""
        return len(seeds) * intervals * self.fanout * self.nodes**2 * (self.keys + 1)

    def intervals_of(self, hours):
        """The intervals of so many hours. Refuses hours that a scenario doesn't take, or that take too much work."""
        asked = int(-(-hours * 3600 // (self.fanout * self.seconds)))
        most = min(self.most_intervals - max(FILLED.values()), int(MOST_WORK / self.work_of(1)))
        longest = cluster.plain(Fraction(int(100 * most * self.fanout * self.seconds / 3600), 100))
        refuse_if(not 1 <= asked <= most, say("hours", hours=cluster.plain(hours), asked=asked, most=most,
                                              longest=longest))
        return asked

    def bounded(self, stage):
        """For how many intervals, after those that are left out, runs bound what a stage has chosen."""
        if self.asked is not None:
            return self.asked
        left = self.most_intervals - FILLED[stage]
        lengths = [it for it in (HOUR, *SHORTER) if it <= left]
        return next((it for it in lengths if self.work_of(FILLED[stage] + it) <= BOUND_WORK), lengths[-1])

    def intervals(self, stage):
        base, _, kind = stage.partition("-")
        if base not in rules.WINDOWS:
            return self.waits + self.lasts(stage) + self.tail
        if kind == "bound":
            return FILLED[base] + self.bounded(base)
        return rules.WINDOWS[base][1] - (-self.target // self.fanout if kind == "stop" else 0)

    def lasts(self, stage):
        return self.split if stage == "split" else 1 if stage.endswith("-one") else self.restarting()[1]

    def shorter(self, stage):
        return say("shorter_split", self) if stage == "split" and self.split < self.told["split"] else ""

    def seeds(self, stage):
        """The seeds of a stage, by whether it chooses or bounds; more for what heals where the work allows it."""
        if stage in rules.WINDOWS or stage.endswith("-stop"):
            return rules.CHOOSING if stage in rules.WINDOWS else rules.FIRST
        work = self.work_of(sum(map(self.intervals, self.healing_stages())), rules.MORE_BOUNDING)
        return rules.BOUNDING if stage.endswith("-bound") or work > BOUND_WORK else rules.MORE_BOUNDING

    def rounds(self, stage):
        return self.intervals(stage) * self.fanout

    def work(self, stage, budget, mode):
        """About how much processor time a run takes: so many rounds as of a scuttle mode with nodes * writes."""
        more = (IN_BYTES if self.counts_bytes(stage) else 1) * (IN_PRECISE if mode.startswith("precise") else 1)
        return self.rounds(stage) * more * (IN_SHORT if budget < self.knee else 1)

    def window(self, stage):
        base, _, kind = stage.partition("-")
        window = (FILLED[base] + 1, self.intervals(stage)) if kind == "bound" else rules.WINDOWS[base]
        return rules.rounds_of(window, self.fanout)

    def restarting(self):
        """How many nodes restart at once, and in how many intervals such a group does: together no more than half of
        them, as what nobody lacks any more is healed too soon."""
        each = min(self.restarts or 1, self.nodes // 2, scenario.MOST_SECTIONS)
        most = RESTARTING if self.restarts else 1
        return each, min(most, self.nodes // 2 // each, scenario.MOST_SECTIONS // each)

    def group(self):
        """How many nodes restart at once, as told of the whole cluster."""
        return min(int(self.told["restarts"] or 1), self.restarting()[0] * self.parts)

    def ends(self, stage):
        return self.begins + self.lasts(stage) * self.fanout - 1

    def leaves(self):
        """What a restart leaves and is looked at, in its order; nothing where no restart is looked at."""
        if self.restarts == 0:
            return ()
        return ("restart", "forgotten") if self.forgets else ("restart",)

    def heals(self):
        return ("split", *self.leaves()) if self.split else self.leaves()

    def healing_stages(self):
        """The stages that tell what heals, each with what it tells: where nodes forget, their runs tell both. One group
        alone is run beside several, which may heal sooner than that."""
        restarts = {self.leaves()[-1]: self.leaves()} if self.leaves() else {}
        if restarts and self.restarting()[1] > 1:
            restarts |= {f"{stage}-one": tells for stage, tells in restarts.items()}
        return {"split": ("split",), **restarts} if self.split else restarts

    def healing_groups(self):
        """The same, by what they tell."""
        return list(read.grouped((tells, stage) for stage, tells in self.healing_stages().items()).items())

    def wanted(self, mode):
        """The budgets and modes that decide: each mode with what it may take, and this one with nodes * writes."""
        return {(self.most(it), it) for it in self.fits} | {(self.knee, mode)}

    def between(self, mode):
        return {(it, mode) for it in rules.smaller_budgets(self.most(mode), self.knee) if it > self.knee}

    def next_smaller(self, budget, mode):
        """The next budget below one that is worth a look, with this mode; none where there isn't one."""
        return {(it, mode) for it in rules.smaller_budgets(budget, self.knee)[:1] if it >= LEAST}

    def counts_bytes(self, stage):
        return self.in_bytes or stage.startswith("forgotten")

    def scene(self, stage):
        """The scenario of a stage. Its budget, mode and seed are other ones in each run."""
        (base, _, kind), rounds = stage.partition("-"), self.rounds(stage)
        fields = scenario.top(self.nodes, self.keys, rounds, self.writes, self.loss, self.knee + 1,
                              self.counts_bytes(stage))
        last = self.rounds(base) if kind == "stop" else rounds
        text = scenario.written(fields) + cluster.without_writes(last, self.fanout)
        if kind == "stop":
            return text + scenario.load(last + 1, rounds, 0)
        if base in rules.WINDOWS:
            return text
        healed = self.begins, self.ends(stage)
        if stage == "split":
            return text + scenario.partition(0, self.nodes // 2 - 1, *healed)
        return text + scenario.restarts(self.nodes, self.restarting()[0], *healed, self.fanout, forget=self.forgets,
                                        every=self.fanout)

    def choices(self, stage, seeds):
        """The choices of values that make the runs of these budgets and modes, each under its seeds, and no others."""
        modes = read.grouped(((budget, those), mode) for (budget, mode), those in sorted(seeds.items()))
        alike = read.grouped(((those, tuple(sorted(in_modes, key=scenario.MODES.index))), budget)
                        for (budget, those), in_modes in modes.items())
        field = "budget_bytes" if self.counts_bytes(stage) else "budget"
        return [{field: [self.value(stage, it) for it in budgets], "seed": [str(it) for it in those],
                 "mode": list(in_modes)} for (those, in_modes), budgets in alike.items()]

    def value(self, stage, budget):
        return str(scenario.budget_field(budget, self.counts_bytes(stage))[1])


class Found:
    """The runs of a stage that are there: the rows of each seed, by budget in entries and mode. The figures of a run
    have what it had in a window, for each seed."""

    def __init__(self, study, stage, folder, seeds):
        self.before = study.before
        names = {(budget, mode): [(study.value(stage, budget), str(seed), mode) for seed in those]
                 for (budget, mode), those in sorted(seeds.items())}
        # (others in the folder were read before)
        runs = read.Runs(folder, {name for those in names.values() for name in those})
        self.rows = {pair: [runs.rows[name] for name in those] for pair, those in names.items()}

    def windows(self, budget, mode, window):
        return [read.between(rows, *window) for rows in self.rows[(budget, mode)]]

    def worst(self, *run):
        return [max(row["greatest"] for row in rows) for rows in self.windows(*run)]

    def cut(self, *run):
        return list(map(read.percent_cut, self.windows(*run)))

    def stale(self, *run):
        return [statistics.fmean(row["stale"] for row in rows) for rows in self.windows(*run)]

    def uncut(self, window):
        """The worst staleness in a window of a run that cut nothing up to its end; empty where some seed has none."""
        uncut = [[rows for rows in of_seed if not any(row["cut"] for row in read.between(rows, 1, window[1]))]
                 for of_seed in zip(*self.rows.values())]
        windows = [read.between(some[0], *window) for some in uncut] if all(uncut) else []
        return [max(row["greatest"] for row in rows) for rows in windows]

    def half_of_stale_after(self, budget, mode, last, fanout):
        """The intervals after the `last` round with writes until half of the copies that are stale then are so no more,
        which by docs/study.md lack only writes of so many intervals; None where they aren't in these rounds."""
        ends = [rows[last - 1::fanout] for rows in self.rows[(budget, mode)]]
        return [next((at for at, it in enumerate(rows) if 2 * it["stale"] <= rows[0]["stale"]), None) for rows in ends]

    def suffices(self, budget, mode, window):
        return rules.suffices(*(self.worst(budget, mode, half) for half in rules.halves(window)), window)

    def healed_after(self, stage, budget, mode, ends):
        """The rounds after `ends` until what heals in a stage has; None where it never has: until `greatest` was back
        at its level, after a split once it shows that, or until nothing was left over."""
        found = []
        for rows, most in zip(self.rows[(budget, mode)], self.worst(budget, mode, self.before)):
            column, level, first = "greatest", rules.healed_level(most), ends + 1
            if stage == "split":
                first = max(first, self.before[1] + 1 + level)
            elif stage == "forgotten":
                column, level = "leftover", 0
            at = read.first_at_most(column, rows, first, level)
            found.append(None if at is None else at - ends)
        return found
