"""A target for the worst staleness: the smallest packet that keeps to it, or whether a decision does.

Budgets are halved in each mode by the first of the seeds that choose. That of the mode with the smallest packet is then
bounded by others, and raised until all of these keep to the target.

Beside the worst staleness stand the share of copies that are stale and how old a typical stale copy is, so that the
target isn't taken for what is usual.
"""
import math

from gossip_tools import answer, choice, cluster, rules, study
from gossip_tools.measures import briefly, in_rounds, lasting, rows, span
from gossip_tools.texts import speaker

# Budgets aren't halved any further where the next smaller one that was run is an entry or less than a hundredth below.
FINE = 100
# By which part a budget is raised that doesn't keep to the target under all seeds, for each so many that don't.
RAISED, OF_SEEDS = 20, 5
say = speaker("target")


def in_time(it):
    return say("in_time", seconds=cluster.plain(it.told["target"]), rounds=in_rounds([it.target]))


def above_target(it, worst):
    return sum(not it.keeps_to_target([rounds]) for rounds in worst)


def met(it, bound):
    return say("met", bound=bound, within=in_time(it))


def judged(decision):
    """Whether what was decided for a packet keeps to the target, as a name and words."""
    it, most = decision.study, decision.bound_of_most
    if not decision.suffices:
        said = say("none_is_enough", within=in_time(it))
    elif it.keeps_to_target(decision.bounded()):
        said = met(it, decision.bound)
    elif most and most.is_level() and it.keeps_to_target(most.worst):
        said = say("with_all", decision, how=met(it, most).removeprefix("met: "))
    else:
        above, seeds = above_target(it, decision.bounded()), len(decision.bounded())
        said = say("not_met", decision, within=in_time(it), above=above, seeds=seeds)
    return "target", said


class Ages:
    """How many copies are stale and how old a typical one is, by runs and by such in which the writes stop."""

    def __init__(self, it, stage, found, stopped):
        self.study, self.found, self.stopped = it, found, stopped
        self.window, self.last = it.window(stage), it.rounds(stage)

    def shares(self, budget, mode):
        """The copies that are stale on average, in per cent of all, for each seed."""
        it = self.study
        copies = it.nodes * (it.nodes - 1) * it.keys
        return [100 * stale / copies for stale in self.found.stale(budget, mode, self.window)]

    def typical(self, budget, mode):
        """After how many rounds half of the stale copies lack nothing older; None where runs are too short for that."""
        it = self.study
        intervals = self.stopped.half_of_stale_after(budget, mode, self.last, it.fanout)
        return None if None in intervals else [at * it.fanout for at in intervals]

    def at_most(self, budget, mode):
        it, rounds = self.study, self.typical(budget, mode)
        return say("more_than", rounds=in_rounds([it.target])) if rounds is None else lasting(it, rounds)

    def told(self, budget, mode):
        why = say("not_yet" if self.typical(budget, mode) is None else "no_older")
        return [("stale copies", say("stale", self, share=span(self.shares(budget, mode)))),
                ("a typical one", f"{self.at_most(budget, mode)}: {why}")]


def aged(stages, stage, found, pairs):
    """The ages of copies, once these budgets and modes were run with writes that stop."""
    stages.plan((f"{stage}-stop", pairs))
    return Ages(stages.study, stage, found, stages.carry_out(f"{stage}-stop", pairs))


class Search:
    """The smallest budget of each mode that keeps to the target, by halving over the budgets."""

    def __init__(self, it, stages):
        self.study, self.stages = it, stages
        self.stage = next(stage for stage in it.steady_stages() if it.target <= rules.highest_level(it.window(stage)))
        top = min(it.nodes * it.keys, *it.fits.values())
        # (of a tenth those budgets are looked at with which it was seen to hold)
        least, self.top = (study.LEAST, top) if it.parts == 1 else (it.knee, min(top, rules.TENTH_HOLDS[1] * it.knee))
        # (those that can keep to it; by mode the least budget that does, and the largest below that, which doesn't)
        self.modes, self.pairs, self.found = list(it.fits), set(), None
        self.least, self.below = dict.fromkeys(it.fits, self.top), dict.fromkeys(it.fits, least - 1)
        # (the mode with the smallest packet, its budget, and by budgets what bounds it)
        self.chosen, self.budget, self.bounded = None, self.top, {}

    def run(self, pairs):
        # (about so many halvings are left)
        left = [math.log2(FINE * (self.least[it] - self.below[it]) / self.least[it]) for it in self.modes]
        self.stages.plan((self.stage, pairs), times=math.ceil(max(left + [0])))
        self.pairs |= pairs
        self.found = self.stages.carry_out(self.stage, self.pairs, rules.FIRST)

    def run_of(self, mode):
        """The runs that tell what the least budget of a mode brings: those of the usual mode where nothing is cut."""
        pair = self.least[mode], mode
        return pair if pair in self.pairs else (self.least[mode], self.study.usual)

    def keeps(self, budget, mode):
        run = budget, mode, self.study.window(self.stage)
        return self.found.suffices(*run) and self.study.keeps_to_target(self.found.worst(*run))

    def next(self, mode):
        """The budget to be run next with a mode; None where the least is known."""
        below, least, knee = self.below[mode], self.least[mode], self.study.knee
        if least - below <= max(1, least // FINE):
            return None
        return knee if below < knee < least else (below + least) // 2

    def carry_out(self):
        """Finds which modes keep to the target, and the least budget of each; that of the mode with the smallest packet
        is bounded. Whether some budget keeps to it. Where nothing is cut all modes do alike."""
        it = self.study
        cuts = self.top < (it.nodes - 1) * it.keys
        self.run({(self.top, mode) for mode in (it.fits if cuts else [it.usual])})
        self.modes = [mode for mode in it.fits if self.keeps(*self.run_of(mode))]
        while steps := {mode: budget for mode in self.modes if (budget := self.next(mode))}:
            self.run({(budget, mode) for mode, budget in steps.items()})
            for mode, budget in steps.items():
                bounds = self.least if self.keeps(budget, mode) else self.below
                bounds[mode] = budget
        cheapest_first = [mode for mode in rules.CHEAPEST_FIRST if mode in self.modes]
        self.chosen = min(cheapest_first, default=it.usual, key=self.packet)
        return self.bound()

    def bound(self):
        """Raises the least budget of the chosen mode until all the seeds that bound keep to the target, and then looks
        between that and the largest below it that doesn't. Whether some budget keeps to it."""
        below, budget, keeps = None, self.least[self.chosen], False
        while budget:
            bound = self.bounded[budget] = self.stages.bound(self.stage, (budget, self.chosen), 1)
            above = above_target(self.study, bound.worst) if bound.is_level() else len(bound.worst)
            if above:
                below = budget
            else:
                self.budget, keeps = budget, True
            if keeps:
                are_close = below is None or self.budget - below <= max(1, self.budget // RAISED)
                budget = None if are_close else (self.budget + below) // 2
            else:
                more = max(1, budget * max(1, above // OF_SEEDS) // RAISED)
                budget = min(self.top, budget + more) if budget < self.top else None
        self.run({(self.budget, self.chosen)})
        return keeps

    def packet(self, mode):
        return self.study.packet(mode, self.study.whole(self.least[mode]))


class Met(choice.Decision):
    """The smallest packet that keeps to the target; or, where none does, what is the best that can be had."""
    why_empty = say("why_empty")

    def __init__(self, search, is_met, ages):
        self.study, self.found, self.stage, self.window = search.study, search.found, search.stage, ages.window
        self.search, self.is_met, self.ages = search, is_met, ages
        self.mode, self.bound, self.ahead = search.chosen, search.bounded[search.budget], None
        self.budget = self.most = search.budget
        self.suffices = is_met or self.bound.is_level()
        self.figures = {mode: self.worst_with(*search.run_of(mode)) for mode in search.modes or [self.mode]}
        self.read()
        it, entries = self.study, self.whole_budget()
        are_few = not it.in_bytes and not it.told["count"] and rules.counts_bytes(entries)
        self.against = [say("counts_bytes", entries=entries)] if are_few else []

    def run_of(self, mode):
        return (self.budget, mode) if mode == self.mode else self.search.run_of(mode)

    def headline(self):
        what, seconds = super().headline() if self.is_met else "no budget", cluster.plain(self.study.told["target"])
        return say("keeps", what=what, seconds=seconds)

    def smaller_one(self):
        """What the next smaller budget has that was run; empty where there is none."""
        it, below = self.study, self.search.below[self.mode]
        if bounded := [at for at in self.search.bounded if at < self.budget]:
            worst = self.search.bounded[max(bounded)].worst
            return say("smaller_bound", entries=it.whole(max(bounded)), above=above_target(it, worst),
                       seeds=len(worst), most=briefly(it, [max(worst)]))
        if (below, self.mode) in self.found.rows:
            level = "" if self.is_enough(below, self.mode) else say("not_level")
            had = briefly(it, self.worst_with(below, self.mode))
            return say("smaller", entries=it.whole(below), had=had, level=level)
        return say("smaller_tenth", self) if it.parts > 1 else ""

    def more(self):
        """Whether the target is met, what the next smaller budget has, and ages, as names and words."""
        it = self.study
        said = met(it, self.bound) if self.is_met else say("largest", within=in_time(it))
        smaller = [("a smaller one", self.smaller_one())] if self.is_met and self.smaller_one() else []
        return [("target", said), *smaller, *self.ages.told(*self.run_of(self.mode))]

    def of_mode_in_words(self, mode):
        budget, pair = self.search.least[mode], self.search.run_of(mode)
        most = "" if self.ages.typical(*pair) is None else "at most "
        return say("of_mode", entries=self.study.whole(budget), packet=self.search.packet(mode), most=most,
                   worst=in_rounds(self.figures[mode]), share=span(self.ages.shares(*pair)),
                   age=self.ages.at_most(*pair))

    def in_words(self, call):
        staleness = ["", *answer.of_staleness(self, self.more())]
        within = in_time(self.study)
        if not self.is_met:
            return [say("best", self, within=within), *staleness, *answer.heads(self)]
        modes = rows(*((mode, self.of_mode_in_words(mode)) for mode in self.figures))
        return [say("each_mode", within=within, seeds=len(rules.FIRST)), *modes, "", answer.say("take", self),
                *staleness, "", say("see_more"), f"  {call}", *answer.heads(self)]
