"""What the figures of a stage choose, by the rules, and what bounds that; and what is said of both."""
import math

from gossip_tools import rules
from gossip_tools.measures import briefly, in_rounds, lasting, sentences, span
from gossip_tools.texts import speaker

say = speaker("choice")


def by_seeds(one, other):
    less, more, seeds = rules.seed_by_seed(one, other)
    return say("by_seeds", less=less, more=more, seeds=seeds)


class Bound:
    """How old a copy gets in most runs, with a budget and a mode that others have chosen: the greatest of all seeds."""

    def __init__(self, study, stage, found, pair):
        self.study, self.stage, self.found, self.pair = study, stage, found, pair
        self.window = study.window(stage)
        self.worst = found.worst(*pair, self.window)

    def is_level(self):
        return self.found.suffices(*self.pair, self.window)

    def runs(self):
        first, last = self.window
        rounds, _, time = lasting(self.study, [last - first + 1]).partition(", ")
        return say("runs", rounds=rounds, time=time)

    def holds_in(self):
        return f"{rules.IN_MOST} {self.runs()}"

    def rests_on(self):
        return say("rests_on", self, seeds=len(self.worst), had=span(self.worst))

    def added(self):
        if not self.is_level():
            return say("rises", self)
        return say("added", self, holds_in=self.holds_in()[1:], oldest=lasting(self.study, [max(self.worst)]))


class Decision:
    """The mode and the budget that follow from the runs of a stage."""
    why_empty = say("why_empty")
    bound_of_most = None  # what bounds all that fits, where a target asks for that
    floor = None  # what nothing goes below, for each seed: empty where no run shows it, None where none was made
    is_met = True  # whether it is what was looked for: with a target and no packet, a budget that keeps to it

    def __init__(self, study, found, stage, against=(), bound=None):
        self.study, self.found, self.stage, self.window = study, found, stage, study.window(stage)
        # (what speaks against it alone, in words: why modes are no longer run; and what bounds it, once that was run)
        self.against, self.bound = list(against), bound
        self.figures = {mode: self.worst_with(study.most(mode), mode) for mode in study.fits
                        if (study.most(mode), mode) in found.rows}
        # (the mode to begin with, of those that were run, and those than which none is known to be better)
        self.usual = next(it for it in (study.usual, *rules.CHEAPEST_FIRST) if it in self.figures)
        self.contenders = rules.contenders(self.figures, self.window[1])
        # (those with which a budget that fits is enough; whether there are some, and the mode that is better else)
        enough = self.enough = {it: figure for it, figure in self.figures.items() if self.is_enough(study.most(it), it)}
        self.suffices = bool(enough)
        self.ahead = None if enough else rules.ahead(self.figures, self.window[1])
        self.mode = rules.mode_of(enough) if enough else self.ahead or self.usual
        self.most = self.budget = study.most(self.mode)
        # (what that is held against: all that suffices from nodes * writes on, and the other modes)
        self.others = list(enough.values())
        if self.suffices and study.knee < self.most:
            from_knee = {it: self.worst_with(it, self.mode) for it in self.of_mode()
                         if it >= study.knee and self.is_enough(it, self.mode)}
            self.others += from_knee.values()
            self.budget = rules.least_that_is_taken(from_knee, enough.values()) or self.most
        self.read()

    def read(self):
        self.worst = self.worst_with(self.budget, self.mode)
        self.cut = self.found.cut(self.budget, self.mode, self.window)

    def may_be_chosen(self):
        """The budgets and modes that further seeds may choose: the usual mode and those that may still be better; where
        it isn't level, those that are, and those that may be the best."""
        usual, modes = self.usual, [*self.enough, *self.contenders]
        if usual in self.enough:
            modes = [mode for mode, figure in self.figures.items()
                     if mode == usual or rules.may_get_better(figure, self.figures[usual])]
        return {pair for pair in self.found.rows if pair[1] in modes}

    def worst_with(self, budget, mode):
        return self.found.worst(budget, mode, self.window)

    def is_enough(self, budget, mode):
        return (budget, mode) in self.found.rows and self.found.suffices(budget, mode, self.window)

    def budgets(self):
        return sorted({it for it, _ in self.found.rows})

    def of_mode(self):
        return sorted(it for it, mode in self.found.rows if mode == self.mode)

    def run_of(self, mode):
        """The budget that a mode would take, and the mode."""
        return (self.budget if mode == self.mode else self.study.most(mode)), mode

    def smaller(self):
        """The least budget from which on nothing is better, below nodes * writes; None where it is the chosen one."""
        least = None
        for budget in reversed([it for it in self.of_mode() if it < self.budget]):
            worst = self.worst_with(budget, self.mode)
            if not self.is_enough(budget, self.mode) or any(
                    rules.is_better(it, worst) for it in [self.worst, *self.others]):
                break
            least = budget
        return least

    def more_is_worse(self):
        return rules.is_better(self.worst, self.figures[self.mode])

    def knee_suffices(self):
        return self.is_enough(self.study.knee, self.mode)

    def of_knee(self):
        return self.budget / self.study.knee

    def is_too_small(self):
        """Whether nodes * writes entries, which don't fit, are far better, where no target says that this will do."""
        it = self.study
        will_do = it.target is not None and it.keeps_to_target(self.bounded())
        return (self.suffices and self.budget < it.knee and not will_do and self.knee_suffices()
                and rules.is_far_better(self.worst_with(it.knee, self.mode), self.worst))

    def bounded(self):
        """The figure that bounds the worst staleness, or that of the runs that chose where none does yet."""
        return self.bound.worst if self.bound else self.worst

    def most_rounds(self):
        return rules.reckoned(self.bounded()) if self.study.parts > 1 else max(self.bounded())

    def heals(self):
        return self.suffices and self.study.has_packet

    def times(self):
        return self.study.knee_name if self.budget == self.study.knee else say("times", self)

    def whole_budget(self):
        return self.study.whole(self.budget)

    def bytes(self):
        return math.ceil(self.whole_budget() * self.study.told["entry"])

    def packet(self):
        return self.study.packet(self.mode, self.whole_budget())

    def given(self):
        """The bytes of the packet that was told; that of the budget where none was."""
        return int(self.study.told["packet"]) if self.study.has_packet else self.packet()

    def room(self):
        it, entries, why = self.study, self.whole_budget(), [self.times()]
        if self.budget == it.nodes * it.keys:
            why = [say("all_keys_fit"), *(name for name in why if name != "nodes * keys")]
        elif entries == it.fits_of_all[self.mode]:
            why = [say("what_fits"), *why]
        return say("room", self, why="; ".join(why))

    def all_that_fits(self):
        it, entries = self.study, self.study.whole(self.most)
        name = "all_that_fits" if entries == it.fits_of_all[self.mode] else "all_of_use"
        return say(name, self, entries=entries, times=self.most / it.knee)

    def headline(self):
        return say("not_enough" if not self.suffices else "too_few" if self.is_too_small() else "headline", self)

    def takes(self):
        it = self.study
        if not self.is_too_small():
            return say("takes_with_digest" if it.shares else "takes", self)
        at_knee = briefly(it, self.worst_with(it.knee, self.mode))
        return say("too_small", self, worst=lasting(it, self.worst), packet=it.packet(self.mode), at_knee=at_knee)

    def most_that_fits(self):
        """The largest budget where none is enough, and which mode is ahead with that, or why none is."""
        it, last, modes = self.study, self.window[1], " and ".join(", ".join(self.contenders).rsplit(", ", 1))
        has_left = any(rules.has_left_the_diagonal(figure, last) for figure in self.figures.values())
        why = say("none_is_ahead", modes=modes) if has_left else say("on_the_diagonal")
        mode = say("no_mode", why=why)
        if self.ahead or self.against and len(self.contenders) == 1:
            mode = say("is_ahead", self, most=briefly(it, self.figures[self.mode]), last=last)
        return say("most_that_fits", self, mode=mode if len(it.fits) > 1 else "")

    def why_dropped(self):
        kept = self.contenders
        best = min(kept, key=lambda mode: max(kept[mode]))
        lost = [f"{mode} with {in_rounds(figure)}" for mode, figure in self.figures.items() if mode not in kept]
        why = say("dropped", self, best=best, had=in_rounds(self.figures[best]), lost=", ".join(lost))
        return [*self.against, *sentences(lost and why)]

    def no_level(self):
        """That no budget that fits has a level that the longest runs can show, of those that choose or bound."""
        level = rules.highest_level((self.bound or self).window)
        return say("keeps_no_level" if self.bound else "has_no_level", self, level=level)

    def at_most(self):
        """The worst staleness to reckon with for the whole cluster, of which a tenth was run."""
        name = "up_to" if rules.tenth_holds(self.of_knee()) else "more_than"
        return say(name, self, rounds=lasting(self.study, [self.most_rounds()]))

    def staleness(self):
        it = self.study
        if not self.suffices:
            return say("known_by_sum" if it.least_rounds else "not_known", self)
        if self.bound is None:
            return say("so_far", self, had=lasting(it, self.worst))
        if it.parts > 1:
            return say("of_a_tenth", self, oldest=in_rounds([max(self.bound.worst)]))
        return say("bounded", self, oldest=lasting(it, [self.most_rounds()]))

    def above_floor(self):
        """What no mode and no budget goes below; empty where it wasn't looked at."""
        it = self.study
        if self.floor is None:
            return ""
        if not self.floor:
            return say("no_floor", ample=it.ample())
        own = self.bounded()[:len(self.floor)]
        had = "that" if self.floor == own else span(own)
        chosen = say("above_floor", had=had, seeds=len(own)) if self.suffices else ""
        return say("floor", floor=lasting(it, self.floor)) + chosen + it.nodes_run

    def to_knee(self):
        """The bytes with which nodes * writes entries fit, and what they would bring; empty where they do fit."""
        it, brings = self.study, ""
        if self.budget >= it.knee:
            return ""
        if self.knee_suffices():
            brings = say("brings", had=briefly(it, self.worst_with(it.knee, self.mode)))
        elif (it.knee, self.mode) in self.found.rows:
            brings = say("knee_rises_too")
        return say("to_knee", self, packet=it.packet(self.mode), entries=it.whole(it.knee),
                   digest=say("and_digest") if it.shares else "", brings=brings)

    def tells_all(self):
        """What to reckon with where a node tells all its keys as it starts; empty where no groups forget."""
        it = self.study
        if it.tells_all() is None:
            return ""
        entries, name = it.tells_all()
        needed = it.packet(self.mode, entries)
        more = "more_than_yours" if it.has_packet and needed > it.told["packet"] else ""
        more = "has_room" if entries <= self.whole_budget() else more
        return say("all_keys", name=name, entries=entries, packet=needed, more=more and say(more))

    def forgetful(self):
        """What counts where nodes forget and the budget is short; empty where that isn't so."""
        it = self.study
        is_short = it.forgets and it.leaves() and self.budget < it.knee
        return say("forgetful", self, rule=rules.FORGETFUL) if is_short else ""

    def reserve(self):
        """What more than the budget brings; empty where no more fits."""
        if not self.suffices or self.budget == self.most:
            return ""
        figure = self.figures[self.mode]
        how, so = ("worse", say("is_worse")) if self.more_is_worse() else ("no better", say("is_reserve", self))
        return say("with_all", self, had=briefly(self.study, figure), has=span(self.worst), how=how, so=so,
                   seeds=by_seeds(figure, self.worst))

    def why_not_knee(self):
        """Why more than nodes * writes is taken; empty where it isn't."""
        it = self.study
        if not self.heals() or self.budget <= it.knee:
            return ""
        at_knee = say("at_knee", self, entries=it.whole(it.knee))
        if not self.knee_suffices():
            return say("knee_rises", at_knee=at_knee)
        worst, figure = self.worst_with(it.knee, self.mode), self.figures[self.mode]
        said = {"at_knee": at_knee, "had": briefly(it, worst)}
        if rules.is_better(self.worst, worst):
            return say("knee_is_worse", **said, has=span(self.worst), seeds=by_seeds(worst, self.worst))
        if rules.is_better(figure, worst):
            return say("worse_than_all", self, **said, seeds=by_seeds(worst, figure))
        return say("something_is_better", **said)

    def too_close(self):
        """Which figures are too close to call. Those that aren't level say nothing."""
        it, said = self.study, []
        if not self.heals():
            return []
        close = [("", it.most(mode), mode) for mode, figure in self.figures.items()
                 if mode != self.mode and rules.are_close(figure, self.worst)]
        close += [(say("as_few_as"), smaller, self.mode)] if (smaller := self.smaller()) else []
        for few, budget, mode in close:
            worst = self.worst_with(budget, mode)
            more = say("still_not_taken", self) if few and self.budget >= it.knee else ""
            said.append(say("close", mode=mode, few=few, entries=it.whole(budget), had=briefly(it, worst),
                            has=span(self.worst), seeds=by_seeds(worst, self.worst), more=more))
        below = [self.worst_with(budget, self.mode) for budget in self.of_mode() if budget < self.budget]
        than = "" if all(rules.is_better(self.worst, worst) for worst in below) else say("than_another")
        return said or [say("none_is_close" if len(self.figures) > 1 else "no_budget_is_close", than=than)]
