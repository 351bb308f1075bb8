"""What heals, how long that takes in the chosen mode, and what is said of it."""
import textwrap

from gossip_tools import rules
from gossip_tools.measures import briefly, lasting, rows, sentences, span
from gossip_tools.texts import speaker

# What heals, by its stage, and the words for that.
HEALED = {"split": "a split", "restart": "a restart", "forgotten": "a forgotten state"}
ENDS = {"split": "healed", "restart": "healed", "forgotten": "gone from all copies"}
LAST_ROUNDS = {"split": "the last round of the split", "restart": "the last round with a node down"}
ROLLING = "a rolling restart"
IN_A_ROW = 98
say = speaker("healing")


def latest(times):
    """The longest of several times, for each seed; None where one of them isn't over."""
    return [None if None in it else max(it) for it in zip(*times)]


def fewer(study, asked):
    """That fewer nodes restart at once than were asked for, in words; empty where that isn't so."""
    each = study.restarting()[0]
    why = "half_stays_up" if each == study.nodes // 2 else "most_restarts"
    return "" if each == study.restarts else say(why, asked=asked, each=each)


class Healing:
    """How long what heals takes: of a restart the longer time counts, of several groups or of one alone."""

    def __init__(self, study, mode, stages):
        self.study, self.mode = study, mode
        # (by what heals, its runs, and those of one group alone)
        self.stages, self.alone = {}, {}
        for stage, found in stages.items():
            heals = self.alone if stage.endswith("-one") else self.stages
            heals |= dict.fromkeys(study.healing_stages().get(stage, (stage,)), found)

    def taken(self, stage, budget):
        """The rounds that it took under each seed; None where it wasn't over in the rounds that were run."""
        runs = {stage: self.stages[stage], f"{stage}-one": self.alone.get(stage)}
        return latest(found.healed_after(stage, budget, self.mode, self.study.ends(name))
                      for name, found in runs.items() if found)

    def in_words(self, stage, budget):
        """At most how long it takes in most cases, or that it took longer than was run; the time, and the seeds."""
        taken = self.taken(stage, budget)
        bound, over = rules.bound_of(taken), [it for it in taken if it is not None]
        never = say("never", rounds=self.study.rounds(stage) - self.study.ends(stage), seeds=taken.count(None))
        if bound is None:
            return say("of_seeds", never=never, seeds=len(taken)), ""
        rounds, _, time = lasting(self.study, [bound]).partition(", ")
        values = {"time": time, "in_most": rules.IN_MOST, "span": span(over), "seeds": len(over)}
        return say("at_most", rounds=rounds), say("cases", **values, others=f", {never}" if None in taken else "")

    def what(self, stage):
        it = self.study
        if stage == "split":
            return say("split_for_all" if it.split < it.told["split"] else "split", it)
        each, groups = it.restarting()
        nodes = f"{each} node{'s' if each != 1 else ''}" if it.restarts else "one node"
        return say("of_groups" if groups > 1 else "of_nodes", it, nodes=nodes, groups=groups, one=it.unit[:-1],
                   few=fewer(it, it.restarts) if it.restarts else "", each="each " if each * groups > 1 else "",
                   then=say("without_state") if it.forgets else "")

    def lines(self, heals, budget):
        """The lines of what heals, with what is counted below the first of all, and the wait of a rolling restart."""
        lines = []
        for stage in heals:
            rounds, time = self.in_words(stage, budget)
            took = say("took", ends=ENDS[stage], rounds=rounds, time=time) if time else rounds
            lines += rows((HEALED[stage], f"{self.what(stage)}: {took}{self.study.nodes_run}"))
            if stage == self.study.heals()[0]:
                lines += self.counted_lines()
        if "restart" in heals:
            lines += rows((ROLLING, f"{self.wait(budget)}{self.study.nodes_run}"))
        return lines

    def counted(self):
        after = ", or after ".join(LAST_ROUNDS[it] for it in self.study.heals() if it in LAST_ROUNDS)
        return say("counted", after=after, healed=rules.HEALED.format(*self.study.before))

    def counted_lines(self):
        return rows(*(("", it) for it in textwrap.wrap(self.counted(), IN_A_ROW)))

    def wait(self, budget):
        """How long to wait between the groups of a rolling restart: until all that one leaves is over in most cases."""
        it = self.study
        rounds = rules.bound_of(latest(self.taken(stage, budget) for stage in it.leaves()))
        if rounds is None:
            return say("no_wait")
        gone = say("and_gone") if it.forgets else ""
        who = say("group", it) if it.told["restarts"] and it.group() > 1 else "a node"
        return say("wait", rounds=lasting(it, [rounds]), who=who, in_most=rules.IN_MOST, gone=gone)

    def with_reserve(self, decision):
        """How soon all that fits would heal; empty where that isn't more, or wasn't run."""
        runs, most = (*self.stages.values(), *self.alone.values()), (decision.most, self.mode)
        if decision.budget == decision.most or not all(most in it.rows for it in runs):
            return ""
        said = []
        for stage in self.study.heals():
            taken = self.taken(stage, decision.most)
            over = say("not_over") if None in taken else say("over", ends=ENDS[stage], time=briefly(self.study, taken))
            said.append(say("is_over", what=HEALED[stage], over=over))
        return say("with_reserve", self.study, said="; ".join(said), seeds=len(taken))


def to_mind(it):
    """What was run of a split and of restarts, where that isn't what was asked for, and what no run has."""
    groups = it.restarting()[1]
    run = say("groups" if groups > 1 else "one_group", one=it.unit[:-1], groups=groups)
    return sentences(
        it.split < it.told["split"] and say("shorter_split", it),
        it.restarts and say("size_of_group", it, fewer=fewer(it, it.told["restarts"]), run=run),
        it.leaves() and say("down_for_longer"))
