"""From figures to a decision, its words and its page: the cases of decided.toml, and what those can't say."""
import pathlib
import unittest
from types import SimpleNamespace

from gossip_tools import advise, answer, choice, healing, page, target
from gossip_tools.scenario import MODES
from given import ROOMY, Figures, bound, cases_of, decided, of, plain, value_of

# What is given in a case, beside the figures of each mode by its last word; the other names are of what comes of it.
GIVEN = {"cluster", "all", "rising", "stage", "against", "bounds", "bounds_rise", "bounds_of_most", "most_rises",
         "floor", "heals", "gone", "with_reserve", *(it.partition("-")[2] for it in MODES)}
# What is said of a case, of which it has parts.
PARTS = {
    "lines": lambda case: answer.in_words(case.decision, case.healing, case.missing()),
    "first": lambda case: answer.first_words(case.decision),
    "left": lambda case: answer.left_out(case.decision),
    "warns": lambda case: answer.warnings(case.decision),
    "last": lambda case: answer.last_of_first_words(case.decision, pathlib.Path("mine")),
    "cards": lambda case: page.cards(case.decision, case.healing, case.judged()),
    "below": lambda case: page.below_the_cards(case.decision, case.healing),
    "table": lambda case: page.table(case.decision),
}


def healed(taken, gone, pairs):
    """Runs of which it is given how many rounds it took until something had healed, or was gone."""
    return SimpleNamespace(rows=pairs, healed_after=lambda stage, *_: gone if stage == "forgotten" and gone else taken)


class Case:
    """What is decided in a case, and what is said of it."""

    def __init__(self, given):
        it = of(given["cluster"])
        modes = {"all": it.fits} | {mode.partition("-")[2]: [mode] for mode in MODES}
        figures = {(budget, mode): seeds for word in modes for mode in modes[word]
                   for budget, seeds in given.get(word, {}).items()}
        rising = [(budget, mode) for word, budgets in given.get("rising", {}).items() for mode in modes[word]
                  for budget in budgets]
        found = choice.Decision(it, Figures(figures, rising), given.get("stage", "many"), given.get("against", ()))
        found.floor, self.decision = given.get("floor"), found
        taken, most = (found.budget, found.mode), (found.most, found.mode)
        if "bounds" in given:
            bounds = {(budget, found.mode): seeds for budget, seeds in given["bounds"].items()}
            found.bound = bound(found, bounds, taken, "bounds_rise" in given)
        if "bounds_of_most" in given:
            found.bound_of_most = bound(found, {most: given["bounds_of_most"]}, most, "most_rises" in given)
        runs = (taken, most) if "with_reserve" in given else (taken,)
        stages = {stage: healed(seeds, given.get("gone"), runs) for stage, seeds in given.get("heals", {}).items()}
        self.healing = healing.Healing(it, found.mode, stages) if stages else None

    def missing(self, was_enough=False):
        call = advise.call_with_enough(self.decision, pathlib.Path("my advice"))
        return answer.not_run(self.decision, call, was_enough)

    def judged(self):
        return [target.judged(self.decision)] if self.decision.study.target else []

    def value(self, name):
        """What the decision or its bound has, or answers, by this name; else what is said of it."""
        if name.startswith("missing"):
            return self.missing(was_enough=name == "missing_later")
        if name == "judged":
            return self.judged()[0][1]
        bounds = not hasattr(self.decision, name) and hasattr(self.decision.bound, name)
        found = value_of(self.decision.bound if bounds else self.decision, name)
        return list(found) if isinstance(found, dict) else plain(found)

    def told(self, name, wanted):
        if name == "none":
            return [it for it in wanted if not any(it in line for line in PARTS["lines"](self))]
        if name == "nothing":
            return [it for it in wanted if not self.value(it)]
        if name.endswith("_lacks"):
            return [it for it in wanted if it not in PARTS[name.removesuffix("_lacks")](self)]
        return [it for it in wanted if it in PARTS[name](self)] if name in PARTS else self.value(name)


class Decided(unittest.TestCase):
    def test_cases(self):
        for name, given in cases_of("decided.toml"):
            case, wanted = Case(given), {it: given[it] for it in given.keys() - GIVEN}
            with self.subTest(name):
                self.assertEqual(wanted, {it: case.told(it, wanted[it]) for it in wanted})


class Made:
    """Stages of which nothing is run. The runs that bound are level in some of them."""
    chose = {1000: [9, 9], 600: [9, 9]}

    def __init__(self, *level):
        self.level, self.made = level, []

    def is_level(self, decision):
        pair = decision.budget, decision.mode
        decision.bound = bound(decision, {pair: [8, 11]}, pair, decision.stage not in self.level)
        return decision.bound.is_level()

    def decide_in_time(self, stages, pairs, decision):
        self.made.append(stages[0])
        return decided(ROOMY, self.chose, stage=stages[0])

    def bounded(self):
        first = decided(ROOMY, self.chose)
        return advise.bounded_decision(first.study, self, first)


class Bounded(unittest.TestCase):
    def test_later_stages(self):
        """A bound that isn't level has the longer runs choose; after the longest there is none: 1800 rounds behind 400
        show a level of up to 400."""
        for level, later in (("many", []), ("longer", ["longer"]), ("longest", ["longer", "longest"])):
            stages = Made(level)
            found = stages.bounded()
            self.assertEqual((True, 600, later, level), (found.suffices, found.budget, stages.made, found.stage))
            self.assertIn(" of 21 runs of 1800 rounds (30 min) no copy is older than 11 rounds, 11 s: the most of ",
                          answer.in_words(found, None)[2])
        found = Made().bounded()
        why = "none keeps a level of at most 400 rounds in runs of 1800 rounds (30 min)"
        self.assertEqual((False, 1000, f"no budget that fits is enough: {why}"),
                         (found.suffices, found.budget, found.headline()))
        self.assertIn(f"  worst staleness     not known: {why}", answer.in_words(found, None))
