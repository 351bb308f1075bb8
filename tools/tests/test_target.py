"""The smallest packet for a target, by figures that are given: the cases of searched.toml."""
import unittest

import given
from gossip_tools import advise, target
from given import BREADTH, DEPTH, NEWEST, OLDEST, cases_of, of, plain

# What a budget is divided into: so many rounds the worst staleness then has, rounded up.
ROUNDS = {DEPTH: 800, BREADTH: 1200, OLDEST: 900, NEWEST: 1000}
GIVEN = {"words", "nodes", "rounds", "last", "rising", "half"}


class Figures(given.Figures):
    """Worst staleness that falls with the budget, down to 7 rounds: the best that can be had. Under the last seed it
    may be another. It isn't level with the budgets of `rising`."""

    def __init__(self, pairs, made, bounds):
        super().__init__(dict.fromkeys(pairs), made.rising if bounds else ())
        self.rounds, self.last, self.half = made.rounds, made.last if bounds else 0, made.half

    def worst(self, budget, mode, _):
        seeds = [max(7, -(-self.rounds[mode] // budget))] * 20
        return [*seeds[1:], max(7, -(-self.last // budget)) if self.last else seeds[0]]

    def stale(self, *_):
        return [15840, 19800]

    def half_of_stale_after(self, *_):
        return self.half


class Made(advise.Stages):
    """The stages, of which nothing is run. In those that bound the last seed may be another, and it may rise."""

    def __init__(self, it, rounds, last=0, rising=(), half=(2, 3)):
        super().__init__(it, None, None)
        self.rounds, self.last, self.half, self.asked = rounds, last, half, {}
        self.rising = range(it.nodes * it.keys + 1) if rising == "all" else rising

    def carry_out(self, stage, pairs, seeds=None):
        self.asked.setdefault(stage, set()).add(seeds)
        return Figures(pairs, self, stage.endswith("-bound"))


def searched(words, rounds, nodes="nodes=100 keys=4", **more):
    it = of(f"{nodes} writes=1 entry=40 {words}")
    search = target.Search(it, Made(it, rounds, **more))
    search.is_met = search.carry_out()
    return search


def in_words(search):
    pairs = {search.run_of(mode) for mode in search.modes or [search.chosen]}
    met = target.Met(search, search.is_met, target.aged(search.stages, search.stage, search.found, pairs))
    return met, met.in_words("CALL")


def told(search, name, wanted):
    """What a search has found, by that name; of its answer the lines that are wanted."""
    met, lines = in_words(search)
    if name == "lines":
        return [it for it in wanted if it in lines]
    if name == "none":
        return [it for it in wanted if not any(it in line for line in lines)]
    values = {"headline": met.headline(), "bounded": [*search.bounded], "packet": search.packet(search.chosen),
              "asked": search.stages.asked, "run_of": {mode: search.run_of(mode) for mode in search.modes}}
    return plain(values[name] if name in values else getattr(search, name))


class Searched(unittest.TestCase):
    def test_cases(self):
        for name, case in cases_of("searched.toml"):
            rounds = ROUNDS | {next(mode for mode in ROUNDS if mode.endswith(word)): it
                               for word, it in case.pop("rounds", {}).items()}
            search = searched(rounds=rounds, **{it: case[it] for it in case.keys() & GIVEN})
            wanted = {it: case[it] for it in case.keys() - GIVEN}
            with self.subTest(name):
                self.assertEqual(wanted, {it: told(search, it, wanted[it]) for it in wanted})
                # (what it brings is known of the seeds that choose too)
                self.assertIn((search.budget, search.chosen), search.pairs)
