"""What is run for a cluster and what is read of it, by hand: what tables.toml can't say."""
import pathlib
import tempfile
import unittest

from gossip_tools import read, rules, scenario, sweep
from given import BREADTH, DEPTH, NEWEST, OLDEST, of

SHARED = "nodes=100 keys=4 writes=1 entry=40 packet=6000 digest=10"


class Numbers(unittest.TestCase):
    def test_runs(self):
        """Each budget and mode under its own seeds, and nothing else: what has the same ones is one choice of
        values."""
        few, all_of_them = rules.FIRST, rules.CHOOSING
        seeds = {(125, DEPTH): all_of_them, (100, DEPTH): all_of_them, (75, DEPTH): few, (125, BREADTH): few,
                 (50, OLDEST): few, (50, NEWEST): few}
        it, runs = of(SHARED), []
        for choices in it.choices("many", seeds):
            runs += sweep.spread(it.scene("many"), choices)
        self.assertEqual(sorted(f"budget-{budget}.seed-{seed}.mode-{mode}" for (budget, mode), those in seeds.items()
                                for seed in those), sorted(runs))
        self.assertEqual(4, len(it.choices("many", seeds)))

    def test_bytes(self):
        """Room for 5 entries is counted in bytes, 523.5 each: 5 are 2617, as docs/study.md has them."""
        it = of("nodes=10 keys=4 writes=1 entry=300 packet=1500")
        self.assertEqual([["2617"]], [choices["budget_bytes"] for choices in it.choices("many", {(5, DEPTH): (1,)})])
        self.assertIn("format = 2\nnodes = 10\nkeys = 4\nrounds = 200\nseed = 1\n", it.scene("many"))


class Calls(unittest.TestCase):
    """Three calls in an interval of half a minute: a round takes ten seconds, and an interval three rounds."""
    words = f"{SHARED} fanout=3 interval=30"

    def test_writes_that_stop(self):
        """After 200 intervals, which are 600 rounds, none for the 7 rounds of a target of 70 s, so for 3 intervals."""
        it = of(f"{self.words} target=70 hours=1")
        text = it.scene("many-stop")
        self.assertEqual((7, 609, 201, True), (it.target, it.rounds("many-stop"), text.count("[[load]]"),
                                               text.endswith(scenario.load(601, 609, 0))))

    def test_restarts(self):
        """From round 151 on ten groups of five are down for an interval each."""
        text = of(f"{self.words} restarts=5 split=40").scene("restart")
        self.assertEqual(50, text.count("\ndown = 3\n"))
        self.assertEqual([5] * 10, [text.count(f"\nround = {at}\n") for at in range(151, 180, 3)])


class Reading(unittest.TestCase):
    def test_those_that_are_wanted(self):
        """Of three runs, the last of which has no report, two are read, and one alone where it alone is wanted."""
        with tempfile.TemporaryDirectory() as room:
            folder, report = pathlib.Path(room), f"{','.join(read.COLUMNS[1])}\n1,4,0,0,40,10,7,1\n"
            for seed in (1, 2, 3):
                (folder / f"seed-{seed}.toml").write_text("format = 1\nrounds = 1\n")
            for seed in (1, 2):
                (folder / f"seed-{seed}.csv").write_text(report)
            found = [read.Runs(folder, wanted) for wanted in (None, {("2",)})]
        self.assertEqual([(2, 1), (1, 0)], [(len(it.rows), len(it.missing)) for it in found])

    def test_over_seeds(self):
        """Runs are alike where all but their seed is, and `never` is more than all numbers."""
        found = {("5", "1"): {"took": 9}, ("5", "2"): {"took": 11}, ("7", "1"): {"took": "never"},
                 ("7", "2"): {"took": 3}, ("9", "1"): {"took": 4}, ("9", "2"): {"took": 4}}
        wanted = {("5",): {"took": "9 to 11"}, ("7",): {"took": "3 to never"}, ("9",): {"took": 4}}
        self.assertEqual((("budget",), wanted), read.over_seeds(("budget", "seed"), found))
