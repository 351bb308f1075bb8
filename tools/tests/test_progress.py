"""How far runs are, with times that are given."""
import unittest

from gossip_tools.progress import Progress, in_words


class Ends(unittest.TestCase):
    def test_work_that_is_left(self):
        """300 rounds are to be run, two runs at once, and one of 40 rounds is there already. 60 rounds took 10 seconds
        of a processor, so the other 240 take 40. The run had half of one, in 20 seconds, so two at once have one."""
        progress = Progress({"few/a": 60, "few/b": 60, "few/c": 40, "many/a": 180})
        progress.begin("few", ["a", "b"], ["c"], at_once=2)
        self.assertEqual("no end known yet", in_words(progress.left()))
        progress.done("a", 10.0, 20.0)
        self.assertAlmostEqual(40.0, progress.left())
        # (120 rounds took 20 seconds, so 180 take 30. The shares of a processor were a half, then a whole: in the
        # middle three quarters, with one run left. Two more whole ones count for more, and a run that was held up not)
        progress.done("b", 10.0, 10.0)
        self.assertAlmostEqual(30 / 0.75, progress.left())
        progress.shares.extend([1, 1, 0.01])
        self.assertAlmostEqual(30.0, progress.left())
        # (what is over isn't planned again)
        progress.plan({"few/a": 60, "few/c": 40, "many/b": 120})
        self.assertEqual({"many/b": 120}, progress.work)
        self.assertAlmostEqual(20.0, progress.left())

    def test_other_machines(self):
        """There the time between two runs is known alone: at 60 rounds in 10 seconds, 240 take 40."""
        progress = Progress({"few/a": 60, "few/b": 240})
        progress.begin("few", ["a", "b"], [])
        progress.since -= 10
        progress.done("a")
        self.assertAlmostEqual(40.0, progress.left(), 0)
