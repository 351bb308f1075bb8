"""The tables of tables.toml: what functions of the tools make of their arguments, by hand."""
import importlib
import pathlib
import re
import unittest

from gossip_tools import rules, study, texts
from given import of, outcome, plain, plan, table_of, value_of


def alike(less, more, seeds):
    """Two figures of so many seeds, of which the one has less under the first ones, then more, then the same."""
    return [1] * less + [3] * more + [2] * (seeds - less - more), [2] * seeds


def runs(columns):
    """Runs of which some columns are given, for each seed, by budget and mode in one word. What heals is looked at
    beside the rounds 1 and 2."""
    found = study.Found.__new__(study.Found)
    found.before, found.rows = (1, 2), {}
    for word, seeds in columns.items():
        budget, _, mode = word.partition(" ")
        found.rows[int(budget), mode] = [
            [{"round": at, **dict(zip(it, row))} for at, row in enumerate(zip(*it.values()), 1)] for it in seeds]
    return found


# What the first argument of a row stands for where a table isn't of a module's function.
KINDS = {"of": of, "plan": lambda fields: plan(**fields), "runs": runs}


def found(name, first, *others):
    module, _, function = name.partition(".")
    if module == "alike":
        return getattr(rules, function)(*alike(*first))
    if module in KINDS:
        return outcome(lambda: value_of(KINDS[module](first), function, *others))
    return outcome(getattr(importlib.import_module(f"gossip_tools.{module}"), function), first, *others)


class Tables(unittest.TestCase):
    def test_rows(self):
        for table in table_of("tables.toml")["tables"]:
            for *given, wanted in table["rows"]:
                with self.subTest(table["of"], given=given):
                    value = plain(found(table["of"], *given))
                    self.assertEqual(wanted, len(value) if "counted" in table else value)

    def test_words_of_the_guide(self):
        guide = " ".join((pathlib.Path(__file__).resolve().parents[2] / "docs/guide.md").read_text().split())
        self.assertIn(rules.HEALED.format(31, 50), guide)
        self.assertIn(rules.FORGETFUL, guide)

    def test_sentences_are_said(self):
        """What modules say by a name is in their part of said.toml, and they name all that is there."""
        table, modules = texts.table_of("said.toml"), {it.stem: it.read_text() for it in texts.FOLDER.glob("*.py")}
        for module, text in modules.items():
            for other, name in re.findall(r'(?:(\w+)\.)?say\("(\w+)"', text):
                self.assertIn(name, table[importlib.import_module(f"gossip_tools.{other or module}").say.args[0]])
        named = set(re.findall(r'"(\w+)"', "".join(modules.values())))
        self.assertEqual(set(), {name for sentences in table.values() for name in sentences} - named)
