"""The page: its themes and how it is printed."""
import re
import unittest
from types import SimpleNamespace

from gossip_tools import page, plots
from given import DEPTH, decided


def themes():
    """The colours of the light theme and of the dark one, by name."""
    blocks = re.findall(r":root {(.*?)}", page.STYLE, re.S)
    return [dict(re.findall("--([a-z]+): (#[0-9a-f]+)", block)) for block in blocks]


def luminance(colour):
    digits = colour[1:] if len(colour) == 7 else "".join(2 * it for it in colour[1:])
    parts = [int(digits[at:at + 2], 16) / 255 for at in (0, 2, 4)]
    red, green, blue = (it / 12.92 if it <= 0.03928 else ((it + 0.055) / 1.055)**2.4 for it in parts)
    return 0.2126 * red + 0.7152 * green + 0.0722 * blue


def contrast(one, other):
    less, more = sorted(map(luminance, (one, other)))
    return (more + 0.05) / (less + 0.05)


class Themes(unittest.TestCase):
    def test_the_sum(self):
        """Black on white is 21 by the guidelines, and grey of #777 on white 4.48."""
        self.assertEqual(["21.00", "4.48"], [f"{contrast(it, '#fff'):.2f}" for it in ("#000", "#777")])

    def test_texts_are_readable(self):
        """With a contrast of 4.5, by the guidelines for accessible pages, WCAG 2: the text and the small one, on the
        page and where it is marked, and white on the cards."""
        pairs = (("text", "page"), ("soft", "page"), ("text", "code"), ("text", "mark"))
        for theme in themes():
            colours = [(theme[text], theme[behind]) for text, behind in pairs]
            colours += [("#fff", theme[card]) for card in ("first", "none")]
            self.assertEqual([], [it for it in colours if contrast(*it) < 4.5])

    def test_all_colours_are_of_the_theme(self):
        light, dark = themes()
        self.assertEqual(light.keys(), dark.keys())
        rules = re.sub(r":root {.*?}", "", page.STYLE, flags=re.S)
        self.assertEqual({"#fff"}, set(re.findall("#[0-9a-f]+", rules)))
        self.assertEqual(2, rules.count("color: #fff"))

    def test_dark_on_screens_alone(self):
        self.assertEqual(["screen and (prefers-color-scheme: dark)", "print"], re.findall("@media (.*?) {", page.STYLE))
        dark, printed = page.STYLE.partition("@media screen")[2].partition("@media print")[::2]
        self.assertIn("figure img { filter: invert(", dark)
        self.assertNotIn("color", printed)


class Cards(unittest.TestCase):
    def test_rows_are_full(self):
        """However many cards there are, they fill rows of at most five, and those with the longest texts are broad
        where some have to be."""
        decision = decided("nodes=100 keys=4 writes=1 entry=40 packet=4000 mode=scuttle-depth", {100: [7, 8]})
        for more in range(12):
            said = page.cards(decision, None, [(f"name {at}", "few: words" + " more" * at) for at in range(more)])
            columns = int(re.search(r"--columns: (\d+)", said)[1])
            cards = [(classes, len(re.sub("<.*?>", "", text)))
                     for classes, text in re.findall('<div class="([a-z ]*)">(.*?)</div>', said)]
            broad, narrow = ([it for classes, it in cards if ("broad" in classes) == which] for which in (True, False))
            self.assertEqual((4 + more, 0, True), (len(cards), (len(cards) + len(broad)) % columns, columns <= 5))
            self.assertGreaterEqual(min(broad, default=1000), max(narrow))


def bars(**greatest):
    """The bars of each budget, as (place, least, most), and how the picture is drawn, where runs of 60 rounds heal from
    round 30 on, with the greatest age of all rounds under three seeds."""
    study = SimpleNamespace(ends=lambda _: 30, rounds=lambda _: 60, whole=lambda budget: budget)
    rows = {(int(budget[1:]), DEPTH): [[{"round": at, "greatest": it} for at in range(1, 61)] for it in seeds]
            for budget, seeds in greatest.items()}
    stages = {"split": SimpleNamespace(rows=rows)}
    healed = SimpleNamespace(study=study, mode=DEPTH, stages=stages, taken=lambda *_: [3])
    script = plots.healing(healed, "split", "y", lambda row: row["greatest"])
    blocks = [it.splitlines() for it in re.findall(r"\$bars\d << END\n(.*?)\nEND", script, re.S)]
    return [[tuple(map(float, line.split())) for line in it if "NaN" not in line] for it in blocks], script


class Healing(unittest.TestCase):
    def test_bars_stand_beside_each_other(self):
        """Two budgets, each with other figures under each seed: all 26 rounds have a bar of each, and no two meet."""
        (one, other), script = bars(b50=(9, 5, 7), b100=(4, 6, 5))
        self.assertEqual(([(5, 9)] * 26, [(4, 6)] * 26), tuple([it[1:] for it in bars] for bars in (one, other)))
        places = sorted(it[0] for it in one + other)
        self.assertEqual(0.25, min(after - before for before, after in zip(places, places[1:])))
        self.assertNotIn("filledcurves", script)
        # (where all seeds agree there is none)
        (one, other), _ = bars(b50=(9, 9, 9), b100=(4, 4, 5))
        self.assertEqual((0, 26), (len(one), len(other)))


class Printed(unittest.TestCase):
    def test_tables_keep_their_head(self):
        printed = page.STYLE.partition("@media print")[2]
        for rule in ("tr { break-inside: avoid; }", "tr:nth-child(-n+3), tr:last-child { break-before: avoid; }",
                     "thead { display: table-header-group; }", "break-inside: avoid; break-after: avoid; }"):
            self.assertIn(rule, printed)

    def test_no_page_is_half_empty(self):
        """What moves to the next page as a whole is low: no whole table does, and pictures are a quarter of the 27 cm
        of a page, less 2 for a head and a text; three stand beside each other."""
        printed = page.STYLE.partition("@media print")[2]
        self.assertNotRegex(printed, r"[^-]\btable\b[^-{]*{[^}]*break-inside")
        wide, high = map(int, re.search(r"svg size (\d+), (\d+)", plots.HEAD).groups())
        self.assertLess(float(re.search(r"figure img { max-width: ([\d.]+)cm", printed)[1]) * high / wide, 27 / 4 - 1.5)
        self.assertIn("figure:nth-child(3)) { grid-template-columns: repeat(3, 1fr); }", printed)
