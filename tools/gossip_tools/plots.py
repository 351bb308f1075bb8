"""Pictures of a study, by gnuplot. Each has a script with its data, from which it can be drawn again.

Where curves lie on each other each is still seen: the first are drawn wide, and the later ones narrower on top of them.
"""
import itertools
import shutil
import statistics
import subprocess

from gossip_tools import files, read, rules, scenario
from gossip_tools.texts import speaker, text_of

# Colours that the colour-blind tell apart; widths and points also tell them apart in black and white.
COLOURS = dict(zip(scenario.MODES, (("#e69f00", 5), ("#00407a", 7), ("#009e73", 9), ("#cc79a7", 13))))
WIDTHS = (9, 6, 3.5, 1.5)
# (the usual mode comes last, on top of the others)
STYLES = {mode: (COLOURS[mode][0], width, COLOURS[mode][1]) for mode, width in zip(rules.CHEAPEST_FIRST[::-1], WIDTHS)}
BUDGETS = (("#e69f00", 8, 5), ("#56b4e9", 5.5, 9), ("#009e73", 3.5, 13), ("#00407a", 1.5, 7))
IS_THERE = shutil.which("gnuplot") is not None
HEAD = text_of("picture.gnuplot")
say = speaker("page")
LINE = 'nohead linewidth 1.5 linecolor "#555555" dashtype'
LEAST_SHOWN = 20
# A budget has bars at so many rounds at most, the next one's so far beside them, of the way to the next round.
MOST_BARS, BESIDE = 40, 0.25


def draw(folder, name, script):
    """The picture, as SVG, which the folder gets with its script."""
    source, picture = folder / f"{name}.gnuplot", folder / f"{name}.svg"
    with files.named(source):
        source.write_text(script)
    picture.unlink(missing_ok=True)
    done = subprocess.run(["gnuplot", source.name], cwd=folder, capture_output=True, text=True)
    if done.returncode or not picture.exists() or not picture.read_text().rstrip().endswith("</svg>"):
        why = "".join(done.stderr.strip().splitlines()[-1:]) or say("full_disk")
        raise OSError(0, say("no_picture", why=why), str(picture))
    return picture.read_text()


def block(name, rows):
    """Data in a script, under a name. An empty list of rows has one that isn't drawn."""
    lines = "\n".join(" ".join(str(it) for it in row) for row in rows or [("NaN",) * 4])
    return f"${name} << END\n{lines}\nEND\n"


def knee(decision, name, y, figure, capped):
    """A figure against the budget, by mode: the seed in the middle and the band of the seeds. A capped one shows no
    more than six times what the decision has, so that the knee is seen."""
    study, found = decision.study, decision.found
    text, plots, most = HEAD.format(name=name, x="budget, in entries", y=y), [], 0
    modes = [it for it in STYLES if it in decision.figures]
    for at, mode in enumerate(modes):
        (colour, width, point), rows = STYLES[mode], []
        for budget in (it for it in decision.budgets() if (it, mode) in found.rows):
            values = figure(budget, mode)
            # (a little beside each other, so that all bands are seen)
            beside = study.whole(budget) * 1.025**(at - (len(modes) - 1) / 2)
            rows.append((round(beside, 2), statistics.median_high(values), *rules.band(values)))
        most = max([most, *(row[3] for row in rows)])
        text += block(f"mode{at}", rows)
        plots += [f'$mode{at} using 1:2 with lines linewidth {min(width, 2)} linecolor "{colour}" notitle',
                  f'$mode{at} using 1:2:3:4 with yerrorbars linewidth 2 pointtype {point} pointsize 0.7 '
                  f'linecolor "{colour}" title "{mode}"']
    top = (min(most, 6 * max(figure(*decision.run_of(decision.mode)))) if capped else most) or 1
    budgets = [study.whole(it) for it in decision.budgets()]
    tics = [budgets[0]]
    # (so that their labels have room beside each other)
    for it in budgets:
        if it > 1.13 * tics[-1]:
            tics.append(it)
    text += f"set logscale x 2\nset xtics ({', '.join(map(str, tics))}) rotate by -45\n"
    text += f"set yrange [0:{1.08 * top:.4g}]\nset xrange [{0.85 * budgets[0]:.6g}:{1.18 * budgets[-1]:.6g}]\n"
    text += budget_line(decision, budgets[-1])
    if capped and (at := study.target) and study.parts == 1:
        text += (f'set arrow from graph 0, first {at} to graph 1, first {at} {LINE} 3\n'
                 f'set label "target" at graph 1, first {at} right offset 0, 0.5\n')
    return text + "set clip two\n" + plotted(plots)


def plotted(plots):
    return "plot " + ", \\\n  ".join(plots) + "\n"


def budget_line(decision, most):
    """A line at what fits, or, where no packet was told, at what is taken."""
    study = decision.study
    at = study.whole(study.fits[decision.mode])
    at, label = (at, f"fits: {at}") if at <= most else (most, "all fit")
    if not study.has_packet:
        at, label = decision.whole_budget(), f"taken: {decision.whole_budget()}"
    return f'set arrow from {at}, graph 0 to {at}, graph 1 {LINE} 2\nset label "{label}" at {at}, graph 1.03 center\n'


def rounds(decision, name, y, value):
    """A column over the rounds by mode, each with the budget that it would take, under the first seed."""
    study, found = decision.study, decision.found
    text, plots = HEAD.format(name=name, x="round", y=y), []
    for at, (mode, (colour, width, _)) in enumerate(STYLES.items()):
        if mode in decision.figures:
            budget, _ = pair = decision.run_of(mode)
            rows = found.rows[pair][0]
            intervals = [rows[first:first + study.fanout] for first in range(0, len(rows), study.fanout)]
            text += block(f"mode{at}", [(it[-1]["round"], max(value(row) for row in it)) for it in intervals])
            plots.append(f'$mode{at} with lines linewidth {width} linecolor "{colour}" '
                         f'title "{mode}, {study.whole(budget)}"')
    return text + "set xrange [0:*]\nset yrange [0:*]\n" + plotted(plots)


def healing(healed, stage, y, value):
    """A column over the rounds since the end of what heals, by budget: the seeds' middle, and bars if they differ."""
    study, found = healed.study, healed.stages[stage]
    ends, budgets = study.ends(stage), [it for it, _ in found.rows][-len(BUDGETS):]
    taken = [it for budget in budgets for it in healed.taken(stage, budget) if it]
    shown = max(LEAST_SHOWN, min(max(taken, default=0) + 5, study.rounds(stage) - ends))
    text, bars, lines = HEAD.format(name=stage, x="rounds since its end", y=y), [], []
    step = -(-(shown + 5) // MOST_BARS)
    for at, budget in enumerate(budgets):
        colour, width, _ = BUDGETS[at + len(BUDGETS) - len(budgets)]
        seeds = [read.between(rows, ends - 5, ends + shown) for rows in found.rows[(budget, healed.mode)]]
        values = {it[0]["round"] - ends: [value(row) for row in it] for it in zip(*seeds)}
        # (the bars of a budget stand beside those of the others, so that all are seen)
        beside = BESIDE * step * (at - (len(budgets) - 1) / 2)
        text += block(f"budget{at}", [(number, statistics.median_high(it)) for number, it in values.items()])
        text += block(f"bars{at}", [(round(number + beside, 3), *rules.band(it)) for number, it in values.items()
                                    if min(it) < max(it) and number % step == 0])
        bars.append(f'$bars{at} using 1:2:(0):($3-$2) with vectors nohead linewidth 1.5 linecolor "{colour}" notitle')
        lines.append(f'$budget{at} with lines linewidth {width} linecolor "{colour}" '
                     f'title "{study.whole(budget)} entries"')
    return text + f"set xrange [-5:{shown}]\nset yrange [0:*]\n" + plotted(bars + lines)


def all_of(decision, healed):
    of_node = (decision.study.nodes - 1) * decision.study.keys
    copies, greatest = decision.study.nodes * of_node, ("greatest, in rounds", lambda row: row["greatest"])
    pictures = {
        "worst": knee(decision, "worst", "worst staleness, in rounds", decision.worst_with, capped=True),
        "cut": knee(decision, "cut", "share cut, in per cent",
                    lambda budget, mode: decision.found.cut(budget, mode, decision.window), capped=False),
        "greatest": rounds(decision, "greatest", *greatest),
        "stale": rounds(decision, "stale", "stale copies, in per cent",
                        lambda row: round(100 * row["stale"] / copies, 3)),
    }
    leftover = "leftover, in states of a node", lambda row: round(row["leftover"] / of_node, 4)
    return pictures | {stage: healing(healed, stage, *(leftover if stage == "forgotten" else greatest))
                       for stage in decision.study.heals() if healed}


def lie_on_each_other(decision):
    """The least budget from which on the modes have the same figures, of those that were run with all; or None."""
    modes = [it for it in scenario.MODES if it in decision.figures]
    with_all = [it for it in decision.budgets() if all((it, mode) in decision.found.rows for mode in modes)]
    alike = itertools.takewhile(lambda budget: all(
        decision.worst_with(budget, mode) == decision.worst_with(budget, modes[0]) for mode in modes), with_all[::-1])
    return min(alike, default=None) if len(modes) > 1 else None
