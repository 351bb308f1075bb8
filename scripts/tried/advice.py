"""Trials of gossip_advise."""
import csv
import hashlib
import html
import pathlib
import re
import shlex
import shutil
import signal
import tomllib
from collections import Counter

from tried.calls import program_that, refuse, refuses, run, started, stopped, tells, times_of, waits_for
from shared import PROGRAM, Text, holds, text_of
from gossip_tools.measures import span
from gossip_tools.rules import is_better, seed_by_seed


SAID = tomllib.loads(text_of("advice.toml"))
# The seeds that choose, the first of them, and those that bound how old a copy gets and what heals.
CHOOSE, FIRST, BOUND, HEAL = range(1, 21), range(1, 7), range(21, 41), range(21, 83)


def column(folder, budget, name, seeds, mode="scuttle-depth"):
    """A column of each run with this budget, by seed."""
    reports = [(folder / f"{budget}.seed-{seed}.mode-{mode}.csv").read_text() for seed in seeds]
    return [[int(row[name]) for row in csv.DictReader(text.splitlines())] for text in reports]


def worst(folder, budget, first, last, seeds=CHOOSE, mode="scuttle-depth"):
    """The most of `greatest` in these rounds of each run with this budget, by seed."""
    return [max(it[first - 1:last]) for it in column(folder, f"budget-{budget}", "greatest", seeds, mode)]


def budgets_of(folder):
    return sorted({int(it.name.split(".")[0].partition("-")[2]) for it in folder.glob("budget-*.csv")})


def healed(folder, budget):
    """The rounds after what a stage heals from until `greatest` is at most one round above its most of the 20 rounds
    before, or more, that count, and until nothing is left over, by seed. After a split rounds count once its first
    writes would be older than that."""
    scene = tomllib.loads((folder / "scenario").read_text())
    restarts, splits = scene.get("restart", []), scene.get("partition", [])
    begins = min(it.get("round", it.get("from")) for it in restarts + splits)
    ends = max([it["round"] + it["down"] - 1 for it in restarts] + [it["to"] for it in splits])
    after, gone = [], []
    # (the 50 rounds before are of two parts, of 30 to fill and 20 to look at, or of so many times these)
    for rows in column(folder, budget, "greatest", HEAL):
        level = max(rows[(begins - 1) * 3 // 5:begins - 1]) + 1
        first = max(ends + 1, begins + level if splits else 0)
        after.append(next(at for at in range(first, len(rows) + 1) if rows[at - 1] <= level) - ends)
    if "leftover" in next(folder.glob("*.csv")).read_text():
        gone = [next(at for at in range(ends + 1, len(rows) + 1) if not rows[at - 1]) - ends
                for rows in column(folder, budget, "leftover", HEAL)]
    return after, gone


def took(name, what, ends, seeds):
    """A line on what heals, by what each seed took, a round being a second: one in 21 of 63 is above the third."""
    most = sorted(seeds)[-3]
    return (f"\n  {name:<19} {what}: {ends} after at most {most} round{'s' if most > 1 else ''}, {most} s, in 20 of 21 "
            f"cases ({span(seeds)} under 62 seeds)\n")


def advised(room, *words, **how):
    status, out, err = run(room, "gossip_advise", *words, **how)
    holds(f"gossip_advise {' '.join(words)}", (0, False), (status, "Traceback" in err))
    return *out.partition("\n\n")[::2], out


def page_of(folder, *parts):
    """The page, which is whole, as each tag is closed as often as it is opened, and tells these."""
    page = (folder / "report.html").read_text()
    tells(f"the page in {folder.name}", page, *parts)
    opened, closed = (Counter(re.findall(rf"<{slash}(\w+)", page)) for slash in ("", "/"))
    unlike = {it for it in opened | closed if opened[it] != closed[it]}
    holds(f"the page in {folder.name} is whole", set(), unlike - {"meta", "img", "br"})
    return page


def try_advice(room):
    """Eight nodes with a key: of 100 entries that fit 8 are of use, with which nothing is ever cut."""
    cluster = "nodes=8 keys=1 writes=1 entry=40 packet=4000 loss=1 interval=0.5 forget=yes hours=0.05".split()
    advice = room / "advice"
    first, said, _ = advised(room, *cluster)
    for name in ("a split", "a restart", "a forgotten state", "a rolling restart"):
        lines, last = ([it for it in part.splitlines() if it.startswith(f"  {name} ")] for part in (first, said))
        holds(f"{name} is told at once", (1, lines), (len(lines), last))
    holds("the budget, with which nothing is cut", Text(*SAID["eight_nodes"]), said)
    holds("so no other run is made for the floor", 8,
          max(budgets_of(advice / "many") + budgets_of(advice / "many-bound")))
    # (what is counted is told with the first answer alone, and kept with the last)
    kept, counted = (advice / "answer.txt").read_text(), [it for it in first.splitlines() if it.startswith(" " * 22)]
    told = [it for it in kept.splitlines() if it not in counted]
    holds("the answer is kept", (said.rpartition("\n\n")[0].splitlines(), True, 1),
          (told, counted[0].strip().startswith("Healed after N rounds: "), kept.count("\n".join(counted))))
    stages = [f"gossip_sweep -o {it} budget" for it in ("many", "many-bound", "split", "forgotten", "restart")]
    sum_of_program = hashlib.sha256(pathlib.Path(PROGRAM).read_bytes()).hexdigest()
    page = page_of(advice, sum_of_program, *stages[:4], *SAID["page_of_eight_nodes"])
    # (a restart is told of nodes that forget)
    holds("a restart has no scenario of its own", False, stages[4] in page)
    others = re.findall(r'(?:src|href)="(?!data:image/svg\+xml;base64,)(.*?)"', page)
    holds("the page needs no other", (7 if shutil.which("gnuplot") else 0, []), (page.count("<img "), others))
    before, none = times_of(advice, "*/*.csv"), room / "nothing"
    none.mkdir()
    for it in ("python3", "env"):
        (none / it).symlink_to(shutil.which(it))
    holds("it is read again, without gnuplot", said.replace("html.", "html without pictures, as gnuplot isn't there."),
          advised(room, "-o", "advice", PATH=str(none))[1])
    holds("no run was made again", before, times_of(advice, "*/*.csv"))
    holds("a page without pictures", 0, page_of(advice, "gnuplot isn't there").count("<img "))
    refuses(room, "the answer for another loss", "gossip_advise", *cluster[:5], "loss=2", *cluster[6:])
    other = program_that(room, "other", f'exec "{PROGRAM}" run')
    refuses(room, "the answer for another program", "gossip_advise", GOSSIP_BENCH=other)
    refuses(room, "isn't empty and has no answer", "gossip_advise -o .", *cluster)
    refuse(room, "gossip_advise")
    holds("nothing is left of what was refused", False, (room / "refused").exists())
    refuses(room, "isn't UTF-8, or not as this locale reads it", "gossip_advise -o", "é2", *cluster, LC_ALL="C",
            PYTHONUTF8="0")


def try_reserve(room):
    """Room for 60 entries, where 24 nodes write one of 6 keys: 24 are taken, if no budget from there on is better, nor
    another mode, seed by seed. Choice, bound and floor are made here once more from the reports."""
    words = "nodes=24 keys=6 writes=1 entry=40 packet=2400 count=entries split=0 restarts=0 hours=0.1".split()
    first, said, out = advised(room, "-o", "reserve", *words)
    many, bound = room / "reserve" / "many", room / "reserve" / "many-bound"
    figures = {it: worst(many, it, 101, 200) for it in budgets_of(many) if it >= 24}
    others = [worst(many, 48, 101, 200, FIRST, it) for it in ("scuttle-breadth", "precise-oldest", "precise-newest")]
    taken = min(budget for budget, it in figures.items()
                if not any(is_better(other, it) for other in (*figures.values(), *others)))
    less, more, _ = seed_by_seed(figures[48], figures[taken])
    reserve = SAID["reserve"].format(span(figures[48]), span(figures[taken]), less, more, 40 * taken)
    for name, told in (("first", first), ("last", said)):
        tells(f"the {name} answer", told, reserve,
              f"scuttle-depth with room for {taken} entries in a delta, {40 * taken} bytes ")
    figure = worst(bound, taken, 101, 460, BOUND)
    older = f"n 20 of 21 runs of 360 rounds (360 s) no copy is older than {max(figure)} rounds, {max(figure)} s"
    tells("what bounds it, at first", first, f"\nI{older}.\n")
    tells("what bounds it", said, f"\n  worst staleness     i{older}: the most of `greatest` in rounds 101 to 460 "
          f"under 20 seeds, others than those that chose, which had {span(figure)}\n")
    # (24 * 6 entries never cut)
    holds("the floor is of runs that cut nothing", {0},
          {it for rows in column(bound, "budget-144", "cut", BOUND[:4]) for it in rows})
    best = worst(bound, 144, 101, 460, BOUND[:4])
    tells("the floor", said, f"\n  the floor           no mode and no budget does better than {span(best)} rounds, "
          f"{span(best)} s, with these peers and losses; the chosen one had "
          f"{'that' if best == figure[:4] else span(figure[:4])} under the same 4 seeds\n")
    holds("nothing that heals is run where none is asked for", ({"many", "many-bound"}, False),
          ({it.parent.name for it in (room / "reserve").glob("*/scenario")}, "a split" in out or "a restart" in out))
    # (the name that a packet had before)
    called = [it.replace("packet=", "delta=") for it in words]
    holds("delta= is packet=", (first, said, out), advised(room, "-o", "reserve", *called))
    _, _, out = advised(room, "-o", "one mode", *words, "mode=precise-newest")
    tells("one mode", out, "\nTake precise-newest with room for ")
    holds("no other mode is run", {"precise-newest"},
          {it.stem.partition("mode-")[2] for it in (room / "one mode").glob("*/*.csv")})


def try_target(room):
    """The smallest budget of 24 nodes with 6 keys that keeps the worst staleness within 4 s, or 8 rounds of half a
    second, under all 20 seeds that bound it: counted once more from the reports. A delta of n entries and a digest take
    n * 40 + 24 * 10 bytes. 24 * 23 * 6 are 3312 copies."""
    words = "nodes=24 keys=6 writes=1 entry=40 digest=10 interval=0.5 count=entries loss=1 hours=0.02".split()
    _, _, out = advised(room, "-o", "target", "target=4", *words, "mode=scuttle-depth")
    many, stop, bound = (room / "target" / it for it in ("many", "many-stop", "many-bound"))
    budgets, bounds = ([it for it in budgets_of(folder) if it < 144] for folder in (many, bound))
    fewest = min(it for it in budgets if max(worst(many, it, 101, 200, FIRST)) <= 8)
    below = max(it for it in budgets if it < fewest)
    holds("one entry less is too few", (1, True), (fewest - below, max(worst(many, below, 101, 200, FIRST)) > 8))
    # (from there on budgets are raised until none of the seeds is above 8 rounds)
    *smaller, least = bounds
    figures = {it: worst(bound, it, 101, 244, BOUND) for it in bounds}
    holds("all 20 seeds keep to the target, and of the smaller ones not all", (fewest, True, True),
          (bounds[0], max(figures[least]) <= 8, all(max(figures[it]) > 8 for it in smaller)))
    line = next((it for it in out.splitlines() if it.startswith("Take ")), "")
    take = f"Take scuttle-depth with room for {least} entries in a delta, {least * 40} bytes "
    holds("the smallest packet", Text(take, f"packet={least * 40 + 240}."), line)
    tells("the target and the floor", out, "\n  the floor           no mode and no budget does better than ",
          "  target              met: in 20 of 21 runs of 144 rounds (72 s) the worst staleness is within 4 s, or 8 "
          "rounds\n", f"  a smaller one       {smaller[-1] if smaller else below} entries: the next smaller budget ")
    of_least = f"budget-{least}"
    shares = [100 * sum(it[100:200]) / 100 / 3312 for it in column(many, of_least, "stale", FIRST)]
    half = [next(at for at in range(1, 9) if 2 * it[199 + at] <= it[199])
            for it in column(stop, of_least, "stale", FIRST)]
    stale, typical = (span([round(it) for it in figure]) for figure in (shares, half))
    tells("how many copies are stale, and how old a typical one is", out, f"  stale copies        {stale} %: ",
          f"  a typical one       {typical} round")
    page = page_of(room / "target", f"<h1>24 nodes: scuttle-depth with {least} entries keeps the worst staleness "
                   "within 4 s</h1>")
    holds("the page has it once", 1, page.count("target<b>met</b>"))
    holds("it is read again", out, advised(room, "-o", "target")[2])
    for target, verdict in (("4", "met: in 20 of 21 runs of 144 rounds (72 s) the worst staleness is within 4 s"),
                            ("1", "not met: the worst staleness is above 1 s")):
        _, _, out = advised(room, "-o", f"judged {target}", *words, "mode=scuttle-depth",
                            f"packet={least * 40 + 240}", f"target={target}", "split=0", "restarts=0")
        tells(f"a packet for target={target}", out, f"\nThe target is {verdict}", f"\n  target              {verdict}")
    _, _, out = advised(room, "-o", "never", "target=1", *words)
    holds("a target that no budget meets", Text("No budget keeps the worst staleness within 1 s, or 2 rounds. The best "
                                                "that can be had, with room for 144 entries"), out)
    page_of(room / "never", "<h1>24 nodes: no budget keeps")


def try_calls(room):
    """Three calls in an interval: a third of 12 entries is enough, and an interval has three rounds. 180 s are 300
    intervals, behind the first 100."""
    words = "nodes=12 keys=2 writes=1 entry=40 packet=160 count=entries fanout=3 interval=0.6".split()
    _, _, out = advised(room, "-o", "calls", *words, "hours=0.05", "mode=scuttle-depth")
    figure = worst(room / "calls" / "many", 4, 301, 600)
    bound = worst(room / "calls" / "many-bound", 4, 301, 1200, BOUND)
    holds("three calls", "First answer, from 200 intervals of 3 rounds: scuttle-depth with room for 4 entries in a "
          "delta, 160 bytes (what fits; nodes * writes / 3); packet=160.", out.partition("\n")[0])
    tells("three calls", out, f"\nWorst staleness {span(figure)} rounds, ", "\nIn 20 of 21 runs of 900 rounds (300 "
          f"intervals, 180 s) no copy is older than {max(bound)} rounds, ")


def try_hopeless_advice(room):
    """Two entries for 24 nodes that write one of 20 keys each: some write is missing for more than 400 rounds, by a sum
    23 * 20 / (2 * 2) - 20 at least. So it ends after 800, and names the 24 * 40 bytes and the call for what heals."""
    words = SAID["hopeless"]["words"]
    first, said, _ = advised(room, *words.format(80).split(), "-o", "no hope")
    holds("a sum is told at once", SAID["hopeless"]["first"], first.splitlines()[:2])
    holds("none is enough", True, max(worst(room / "no hope" / "longest", 2, 401, 800)) > 400)
    tells("none is enough", said, *SAID["hopeless"]["last"])
    holds("nothing is run that heals, or bounds", ["longer", "longest", "many"],
          sorted(it.name for it in (room / "no hope").iterdir() if (it / "scenario").exists()))
    call = f"gossip_advise -o 'no hope-enough' {words.format(960)}"
    not_run = "were not run, as no budget that fits is enough. To see them with a budget that is:"
    tells("it says so, and how to see it", said, f"{not_run}\n  {call}\n")
    page = page_of(room / "no hope", not_run, html.escape(call), "<h1>24 nodes: no budget that fits is enough",
                   "none that fits is enough")
    holds("it doesn't tell of groups that were not run", False, "What was run are" in said + page)
    tells("the call has what was not run", advised(room, *shlex.split(call)[1:])[2], "\n  a rolling restart   wait ")


def try_longer_runs(room):
    """Five entries for 24 nodes that write one of 6 keys each: a level above 100, which 200 rounds can't tell from
    none, and of 200 at most, which 400 rounds can. 24 are better, so it says that the packet is too small."""
    first, said, _ = advised(room, "-o", "longer", *SAID["longer"]["words"].split())
    short, long = worst(room / "longer" / "many", 5, 101, 200), worst(room / "longer" / "longer", 5, 201, 400)
    at_knee, bound = (worst(room / "longer" / "longer", 24, 201, 400),
                      worst(room / "longer" / "longer-bound", 5, 201, 560, BOUND))
    holds("200 rounds can't show the level, 400 can", (True, True, True),
          (max(short) > 100, max(long + bound) <= 200, is_better(at_knee, long)))
    tells("the first answer says how far is looked", first, SAID["longer"]["first"])
    figures = {"long": span(long), "knee": span(at_knee), "bound": max(bound)}
    tells("what the longer runs say", said, *(it.format(**figures) for it in SAID["longer"]["last"]))
    page_of(room / "longer", *SAID["longer"]["page"])


def try_advice_below_the_knee(room):
    """Room for 10 entries, where 20 nodes write one key each. What heals is counted once more from the reports: of a
    restart the longer time under each seed, of five groups of two or of one alone. 10 mean entries are 5235 bytes."""
    cluster = "nodes=20 keys=1 writes=1 entry=40 packet=400 count=entries restarts=2 forget=yes hours=0.1"
    first, said, _ = advised(room, "-o", "below", *cluster.split())
    split, _ = healed(room / "below" / "split", "budget-10")
    groups, one = (healed(room / "below" / it, "budget_bytes-5235") for it in ("forgotten", "forgotten-one"))
    restart, gone = ([max(it) for it in zip(groups[at], one[at])] for at in (0, 1))
    what = ("of 2 nodes in each of 5 rounds, each down for one round, and then without its own state, and of such a "
            "group alone")
    waits = sorted(max(it) for it in zip(restart, gone))[-3]
    for answer in (first, said):
        tells("both answers tell what the reports have", f"{answer}\n",
              took("a split", "of half of the nodes for 30 rounds", "healed", split),
              took("a restart", what, "healed", restart),
              took("a forgotten state", what, "gone from all copies", gone),
              f"\n  a rolling restart   wait {waits} rounds, {waits} s, after a group of 2 nodes is up again: in 20 of "
              "21 cases a restart was healed and its forgotten state was gone by then\n")


def try_stopping_advice(room):
    cluster = "nodes=6 keys=1 writes=1 entry=40 packet=4000 hours=0.1".split()
    # (the first four runs are as usual, and later ones wait)
    slow = program_that(room, "slow", f'echo >>slow.runs\n'
                        f'for it in 1 2 3 4; do mkdir usual.$it 2>/dev/null && exec "{PROGRAM}" run; done\n'
                        f'[ -e fast ] || sleep 60\nexec "{PROGRAM}" run')
    with started(room, "gossip_advise -o ended", *cluster, GOSSIP_BENCH=slow) as process:
        holds("runs are made", True, waits_for(lambda: len(list(room.glob("ended/many/*.csv"))) == 4))
        refuses(room, f"ended is in use by process {process.pid}", "gossip_advise -o ended", *cluster)
        holds("advice is stopped", (143, "", Text("", "stopped by SIGTERM, which loses the runs under way. 4 of")),
              stopped(process, signal.SIGTERM))
    (room / "fast").touch()
    outcome = run(room, "gossip_advise -o ended", GOSSIP_BENCH=slow)[:2]
    runs, reports = len((room / "slow.runs").read_text().splitlines()), len(list(room.glob("ended/*/*.csv")))
    # (the two that were stopped are run again)
    holds("it goes on where it was", (0, Text("", "Take scuttle-depth"), runs - 2), (*outcome, reports))
    # (those of the first answer are as usual, and those with a smaller budget wait)
    late = program_that(room, "late", 'text=$(cat)\ncase "$text" in *"budget = 4"*) exec sleep 60;; esac\n'
                        f'echo "$text" | exec "{PROGRAM}" run')
    words = ("-o", "first", *cluster, "split=0", "restarts=0")
    with started(room, "gossip_advise", *words, GOSSIP_BENCH=late) as process:
        holds("the first answer is there", True,
              waits_for(lambda: list((room / "first" / "many").glob("budget-4.*")), seconds=60))
        status, out, _ = stopped(process, signal.SIGTERM)
    answer = (room / "first" / "answer.txt").read_text()
    holds("a stop leaves the first answer", (143, Text("First answer, from 200 rounds: "), Text(answer)),
          (status, answer, out))
    page_of(room / "first", "<h1>First answer. 6 nodes: ")
