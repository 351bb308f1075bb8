"""A scenario as a live cluster; the tool gossip_live."""
import itertools
import re
import statistics
import subprocess

from gossip_tools import cluster, live_worker, read, running, scenario, sweep
from gossip_tools.commands import Refused, refuse_if, remark, shown, the_program
from gossip_tools.live_figures import Figures, say
from gossip_tools.live_plan import LARGEST, Plan
from gossip_tools.words import Word, tool

LIVE = tool("gossip_live")
# The columns of the bench that a live cluster lacks, behind that of the round.
LACKING = ("exchanges", "unreached", "lost")
WORTHLESS = 4  # the status


def decimal(word, text):
    if not re.fullmatch(r"[0-9]{1,6}(\.[0-9]{1,6})?", text) or float(text) > word.most:
        raise Refused(say("decimal", word, text=shown(text)))
    refuse_if(float(text) < word.least, say("too_short", word))
    return float(text)


def decimals(word, text):
    bounds = [decimal(word, it) for it in text.split(",")]
    refuse_if(len(bounds) > 2 or bounds != sorted(bounds), say("bounds", word))
    return bounds[0], bounds[-1]


READ = {"whole": Word.whole, "decimal": decimal, "decimals": decimals}


def told(words):
    texts = LIVE.usual | LIVE.given(words, lambda *_: cluster.say("help"))
    return {name: None if texts[name] is None else READ[it.kind](it, texts[name]) for name, it in LIVE.named.items()}


def plan_of(text, asked):
    top = {"partition": [], "restart": [], "load": [], **read.settings(text)}
    top["budget"] = top.pop("budget_bytes", top.get("budget"))
    del top["seed"]
    plan = Plan(**top, **{name: asked[name] for name in ("interval", "latency", "fanout")})
    refuse_if(plan.fanout >= plan.nodes, say("too_few_others", plan, others=plan.nodes - 1))
    refuse_if(plan.largest_message() > LARGEST, say("too_large", plan, largest=LARGEST))
    return plan


def stretched(top, fanout):
    """The text of a scenario in which an interval has a round for each call: what begins, and writes, in the first."""
    loads, most = len(top.get("load", [])) + top["rounds"], scenario.MOST_SECTIONS
    refuse_if(loads > most, say("too_many_loads", loads=loads, most=most))

    def stretch(fields):
        return {name: (it - 1) * fanout + 1 if name in ("from", "round") else it * fanout
                if name in ("to", "down", "rounds") else it for name, it in fields.items()}

    arrays = {name: top.get(name, []) for name in ("partition", "restart", "load")}
    text = scenario.written(stretch({name: it for name, it in top.items() if name not in arrays}))
    text += "".join(scenario.sections(array, map(stretch, elements)) for array, elements in arrays.items())
    return text + cluster.without_writes(top["rounds"] * fanout, fanout)


def intervals(rows, fanout):
    found = []
    for number, (*others, last) in enumerate(zip(*[iter(rows)] * fanout), 1):
        sums = {name: sum(it[name] for it in (*others, last)) for name in ("entries", "cut")}
        found.append({**last, **sums, "round": number, "greatest": last["greatest"] // fanout})
    return found


def scenarios(text, fanout, seeds):
    if fanout > 1:
        text = stretched(read.settings(text), fanout)
    return {say("of_seed", seed=seed): scenario.set_field(text, "seed", seed) for seed in range(1, seeds + 1)}


def reports(runs, program, fanout):
    found = []
    for name, text in runs.items():
        top = read.settings(text)
        answer = subprocess.run([program, "run"], input=text.encode(), capture_output=True)
        refuse_if(answer.returncode, say("bench_failed", label=name, status=answer.returncode,
                                         told=answer.stderr.decode(errors="replace").strip()), 1)
        try:
            read.look_at(answer.stdout, top["format"], top["rounds"])
            rows = read.rows_of(answer.stdout, top["format"])
        except read.NotWhole as lacks:
            raise Refused(say("no_report", label=name, lacks=lacks), 1) from None
        found.append(intervals(rows, fanout))
    return found


def window(columns, rows):
    """What some intervals have: the mean of each column, with a decimal for an age, and the most of `greatest`."""
    means = {name: f"{statistics.fmean(it[name] for it in rows):.{int(name == 'greatest')}f}" for name in columns}
    return {**means, "greatest_most": max(it["greatest"] for it in rows)}


def side_by_side(columns, live, benches):
    """The row of some intervals: of each column what the live cluster has, and the least and most of the bench."""
    first, last = live[0]["round"], live[-1]["round"]
    found = window(columns, live)
    others = [window(columns, read.between(it, first, last)) for it in benches]
    return [first, last, *(it for name in found for it in (found[name], read.span([each[name] for each in others])))]


def printed(columns, rows, benches, length):
    """The report, line by line; beside the bench a line for each window of so many intervals."""
    if not benches:
        yield "round", *columns
        yield from ((row["round"], *(row[name] for name in columns)) for row in rows)
        return
    yield "from", "to", *(name for it in [*columns, "greatest_most"] for name in (it, f"bench_{it}"))
    while live := list(itertools.islice(rows, length)):
        yield side_by_side(columns, live, benches)


def main(words):
    asked = told(words)
    program = the_program()
    running.Signals.listen()
    text = sweep.given_scenario()
    sweep.check({"the scenario": text}, program)
    plan = plan_of(text, asked)
    columns = [it for it in read.COLUMNS[plan.format][1:] if it not in LACKING]
    figures, benches = Figures(plan), []
    if asked["beside"]:
        runs = scenarios(text, plan.fanout, asked["beside"])
        sweep.check(runs, program)
        benches = reports(runs, program, plan.fanout)
    with live_worker.processes(plan) as pipes:
        rows = (figures.row(round, live_worker.heard(pipes)) for round in range(1, plan.rounds + 1))
        for values in printed(columns, rows, benches, asked["window"]):
            print(*values, sep=",", flush=True)
        figures.end(live_worker.heard(pipes))
    remark(figures.how_fast())
    return WORTHLESS if figures.is_worthless() else 0
