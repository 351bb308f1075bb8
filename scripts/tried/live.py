"""Trials of gossip_live: its nodes follow traces of the bench, and small clusters agree, however busy a machine is."""
import csv
import itertools
import os
import pathlib
import signal
import statistics
from concurrent.futures import ThreadPoolExecutor

from tried.calls import fails, is_running, program_that, refuse, refuses, run, started, stopped, waits_for
from shared import PROGRAM, Text, holds, text_of
from gossip_tools import live
from gossip_tools.live_figures import Figures
from gossip_tools.live_node import Node, decoded
from gossip_tools.live_worker import Told, marks_of
from gossip_tools.scenario import FORMATS, MODES, sections, top, written

CLUSTER = written(top(nodes=16, keys=4, rounds=30, writes=1, loss_ppm=0, entries=16, in_bytes=False))
WRITES_STOP = sections("load", [{"from": 16, "to": 100000, "writes": 0}])
RESTARTED = sections("restart", [{"node": 3, "round": 8, "down": 4}])
HEADER = "round,entries,cut,stale,greatest\n"
WORTHLESS = 4


def mishaps(mode, form):
    """A scenario with all kinds of mishaps, and no chance but who meets whom and what is lost, which the trace has."""
    return text_of("mishaps.toml").replace("MODE", mode).replace(f"#{form} ", "")


def columns(entry):
    return entry.owner, entry.key, entry.mark >> 32, entry.mark % 2**32, entry.value, entry.born


def exchanged(row, nodes, under_way):
    """Carries out an exchange of a trace, and answers its lines of the file --sent."""
    nodes[int(row["initiator"])].begin(int(row["responder"]))
    for message, direction in enumerate(("forth", "back", "forth"), 1):
        (receiver, datagram), is_lost = under_way.pop(), row["fate"] == f"lost{message}"
        came, arrived = decoded(datagram), "no" if is_lost else "yes"
        yield from ([row["round"], row["index"], direction, came.sender, receiver, arrived, *columns(it)]
                    for it in came.delta)
        if is_lost:
            return
        nodes[receiver].receive(datagram)


def followed(plan, trace):
    """What nodes send and hold that follow a trace, as replay.py tells it, and the report, as gossip_live counts it."""
    sent, tables, rows, under_way, figures = [], [], [], [], Figures(plan)
    nodes = [Node(it, plan, lambda *what: under_way.append(what)) for it in range(plan.nodes)]
    for round in range(1, plan.rounds + 1):
        writes = []
        for node in nodes:
            if restarts := plan.restarts_in(node.number, round):
                node.restart(any(it.get("forget") for it in restarts))
            if not plan.is_down(node.number, round):
                writes += [node.write(round) for _ in range(plan.writes_in(round))]
        sent += [it for row in trace if int(row["round"]) == round for it in exchanged(row, nodes, under_way)]
        tables += [[round, node.number, *columns(it)] for node in nodes for part in node.table.values()
                   for it in part.values()]
        told = Told(sum(it.entries for it in nodes), sum(it.cut for it in nodes), timers=0, late=0, lag=0,
                    writes=writes, generations={it.number: it.generation for it in nodes},
                    marks={it.number: marks_of(it, plan) for it in nodes})
        rows.append(figures.row(round, [told]))
    return sent, sorted(tables), rows


def try_following_traces(room):
    """A live node sends, holds and counts what replay.py does, where both meet the same and lose the same."""
    for mode, form in itertools.product(MODES, FORMATS):
        text, name = mishaps(mode, form), f"{mode} in format {form}"
        words = "run --trace trace --sent sent --tables tables".split()
        status, out, _ = run(room, "replay.py", *words, text=text)
        trace = list(csv.DictReader((room / "trace").read_text().splitlines()))
        sent, tables, figures = followed(live.plan_of(text, live.told([])), trace)
        for file, found in (("sent", sent), ("tables", tables)):
            _, *rows = csv.reader((room / file).read_text().splitlines())
            holds(f"{file} of {name}", (0, rows), (status, [[str(it) for it in row] for row in found]))
            holds(f"there is much in {file} of {name}", True, len(rows) > 1000)
        report = list(csv.DictReader(out.splitlines()))
        found = [{name: str(row[name]) for name in report[0] if name in row} for row in figures]
        wanted = [{name: row[name] for name in it} for row, it in zip(report, found)]
        holds(f"the report of {name}", (24, wanted), (len(report), found))


def children(pid):
    return [int(it) for it in pathlib.Path(f"/proc/{pid}/task/{pid}/children").read_text().split()]


def try_words(room):
    refuse(room, "gossip_live")
    refuses(room, "15 others", "gossip_live", "fanout=16", text=CLUSTER)
    large = CLUSTER.replace("nodes = 16", "nodes = 4000")
    # (19 bytes, 4000 numbers of 12, 16 entries of 24)
    refuses(room, "may take 72019 bytes", "gossip_live", text=large.replace("budget = 16", "budget = 1000"))
    holds("a scenario that the program refuses", (1, "", Text("fault 6: field keys")),
          run(room, "gossip_live", text=CLUSTER.replace("keys = 4", "keys = 0")))


def agreed(room, text):
    """What comes of a cluster whose writes stop. A busy machine is given more intervals, up to a minute in all."""
    for rounds in (30, 120, 400):
        status, out, err = run(room, "gossip_live interval=0.1",
                               text=text.replace("rounds = 30", f"rounds = {rounds}") + WRITES_STOP)
        rows = [[int(it) for it in line.split(",")] for line in out.splitlines()[1:]]
        if rows and not any(rows[-1][3:]):
            break
    return status, out, err, rows


def try_clusters(room):
    """Copies agree some intervals after writes stop, in each kind of mode, with loss, and after restarts."""
    in_bytes = CLUSTER.replace("format = 1", "format = 2").replace("budget = 16", "budget_bytes = 9000")
    cases = {
        "depth": CLUSTER, "breadth": CLUSTER.replace("depth", "breadth"),
        "newest": CLUSTER.replace("scuttle-depth", "precise-newest"),
        "loss": CLUSTER.replace("loss_ppm = 0", "loss_ppm = 100000") + RESTARTED,
        "a node that forgets": in_bytes.replace("cycle", "random") + RESTARTED + "forget = true\n",
    }
    with ThreadPoolExecutor() as at_once:
        outcomes = at_once.map(lambda text: agreed(room, text), cases.values())
    for (name, text), (status, out, err, rows) in zip(cases.items(), outcomes):
        header = HEADER if "format = 1" in text else HEADER.replace("\n", ",leftover\n")
        holds(f"a report of {name}", (Text(header), list(range(1, len(rows) + 1))), (out, [it[0] for it in rows]))
        last = rows[-1][3:] if rows else [out]
        holds(f"copies agree: {name}", [0] * len(last), last)
        holds(f"it says how fast it was: {name}", (True, Text("gossip_live: ", " timers were late")),
              (status in (0, WORTHLESS), err))
        # (wide bounds while nodes write: 16 writes are 240 entries; a restarted node may lack the first one)
        oldest = 15 if RESTARTED in text else 8
        wrong = [it for it in rows[5:15] if not (60 <= it[1] <= 480 and 0 < it[3] <= 960 and 1 <= it[4] <= oldest)]
        holds(f"figures of {name}", [], wrong if status != WORTHLESS else [])


def try_beside(room):
    """Beside the live cluster stand the means of the bench under its seeds."""
    text = CLUSTER.replace("rounds = 30", "rounds = 8")
    status, out, _ = run(room, "gossip_live interval=0.1 beside=3 window=5", text=text)
    reports = [run(room, PROGRAM, "run", text=text.replace("seed = 1", f"seed = {seed}"))[1] for seed in (1, 2, 3)]
    entries, wanted = [[int(it["entries"]) for it in csv.DictReader(text.splitlines())] for text in reports], []
    for first, last in ((1, 5), (6, 8)):
        means = [statistics.fmean(it[first - 1:last]) for it in entries]
        wanted.append([str(first), str(last), f"{min(means):.0f} to {max(means):.0f}"])
    found = [[it["from"], it["to"], it["bench_entries"]] for it in csv.DictReader(out.splitlines())]
    holds("windows, with the entries of the bench", (True, wanted), (status in (0, WORTHLESS), found))


def try_slow_machines(room):
    """No machine is fast enough for 1560 exchanges in a hundredth of a second."""
    text = CLUSTER.replace("nodes = 16", "nodes = 40").replace("rounds = 30", "rounds = 3")
    holds("a machine that is too slow", (WORTHLESS, Text(HEADER, lines=4), Text("", "figures are worthless")),
          run(room, "gossip_live interval=0.01 fanout=39", text=text))


def try_stopping(room):
    """A cluster that is stopped leaves no process, and says so in a sentence."""
    text = CLUSTER.replace("rounds = 30", "rounds = 1000").replace("nodes = 16", "nodes = 40")
    for ends in (signal.SIGINT, signal.SIGTERM, signal.SIGHUP, signal.SIGKILL):
        with started(room, "gossip_live interval=0.2", text=text) as process:
            header, _ = process.stdout.readline(), process.stdout.readline()
            processes = children(process.pid)
            status, _, err = stopped(process, ends)
        if ends != signal.SIGKILL:
            holds(f"{ends.name}", (128 + ends, HEADER, 2, f"gossip_live: stopped by {ends.name}.\n", []),
                  (status, header, len(processes), err, [it for it in processes if is_running(it)]))
    holds("what a cluster that was killed leaves", True, waits_for(lambda: not any(map(is_running, processes))))
    with started(room, "gossip_live interval=0.2", text=text) as process:
        process.stdout.readline()
        os.kill(children(process.pid)[0], signal.SIGKILL)
        _, err = process.communicate(timeout=60)
    holds("a process with nodes that was killed", (1, True),
          (process.returncode, "a process with nodes has ended" in err))


def try_faults(room):
    half = program_that(room, "half", "echo half")
    fails(room, "printed no whole report", 1, "gossip_live beside=1", text=CLUSTER, GOSSIP_BENCH=half)
    faulty = program_that(room, "faulty", "echo fault 1: out of memory >&2; exit 1")
    fails(room, "status 1: fault 1: out of memory", 1, "gossip_live beside=1", text=CLUSTER, GOSSIP_BENCH=faulty)
