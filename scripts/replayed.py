"""Scenarios as runs of tools/replay.py, for the scripts that try laws: their rows, their exchanges and what nodes hold;
and the trials of laws, by kinds. REPLAY names another replay.py."""
import csv
import functools
import os
import sys
import tempfile
from collections import Counter, defaultdict
from pathlib import Path

import shared
from shared import TOP, Room
from gossip_tools import scenario

REPLAY = os.environ.get("REPLAY", TOP / "tools" / "replay.py")


@functools.cache
def code():
    return compile(Path(REPLAY).read_bytes(), REPLAY, "exec")


def carry_out(words, files):
    """Goes through replay.py, as a Python does that is started with it, with these words and with files as streams, and
    ends the process."""
    status = 1
    try:
        for number, file in enumerate(files):
            os.dup2(file.fileno(), number)
        sys.argv = [str(REPLAY), *map(str, words)]
        exec(code(), {"__name__": "__main__"})
    except SystemExit as ended:
        status = ended.code if isinstance(ended.code, int) else 1
    except BaseException:
        sys.excepthook(*sys.exc_info())
    finally:
        os._exit(status)


def replayed(text, *words):
    """The status, standard output and standard error of replay.py in a process of its own: a fork of this one, as to
    start Python takes longer than a small scenario does."""
    with tempfile.TemporaryFile() as given, tempfile.TemporaryFile() as out, tempfile.TemporaryFile() as err:
        given.write(text)
        given.seek(0)
        code()
        # (so that nothing is printed by both)
        sys.stdout.flush()
        child = os.fork()
        if not child:
            carry_out(words, (given, out, err))
        status = os.waitstatus_to_exitcode(os.waitpid(child, 0)[1])
        for it in (out, err):
            it.seek(0)
        return status, out.read(), err.read()


def holds(kind, name, is_so):
    shared.holds(f"{kind}: {name}", True, is_so)


def end():
    """Prints how many trials of each kind have passed, and the last line, and ends the process."""
    kinds = Counter(it.partition(":")[0] for it in shared.passed)
    print(", ".join(f"{kind} {number}" for kind, number in kinds.items()))
    shared.end()


def reaching(exchange):
    """Whom the deltas of an exchange have reached, each with their sender, and whether the budget cut the delta."""
    p, q, fate = int(exchange["initiator"]), int(exchange["responder"]), exchange["fate"]
    back, forth = [(p, q, exchange["back_cut"] != "0")], [(q, p, exchange["forth_cut"] != "0")]
    return back * (fate in ("lost3", "ok")) + forth * (fate == "ok")


def drawn_words(chance):
    """One for each field that takes words."""
    return {field: chance.choice(words) for field, words in scenario.WORDS.items()}


class Run:
    """A scenario, and by rounds the rows of its report, its exchanges, and what each node holds of each owner."""

    def __init__(self, load=(), restart=(), partition=(), **fields):
        self.fields = {"rounds": 0, "rotation": "none", "choice": "cycle", "loss_ppm": 0, "writes": 0} | fields
        self.nodes, self.format = fields["nodes"], fields["format"]
        self.load, self.restart, self.partition = [*load], [*restart], [*partition]

    @property
    def rounds(self):
        return self.fields["rounds"]

    @property
    def ample_budget(self):
        return (self.nodes - 1) * self.fields["keys"]

    def set_budget(self, entries):
        self.fields |= {"budget": entries} if self.format == 1 else {"budget_bytes": scenario.LARGEST * entries}

    def text(self):
        arrays = (scenario.sections(it, getattr(self, it)) for it in ("load", "restart", "partition"))
        return scenario.written(self.fields) + "".join(arrays)

    def replay(self):
        with Room() as room:
            words = ["run", "--trace", room / "trace", "--tables", room / "tables"]
            status, out, err = replayed(self.text().encode(), *words)
            if status:
                sys.exit(err.decode())
            texts = out.decode(), (room / "trace").read_text(), (room / "tables").read_text()
        report, trace, tables = (csv.DictReader(it.splitlines()) for it in texts)
        self.rows = {int(it["round"]): {name: int(value) for name, value in it.items()} for it in report}
        self.exchanges, self.held = defaultdict(list), defaultdict(lambda: defaultdict(dict))
        for exchange in trace:
            self.exchanges[int(exchange["round"])].append(exchange)
        for entry in tables:
            held = self.held[int(entry["round"])][int(entry["holder"]), int(entry["owner"])]
            held[entry["key"]] = [int(entry[name]) for name in ("generation", "version", "value", "born")]
        return self

    def writes(self, round):
        return [0, *(it["writes"] for it in self.load if it["from"] <= round <= it["to"])][-1]

    def restarted(self, round):
        return {it["node"] for it in self.restart if it["round"] == round}

    def forgot(self, *rounds):
        return {it["node"] for it in self.restart if it["round"] in rounds and it.get("forget")}

    def has_down(self, round):
        return any(it["round"] <= round < it["round"] + it["down"] for it in self.restart)

    def has_split(self, round):
        return any(it["from"] <= round <= it["to"] for it in self.partition)


def drawn(chance, format, most_nodes, most_keys):
    """A small scenario with what mishaps chance brings, and without a budget."""
    nodes, rounds = chance.randint(2, most_nodes), chance.choice((1, 2, 4, 6, 7, 8, 8))
    run = Run(**drawn_words(chance), format=format, nodes=nodes, keys=chance.randint(1, most_keys), rounds=rounds,
              seed=chance.choice((0, 1, chance.randrange(2**32), chance.randrange(2**63))),
              writes=chance.choice((0, 1, 1, 2, 3, 8)),
              loss_ppm=chance.choice((0, 0, 0, 10000, 300000, chance.randint(0, 1000000))))
    for _ in range(chance.choice((0, 0, 1, 3))):
        first, apart = chance.randint(1, rounds), sorted(chance.sample(range(nodes), chance.randint(0, nodes)))
        run.partition.append({"from": first, "to": first + chance.randint(0, 3), "apart": apart})
    for _ in range(chance.choice((0, 1, 3, 6))):
        # (a third of them are of the node and round of the one before)
        if chance.randrange(3) or not run.restart:
            node, round = chance.randrange(nodes), chance.randint(1, rounds)
        run.restart.append({"node": node, "round": round, "down": chance.choice((0, 0, 1, 2, 5))})
        if format == 2:
            run.restart[-1] |= chance.choice(({}, {"forget": False}, *[{"forget": True}] * 3))
    for _ in range(chance.choice((0, 1, 2, 3))):
        first = chance.randint(1, rounds)
        run.load.append({"from": first, "to": first + chance.randint(0, 4), "writes": chance.choice((0, 0, 1, 2, 8))})
    return run
