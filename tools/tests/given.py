"""What tests are given: clusters by their words, figures for which nothing was run, and tables of cases."""
import pathlib
import tomllib

from gossip_tools import answer, choice, cluster, study
from gossip_tools.commands import Refused
from gossip_tools.live_plan import Plan

DEPTH, BREADTH, OLDEST, NEWEST = "scuttle-depth", "scuttle-breadth", "precise-oldest", "precise-newest"
ROOMY = "nodes=300 keys=4 writes=2 entry=40 packet=40000"


def of(words):
    """The cluster that words tell."""
    return study.Study(cluster.told(cluster.ADVISE, words.split()))


class Figures:
    """Figures that are given: worst staleness by budget and mode. Those of `rising`, by budget and mode or by budget
    alone, aren't level."""

    def __init__(self, rows, rising=()):
        self.rows, self.rising = rows, rising

    def worst(self, budget, mode, _):
        return self.rows[(budget, mode)]

    def cut(self, *_):
        return [1.0, 2.0]

    def suffices(self, budget, mode, _):
        return not {budget, (budget, mode)} & {*self.rising}


def decided(words, depth, stage="many"):
    """What is decided for a cluster by its figures in scuttle-depth, by budget."""
    return choice.Decision(of(words), Figures({(budget, DEPTH): worst for budget, worst in depth.items()}), stage)


def bound(decision, figures, pair, rises):
    """What bounds a budget and a mode, by figures, behind the runs of a decision."""
    figures = Figures(figures, [pair] if rises else ())
    return choice.Bound(decision.study, f"{decision.stage}-bound", figures, pair)


def plan(**fields):
    """What is to happen in a live cluster of four nodes."""
    usual = {"format": 1, "nodes": 4, "keys": 2, "rounds": 9, "mode": "scuttle-breadth", "budget": 9, "peers": "ring",
             "rotation": "none", "choice": "cycle", "loss_ppm": 0, "writes": 1, "partition": [], "restart": [],
             "load": [], "interval": 1, "latency": (0, 0), "fanout": 1}
    return Plan(**{**usual, **fields})


def outcome(function, *words):
    """What a call answers, or with which words it refuses."""
    try:
        return function(*words)
    except Refused as why:
        return str(why)


def meant(value):
    """What a value of a table stands for: names of digits are numbers, and `none` and `never` are None."""
    if isinstance(value, dict):
        return {int(name) if name.isdigit() else name: meant(it) for name, it in value.items()}
    return list(map(meant, value)) if isinstance(value, list) else None if value in ("none", "never") else value


def table_of(name):
    return meant(tomllib.loads(pathlib.Path(__file__).with_name(name).read_text("utf-8")))


def cases_of(name):
    """The cases of a table, by name. One that has `each` stands for several, which have in common what else it has."""
    for case, it in table_of(name).items():
        for at, one in enumerate(it.pop("each", [{}]), 1):
            yield f"{case} {at}", it | one


def value_of(it, name, *arguments):
    """What something has, or answers, by this name; else what answer.py says of it."""
    if not hasattr(it, name):
        return getattr(answer, name)(it)
    found = getattr(it, name)
    return found(*arguments) if callable(found) else found


def plain(value):
    """A value with lists alone, as a table has it."""
    if isinstance(value, dict):
        return {name: plain(it) for name, it in value.items()}
    if isinstance(value, (set, frozenset)):
        return sorted(map(plain, value))
    return list(map(plain, value)) if isinstance(value, (list, tuple, range)) else value
