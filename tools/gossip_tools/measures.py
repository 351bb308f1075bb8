"""Figures, rounds and times in words."""
from gossip_tools import rules


def span(figure, places=0):
    least, most = (f"{it:.{places}f}" for it in rules.band(figure))
    return least if least == most else f"{least} to {most}"


def in_rounds(figure):
    return f"{span(figure)} round{'s' if max(figure) != 1 else ''}"


def in_time(rounds, seconds):
    """Rounds of so many seconds as time: in seconds, or in minutes or hours where they are many."""
    seconds = [float(it * seconds) for it in rules.band(rounds)]
    name, length = ("h", 3600) if max(seconds) >= 3600 else ("min", 60) if max(seconds) >= 600 else ("s", 1)
    times = [it / length for it in seconds]
    places = 0 if name == "min" or all(it == int(it) for it in times) else 1
    return f"{span(times, places)} {name}"


def lasting(study, rounds):
    """Rounds as rounds, as intervals where those are others, and as time."""
    places = 1 if any(it % study.fanout for it in rounds) else 0
    intervals = span([it / study.fanout for it in rounds], places)
    as_intervals = [f"{intervals} intervals"] if study.fanout > 1 else []
    return ", ".join([in_rounds(rounds), *as_intervals, in_time(rounds, study.seconds)])


def briefly(study, rounds):
    """Rounds to be held against others: in each measure of time where an interval has several."""
    return in_rounds(rounds) if study.fanout == 1 else lasting(study, rounds)


def rows(*pairs):
    """The lines of an answer that have names; one of which nothing is said isn't there."""
    return [f"  {name:<19} {said}" for name, said in pairs if said]


def sentences(*said):
    """Those that hold; of the others there is nothing."""
    return [it for it in said if it]
