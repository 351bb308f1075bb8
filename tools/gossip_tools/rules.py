"""What counts as better, as enough and as healed: the rules of docs/guide.md, each stated here alone.

A run's worst staleness is the most of `greatest` in the rounds of a window. A figure is a list of them, one for each
seed, and its band goes from the least to the most. An interval has as many rounds as a node calls others in it.
"""
import math

from gossip_tools.scenario import MODES, USUAL_MODE, digest_numbers
from gossip_tools.texts import sentence

# The seeds by which a mode and a budget are chosen, and the others that bound what these then bring: those that chose
# would bound it by the luckiest choice. More of them bound what heals, where that is little work. The first ones show
# whether a mode may still be better than another, and what bounds nothing.
CHOOSING = tuple(range(1, 21))
BOUNDING, MORE_BOUNDING = tuple(range(21, 41)), tuple(range(21, 83))
FIRST, BOUNDING_FIRST = CHOOSING[:6], BOUNDING[:4]
# The intervals of a run that are looked at, up to its last, by its stage: longer ones come where nothing is level after
# shorter ones. In the first intervals the tables fill and look too good, so they are left out.
WINDOWS = {"few": (31, 60), "many": (101, 200), "longer": (201, 400), "longest": (401, 800)}
# Parts of `nodes * writes` at which a smaller budget is looked at, as numerator and denominator.
LOOKED_AT = ((1, 4), (1, 2), (3, 4), (1, 1), (3, 2), (2, 1))
# By the size of their digests, and the usual one before scuttle-breadth, which lags longer below the knee.
CHEAPEST_FIRST = sorted(MODES, key=lambda mode: (digest_numbers(2, 2, mode), mode != USUAL_MODE))
FEW_ENTRIES = 50
# How many rounds more in `greatest` ten times the nodes had in scuttle-depth, and with which parts of `nodes * writes`.
TENTH_MORE, TENTH_HOLDS = (2, 6), (1, 2)


def band(figure):
    return min(figure), max(figure)


def seed_by_seed(one, other):
    """Under how many seeds the one has less than the other, under how many it has more, and how many there are. Both
    begin with the same seeds; further ones of either say nothing."""
    pairs = list(zip(one, other))
    return sum(it < its for it, its in pairs), sum(it > its for it, its in pairs), len(pairs)


def is_better(one, other):
    """"Better where at least 15 of 20 seeds say so and not more than 2 the other way", and of fewer as large a part."""
    less, more, seeds = seed_by_seed(one, other)
    return 4 * less >= 3 * seeds and 10 * more <= seeds


def may_get_better(one, other):
    """Whether the one may be better once all seeds were run."""
    less, more, there = seed_by_seed(one, other)
    return 4 * (less + len(CHOOSING) - there) >= 3 * len(CHOOSING) and 10 * more <= len(CHOOSING)


def is_far_better(one, other):
    """Whether it is better, and its worst seed at most half as high as the other's."""
    return is_better(one, other) and 2 * max(one) <= max(other)


def are_close(one, other):
    return not is_better(one, other) and not is_better(other, one)


ONE_IN = 21  # further runs exceeds what is told as a bound
IN_MOST = f"in {ONE_IN - 1} of {ONE_IN}"


def bound_of(figure):
    """"Of m + 1 runs with seeds drawn alike, the last is above the k-th greatest of the others with a chance of k in
    m + 1": the greatest of 20, or the third greatest of 62, which varies less. None is never, above all others."""
    return sorted(figure, key=lambda it: math.inf if it is None else it)[-max(1, (len(figure) + 1) // ONE_IN)]


def rounds_of(window, fanout):
    first, last = window
    return (first - 1) * fanout + 1, last * fanout


def halves(window):
    first, last = window
    second = first + (last - first + 1) // 2
    return (first, second - 1), (second, last)


def suffices(in_first_half, in_second_half, window):
    """"A budget suffices where `greatest` is level in both halves of the window." It isn't level where the first half
    is better than the second: there it still rises. Nor is it known to be where it is too high for such a window."""
    return not is_better(in_first_half, in_second_half) and max(in_first_half + in_second_half) <= highest_level(window)


def highest_level(window):
    """The highest level that a window can show: the rounds before it, as what is higher wasn't reached as it began."""
    return window[0] - 1


def has_left_the_diagonal(figure, last):
    """Whether `greatest` says something up to the last round: it can't exceed that, and says nothing where it is above
    nine tenths of it under some seed."""
    return 10 * max(figure) <= 9 * last


def ahead(figures, last):
    """The mode that is better than each other one though none is level, or None. One that is on the diagonal is ahead
    of none, but others are of it, as it gets at least as high as it was seen."""
    return next((mode for mode, figure in figures.items() if has_left_the_diagonal(figure, last) and len(figures) > 1
                 and all(is_better(figure, other) for name, other in figures.items() if name != mode)), None)


def contenders(figures, last):
    """The modes than which none that has left the diagonal is better."""
    left = [figure for figure in figures.values() if has_left_the_diagonal(figure, last)]
    return {mode: figure for mode, figure in figures.items() if not any(is_better(it, figure) for it in left)}


def reckoned(figure):
    """"Run a tenth of them, .. and add six rounds to `greatest`": the most to reckon with for ten times the nodes."""
    return max(figure) + TENTH_MORE[1]


def tenth_holds(of_knee):
    """Whether a tenth was seen to hold with such a part of `nodes * writes`."""
    return TENTH_HOLDS[0] <= of_knee <= TENTH_HOLDS[1]


def knee(nodes, keys, writes, fanout=1):
    """"A budget of `nodes * writes`", divided by the calls that a node makes in an interval. A node never lacks more
    than `nodes * keys` entries."""
    return max(1, nodes * max(1, min(writes, keys)) // fanout)


def least_staleness(budget, nodes, keys, writes, fanout=1):
    """What the worst staleness is at least, in intervals. "Divide that by the budget: so many deltas it needs at least,
    and it gets about two in each round": a node has `(nodes - 1) * keys` copies, and each of them has to be renewed
    once its key was written again, which is after `keys / writes` intervals."""
    return (nodes - 1) * keys / (2 * budget * fanout) - keys / max(1, min(writes, keys))


def most_of(fits, nodes, keys, at_knee):
    """The largest budget that is looked at: `nodes * keys`, which never cuts, where that fits; else what fits, and no
    more than twice `nodes * writes`, which hardly cuts."""
    return nodes * keys if fits >= nodes * keys else min(fits, 2 * at_knee)


def least_that_is_taken(figures, others):
    """"Otherwise take the smaller one": the least budget than which nothing is better, neither another one nor one of
    the others. The figures are by budget, of those from `nodes * writes` on that suffice. None where there is none."""
    all_of_them = [*figures.values(), *others]
    taken = [budget for budget, it in figures.items() if not any(is_better(other, it) for other in all_of_them)]
    return min(taken, default=None)


def smaller_budgets(budget, at_knee):
    return sorted({it for over, under in LOOKED_AT if 1 <= (it := at_knee * over // under) < budget}, reverse=True)


def mode_of(figures):
    """"`scuttle-depth`", unless another mode is better; "else take the cheaper one". The figures are by mode, of those
    whose budget suffices: those that aren't level say nothing."""
    chosen, *others = [it for it in CHEAPEST_FIRST if it in figures]
    for mode in others:
        if is_better(figures[mode], figures[chosen]):
            chosen = mode
    return chosen


def counts_bytes(room):
    """"Entries, where a packet has room for fifty or more. Bytes, where it has room for a few.\""""
    return room < FEW_ENTRIES


# When a split and a restart count as healed, and what counts where nodes forget below `nodes * writes`.
HEALED, FORGETFUL = (sentence("rules", it) for it in ("healed", "forgetful"))
DATAGRAM = 65507  # bytes at most of a packet that is one datagram of UDP


def healed_level(most_before):
    """Where `greatest` has to come down to, by `HEALED`. It shows what a split left once a write of the split's first
    round, missed since, is above that: so many rounds after the split began."""
    return most_before + 1
