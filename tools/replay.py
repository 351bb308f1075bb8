#!/bin/sh
# A shell starts Python, which dies of a folder as its standard input. Each takes the lines of the other for a text.
''''[ -d /dev/stdin ] && { echo "${0##*/}: standard input: Is a directory." >&2; exit 1; }
exec python3 -S "$0" "$@"
: <<'# end' # '''
__doc__ = """\
replay.py check < SCENARIO
replay.py run [--trace FILE] [--sent FILE] [--tables FILE] < SCENARIO
replay.py compare < SCENARIO

The bench once more, in plain Python: the rules of docs/model.md and docs/formats.md in a form to read. From a scenario
in TOML 1.0 it prints what `gossip_bench` prints, and writes the same trace, byte for byte. Two more files show what the
program doesn't: --sent has a row for each entry that was sent, in the order of sending, and --tables has every table
after each round, by holder, owner and key. It needs Python 3.11 or newer and nothing else. 64 nodes with 4 keys take
some seconds for 30 rounds.

The status is 1 after a fault, and 2 where the words are refused. The line of a fault in the scenario is the program's,
but where something is nested too deep it may be another. What only TOML 1.1 has, such as an inline table over several
lines, is refused, though the program takes it: Python reads TOML 1.0.
"""
import _signal
import sys

# (Ctrl-C ends it without a word, also while it loads. So signal.py isn't waited for, nor site, by -S above.)
if _signal.getsignal(_signal.SIGINT) is _signal.default_int_handler:
    _signal.signal(_signal.SIGINT, _signal.SIG_DFL)
if sys.version_info < (3, 11):
    sys.exit("Python 3.11 or later is needed, and this one is " + sys.version.split()[0])

import argparse
import errno
import os
import stat
import tomllib
from collections import defaultdict
from contextlib import contextmanager, suppress
from functools import lru_cache
from itertools import accumulate, pairwise
from math import isinf
from types import SimpleNamespace
from typing import NamedTuple

NAME, VERSION = os.path.basename(sys.argv[0]), "2.1"
REPORT = "round,exchanges,unreached,lost,entries,cut,stale,greatest"
TRACE = "round,index,initiator,responder,fate,digest1,digest2,back,forth,back_cut,forth_cut"
SENT = "round,index,direction,sender,receiver,arrived,owner,key,generation,version,value,born"
TABLES = "round,holder,owner,key,generation,version,value,born"
MODES = ("scuttle-breadth", "scuttle-depth", "precise-oldest", "precise-newest")
ROUNDS = range(1, 100001)
INTEGERS = range(-2**63, 2**63)
ABSENT = (0, 0)  # the mark where there is no entry


# The scenario, by docs/formats.md.

class Fault(Exception):
    """What is wrong, in the line that says so."""


def check_value(value, path, lawful):
    """The value is one of the lawful ones, and of their type. A type alone stands for all of its values."""
    kind = lawful if isinstance(lawful, type) else int if isinstance(lawful, range) else type(lawful[0])
    if type(value) is not kind:
        raise Fault(f"fault 5: wrong type of field {path}")
    if path == "budget_bytes" and value < 1023:
        raise Fault("fault 20: budget_bytes is below 1023")
    if lawful is not kind and value not in lawful:
        raise Fault(f"fault 6: field {path} is out of range")


def check_fields(table, array, lawful):
    """Each of these fields is there and lawful, in order. The array is the one that has the table, if any."""
    for name, values in lawful.items():
        path = f"{array}.{name}" if array else name
        if name not in table:
            raise Fault(f"fault 4: missing field {path}")
        check_value(table[name], path, values)


def check_element(table, array, top):
    check_value(table, array, dict)
    if array == "restart":
        check_fields(table, array, {"node": range(top["nodes"]), "round": ROUNDS, "down": range(100001)})
        if top["format"] == 2 and "forget" in table:
            check_fields(table, array, {"forget": (False, True)})
    else:
        check_fields(table, array, {"from": ROUNDS})
        check_fields(table, array, {"to": range(table["from"], 100001)})
    if array == "load":
        check_fields(table, array, {"writes": range(9)})
    if array == "partition":
        check_fields(table, array, {"apart": list})
        for before, node in pairwise([-1, *table["apart"]]):
            check_value(node, "partition.apart", range(before + 1, top["nodes"]))


def check_scenario(top):
    """Makes the checks of a document in order. The first that fails is the answer."""
    check_fields(top, "", {"format": (1, 2), "nodes": range(2, 4097), "keys": range(1, 65)})
    if top["nodes"] ** 2 * top["keys"] > 268435456:
        raise Fault("fault 8: nodes * nodes * keys is above 268435456")
    budget = {"budget": range(1, 65536)} if top["format"] == 1 else {"budget_bytes": range(1023, 67108865)}
    fields = {"rounds": ROUNDS, "seed": range(2**63), "mode": MODES, **budget, "peers": ("random", "ring"),
              "rotation": ("random", "none"), "choice": ("random", "cycle"), "loss_ppm": range(1000001),
              "writes": range(9)}
    check_fields(top, "", fields)
    forget = {"forget"} if top["format"] == 2 else set()
    arrays = {"partition": {"from", "to", "apart"}, "restart": {"node", "round", "down"} | forget,
              "load": {"from", "to", "writes"}}
    for array in arrays:
        elements = top.get(array, [])
        check_value(elements, array, list)
        check_value(len(elements), array, range(1001))
        for table in elements:
            check_element(table, array, top)
    tables = [("top", top, {"format", "nodes", "keys", *fields, *arrays})]
    tables += [(array, table, names) for array, names in arrays.items() for table in top.get(array, [])]
    for name, table, known in tables:
        if set(table) - known:
            raise Fault(f"fault 7: unknown field in table {name}")


def binary64(text):
    """A float, which is infinite only where the text says so."""
    value = float(text)
    if isinf(value) and "inf" not in text:
        raise ValueError(text)
    return value


def integers(value):
    if isinstance(value, int):
        yield value
    elif isinstance(value, (dict, list)):
        for it in value.values() if isinstance(value, dict) else value:
            yield from integers(it)


def read_scenario(text):
    """The scenario by the names of its fields. The elements of its three arrays stay as they stand in the text."""
    if len(text) > 1048576:
        raise Fault("fault 3: input is longer than 1048576 bytes")
    try:
        top = tomllib.loads(text.decode("utf-8-sig"), parse_float=binary64)
        is_toml = all(it in INTEGERS for it in integers(top))
    except (ValueError, RecursionError):
        is_toml = False
    if not is_toml:
        raise Fault("fault 2: input is not TOML")
    check_scenario(top)
    return SimpleNamespace(**{"partition": [], "restart": [], "load": []} | top)


# The words of a node and what they decide, by docs/model.md, as all that follows.

def quarter(state, a, b, c, d):
    for target, added, mixed, places in ((a, b, d, 16), (c, d, b, 12), (a, b, d, 8), (c, d, b, 7)):
        state[target] = (state[target] + state[added]) % 2**32
        crossed = state[mixed] ^ state[target]
        state[mixed] = (crossed << places | crossed >> 32 - places) % 2**32


@lru_cache(maxsize=65536)
def block(seed, node, number):
    """The 16 words of a block of a node's ChaCha20 stream."""
    begin = [0x61707865, 0x3320646E, 0x79622D32, 0x6B206574, seed % 2**32, seed // 2**32, 0, 0, 0, 0, 0, 0,
             number, 0, node, 0]
    state = list(begin)
    for _ in range(10):
        for places in ((0, 4, 8, 12), (1, 5, 9, 13), (2, 6, 10, 14), (3, 7, 11, 15),
                       (0, 5, 10, 15), (1, 6, 11, 12), (2, 7, 8, 13), (3, 4, 9, 14)):
            quarter(state, *places)
    return [(first + last) % 2**32 for first, last in zip(begin, state)]


def word(scenario, node, round, place):
    return block(scenario.seed, node, round - 1)[place]


def peer(scenario, node, round):
    if scenario.peers == "ring":
        return (node + 1 + (round - 1) % (scenario.nodes - 1)) % scenario.nodes
    place = word(scenario, node, round, 0) % (scenario.nodes - 1)
    return place if place < node else place + 1


def is_down(scenario, node, round):
    return any(it["node"] == node and it["round"] <= round < it["round"] + it["down"] for it in scenario.restart)


def are_separated(scenario, node, other, round):
    return any(it["from"] <= round <= it["to"] and (node in it["apart"]) != (other in it["apart"])
               for it in scenario.partition)


def writes_of(scenario, round):
    """The number of writes of each up node. The last listed load counts."""
    return [scenario.writes, *(it["writes"] for it in scenario.load if it["from"] <= round <= it["to"])][-1]


# Entries, tables, digests and deltas.

class Entry(NamedTuple):
    owner: int
    key: int
    generation: int
    version: int
    value: int
    born: int

    @property
    def mark(self):
        return self.generation, self.version


class Node:
    def __init__(self, number):
        self.number, self.generation = number, 0
        self.writes = []  # all of its current generation
        self.table = {}  # for each owner of whom it holds something, the entries by their keys


def entries(table):
    return [entry for part in table.values() for entry in part.values()]


def mark(table, owner, key):
    held = table.get(owner, {}).get(key)
    return held.mark if held else ABSENT


def generation(table, owner):
    """That of any entry of the owner, as all have the same."""
    return next((entry.generation for entry in table.get(owner, {}).values()), 0)


class Digest:
    """In a scuttle mode the greatest mark of each owner, in a precise one the mark of each key."""

    def __init__(self, scenario, table):
        self.is_scuttle = scenario.mode.startswith("scuttle-")
        self.generations = {owner: generation(table, owner) for owner in table}
        self.marks = {}
        for entry in entries(table):
            place = self.place(entry)
            self.marks[place] = max(entry.mark, self.marks.get(place, ABSENT))

    def place(self, entry):
        return entry.owner if self.is_scuttle else (entry.owner, entry.key)

    def lacks(self, entry):
        is_above = entry.mark > self.marks.get(self.place(entry), ABSENT)
        return is_above and entry.generation >= self.generations.get(entry.owner, 0)


def in_sending_order(scenario, candidates, turn):
    """The candidates as the mode puts them. A minus stands for `greater first`."""
    versions = defaultdict(list)
    for it in candidates:
        versions[it.owner].append(it.version)

    def rank(it):
        return sum(version < it.version for version in versions[it.owner])

    def turned(it):
        return (it.owner + scenario.nodes - turn) % scenario.nodes

    order = {
        "scuttle-breadth": lambda it: (rank(it), turned(it), it.key),
        "scuttle-depth": lambda it: (-len(versions[it.owner]), turned(it), it.version, it.key),
        "precise-oldest": lambda it: (it.born, turned(it), it.version, it.key),
        "precise-newest": lambda it: (-it.born, turned(it), -it.version, it.key),
    }
    return sorted(candidates, key=order[scenario.mode])


def delta(scenario, sender, receiver, told, turn):
    """What one node sends to another by the digest that this one told, and how much the budget cuts."""
    candidates = [it for it in entries(sender.table) if it.owner != receiver.number and told.lacks(it)]
    ordered = in_sending_order(scenario, candidates, turn)
    if scenario.format == 1:
        sent = ordered[:scenario.budget]
    else:
        taken = accumulate(24 + it.value % 1000 for it in ordered)
        sent = [it for it, bytes in zip(ordered, taken) if bytes <= scenario.budget_bytes]
    return sent, len(candidates) - len(sent)


def apply(sent, table):
    for it in sent:
        held = generation(table, it.owner)
        if it.generation > held:
            table[it.owner] = {it.key: it}
        elif it.generation == held and it.mark > mark(table, it.owner, it.key):
            table.setdefault(it.owner, {})[it.key] = it


# Exchanges, rounds and figures.

class Record(NamedTuple):
    """What was sent in an exchange, in the order of the trace."""
    initiator: int
    responder: int
    fate: str
    digest1: int
    digest2: int = 0
    back: list = ()
    forth: list = ()
    back_cut: int = 0
    forth_cut: int = 0


def exchange(scenario, p, q, round):
    """Carries out an exchange from p to q. Both deltas are taken from the tables as they were before it."""
    words = [word(scenario, p.number, round, place) for place in range(5)]
    lost = next((message for message in (1, 2, 3) if words[message] % 1000000 < scenario.loss_ppm), None)
    turn = words[4] % scenario.nodes if scenario.rotation == "random" else 0
    told1, told2 = Digest(scenario, p.table), Digest(scenario, q.table)
    back, back_cut = delta(scenario, q, p, told1, turn)
    forth, forth_cut = delta(scenario, p, q, told2, turn)
    record = Record(p.number, q.number, f"lost{lost}" if lost else "ok", len(told1.marks))
    if lost != 1:
        record = record._replace(digest2=len(told2.marks), back=back, back_cut=back_cut)
    if lost in (3, None):
        record = record._replace(forth=forth, forth_cut=forth_cut)
        apply(back, p.table)
    if lost is None:
        apply(forth, q.table)
    return record


def restart(scenario, node, round):
    restarts = [it for it in scenario.restart if it["node"] == node.number and it["round"] == round]
    if any(it.get("forget") for it in restarts):
        node.generation, node.writes, node.table = node.generation + 1, [], {}
    elif restarts:
        node.table = {owner: part for owner, part in node.table.items() if owner == node.number}


def write(scenario, node, round):
    for place in range(writes_of(scenario, round)):
        version = 1 + len(node.writes)
        drawn = word(scenario, node.number, round, 8 + place) if scenario.choice == "random" else version - 1
        value, key = divmod(drawn, scenario.keys)
        node.writes.append(Entry(node.number, key, node.generation, version, value, round))
        node.table.setdefault(node.number, {})[key] = node.writes[-1]


def figures(scenario, nodes, round):
    """How many triples are stale, the greatest staleness, and how many are left over. An owner's own keys never are."""
    stalenesses, leftover = [], 0
    for owner in nodes:
        for key in range(scenario.keys):
            writes = [it for it in owner.writes if it.key == key]
            newest = mark(owner.table, owner.number, key)
            for holder in nodes:
                held = mark(holder.table, owner.number, key)
                if held < newest:
                    first_missed = next(it for it in writes if it.mark > held)
                    stalenesses.append(round - first_missed.born + 1)
                leftover += held != ABSENT and held[0] < owner.generation
    return len(stalenesses), max(stalenesses, default=0), leftover


def play(scenario):
    """Carries out the rounds. After each one it gives the round, its row of the report, its records and the nodes."""
    nodes = [Node(number) for number in range(scenario.nodes)]
    for round in range(1, scenario.rounds + 1):
        for node in nodes:
            restart(scenario, node, round)
        up = [node.number for node in nodes if not is_down(scenario, node.number, round)]
        for node in up:
            write(scenario, nodes[node], round)
        pairs = [(node, peer(scenario, node, round)) for node in up]
        reached = [(p, q) for p, q in pairs if q in up and not are_separated(scenario, p, q, round)]
        records = [exchange(scenario, nodes[p], nodes[q], round) for p, q in reached]
        row = [round, len(records), len(up) - len(records), sum(it.fate != "ok" for it in records),
               sum(len(it.back) + len(it.forth) for it in records), sum(it.back_cut + it.forth_cut for it in records)]
        stale, oldest, leftover = figures(scenario, nodes, round)
        yield round, [*row, stale, oldest, leftover][:8 if scenario.format == 1 else 9], records, nodes


# The texts, and the words of the command line.

@contextmanager
def named(what):
    """A block whose faults are those of this file, also where the system doesn't say so, as on a full disk."""
    try:
        yield
    except OSError as error:
        error.filename = error.filename or what
        raise


@contextmanager
def made(path):
    """A file that is made anew, or None without a path. It is written whole once the block ends."""
    if not path:
        yield None
        return
    with named(path), open(path, "w", newline="\n") as file:
        yield file


def put(file, *values):
    if file:
        with named("the output" if file is sys.stdout else file.name):
            print(*values, sep=",", file=file)


def put_record(trace, sent, round, index, it):
    put(trace, round, index, *it._replace(back=len(it.back), forth=len(it.forth)))
    for direction, sender, receiver, delta, lost in (("back", it.responder, it.initiator, it.back, "lost2"),
                                                     ("forth", it.initiator, it.responder, it.forth, "lost3")):
        for entry in delta:
            put(sent, round, index, direction, sender, receiver, "no" if it.fate == lost else "yes", *entry)


def run(scenario, columns, trace, sent, tables):
    for file, header in ((trace, TRACE), (sent, SENT), (tables, TABLES), (sys.stdout, columns)):
        put(file, header)
    for round, row, records, nodes in play(scenario):
        for index, record in enumerate(records):
            put_record(trace, sent, round, index, record)
        for node in nodes if tables else []:
            for entry in sorted(entries(node.table)):
                put(tables, round, node.number, *entry)
        put(sys.stdout, *row)


def compare(scenario, columns):
    put(sys.stdout, "mode", columns)
    for scenario.mode in MODES:
        for _, row, _, _ in play(scenario):
            put(sys.stdout, scenario.mode, *row)


def shown(word):
    """A word of the caller as it is told, the first letters of a long one."""
    return word if len(word) <= 60 else f"{word[:60]}.."


class Words(argparse.ArgumentParser):
    def error(self, message):
        super().error(" ".join(map(shown, message.split(" "))))

    def print_help(self, file=None):
        """(argparse drops it where it can't be written)"""
        print(__doc__.replace("replay.py", NAME), end="", file=file)


def words_told():
    """The words of the command line, by their names."""
    words = Words(prog=NAME)
    commands = words.add_subparsers(dest="command", required=True)
    _, options, _ = map(commands.add_parser, ("check", "run", "compare"))
    for file in ("trace", "sent", "tables"):
        options.add_argument(f"--{file}", metavar="FILE")
    asked, others = words.parse_known_args()
    if others:
        words.error(f"{' '.join(others)} isn't taken: the scenario comes by < FILE, and only run has options")
    streams = {"standard input": os.fstat(0), "standard output": os.fstat(1)}
    named = {(it.st_dev, it.st_ino): name for name, it in streams.items() if stat.S_ISREG(it.st_mode)}
    for option in ("trace", "sent", "tables"):
        if path := vars(asked).get(option):
            first = named.setdefault(file_of(path), f"--{option}")
            if first != f"--{option}":
                words.error(f"{first} and --{option} name one file, {path}: name two")
    return vars(asked)


def file_of(path):
    """What all names of a file have in common, also where it isn't there yet."""
    with suppress(OSError):
        found = os.stat(path)
        return found.st_dev, found.st_ino
    return os.path.realpath(path)


def carry_out(asked):
    sys.stdout.reconfigure(newline="\n", line_buffering=True)
    with made(asked.get("trace")) as trace, made(asked.get("sent")) as sent, made(asked.get("tables")) as tables:
        with named("standard input"):
            text = sys.stdin.buffer.read(1048577)
        scenario = read_scenario(text)
        columns = REPORT if scenario.format == 1 else f"{REPORT},leftover"
        if asked["command"] == "check":
            put(sys.stdout, "ok")
        elif asked["command"] == "run":
            run(scenario, columns, trace, sent, tables)
        else:
            compare(scenario, columns)


def fill_closed_streams():
    """A standard stream that is closed fails where it is used, and no file of ours gets its number."""
    for number, way in enumerate((os.O_WRONLY, os.O_RDONLY, os.O_RDONLY)):
        try:
            os.fstat(number)
        except OSError:
            os.open(os.devnull, way)
    sys.stdin = sys.stdin or open(0, closefd=False)
    sys.stdout = sys.stdout or open(1, "w", closefd=False)
    sys.stderr = sys.stderr or open(2, "w", closefd=False)


def end(status, why):
    """Ends with this status, also where a stream takes nothing more: what is left for it is dropped."""
    if why:
        with suppress(OSError):
            print(why, file=sys.stderr)
    for number, stream in ((1, sys.stdout), (2, sys.stderr)):
        try:
            stream.flush()
        except OSError:
            os.dup2(os.open(os.devnull, os.O_WRONLY), number)
    sys.exit(status)


def main():
    fill_closed_streams()
    status, why = 0, ""
    try:
        try:
            if "--version" in sys.argv[1:]:
                print(NAME, VERSION)
            else:
                carry_out(words_told())
        finally:
            sys.stdout.flush()
    except Fault as fault:
        status, why = 1, str(fault)
    except OSError as error:
        place = error.filename or "the output"
        place = shown(place) if error.errno == errno.ENAMETOOLONG else place
        reason = "it is closed" if error.errno == errno.EBADF else error.strerror
        broken = isinstance(error, BrokenPipeError)
        status, why = 1, f"{NAME}: {f'nobody reads {place} any more' if broken else f'{place}: {reason}'}."
    except SystemExit as ended:
        status = ended.code
    end(status, why)


main()
# end
