"""Scenarios from the numbers of a cluster, and their sections."""
import re
from fractions import Fraction

from gossip_tools.commands import Refused, refuse_if, shown
from gossip_tools.texts import speaker, table_of

FORMATS = (1, 2)
MODES = ("scuttle-breadth", "scuttle-depth", "precise-oldest", "precise-newest")
# What the fields of words take.
WORDS = {"mode": MODES, "peers": ("random", "ring"), "rotation": ("random", "none"), "choice": ("random", "cycle")}
USUAL_MODE = table_of("words.toml")["shared"]["mode"]["default"]
LIMITS = {
    "nodes": (2, 4096), "keys": (1, 64), "writes": (0, 8), "rounds": (1, 100000), "seed": (0, 2**63 - 1),
    "loss_ppm": (0, 1000000), "budget": (1, 65535), "budget_bytes": (1023, 67108864),
}
MOST_TRIPLES = 268435456  # of nodes * nodes * keys
MOST_SECTIONS = 1000
MOST_BYTES = 1048576
MEAN = Fraction("523.5")  # bytes of an entry of format 2, which has 24 + value mod 1000
LARGEST = 1023  # of these bytes at most
say = speaker("scenario")


def limited(name, number, instead=""):
    """A number that a field takes. What to do instead is said of one above the most."""
    least, most = LIMITS[name]
    more = instead if number > most else ""
    refuse_if(not least <= number <= most, say("limits", name=name, number=number, least=least, most=most, more=more))
    return number


def digest_numbers(nodes, keys, mode):
    return nodes * (keys if mode.startswith("precise") else 1)


def budget_field(entries, in_bytes):
    """The field of a budget with room for so many entries, and its value."""
    return ("budget_bytes", int(entries * MEAN)) if in_bytes else ("budget", int(entries))


def written(fields):
    """Lines of a scenario, in the order in which the fields are given."""
    values = {name: f'"{it}"' if isinstance(it, str) else str(it).lower() for name, it in fields.items()}
    return "".join(f"{name} = {it}\n" for name, it in values.items())


def sections(array, elements):
    return "".join(f"[[{array}]]\n{written(it)}" for it in elements)


def top(nodes, keys, rounds, writes, loss_ppm, entries, in_bytes, mode=USUAL_MODE, seed=1):
    """The fields of a scenario with random peers, whose budget has room for so many mean entries."""
    field, budget = budget_field(entries, in_bytes)
    # (sizes of format 2 are spread evenly over 24 to 1023 bytes with choice = "random" alone)
    return {
        "format": 2 if in_bytes else 1, "nodes": nodes, "keys": keys, "rounds": rounds, "seed": seed, "mode": mode,
        field: limited(field, budget), "peers": "random", "rotation": "random",
        "choice": "random" if in_bytes else "cycle", "loss_ppm": loss_ppm, "writes": writes,
    }


def read(file, what="the scenario"):
    """The text of a scenario, from a file that is open for its bytes. No more is read than a scenario has."""
    given = file.read(MOST_BYTES + 1)
    refuse_if(len(given) > MOST_BYTES, say("too_long", what=what, most=MOST_BYTES))
    try:
        return given.decode()
    except UnicodeDecodeError:
        raise Refused(say("not_utf8", what=what)) from None


def set_field(text, field, value):
    """The scenario with another value in the one line that the field has above all sections."""
    refuse_if(not text.strip(), say("empty"))
    begins = re.search(r"^[ \t]*\[|\Z", text, re.MULTILINE).start()
    line = re.compile(rf"^[ \t]*{re.escape(field)}[ \t]*=[ \t]*([\"']?).*\n?", re.MULTILINE)
    quotes = line.findall(text, 0, begins)
    refuse_if(len(quotes) != 1, say("lines" if quotes else "no_line", lines=len(quotes), field=shown(field)))
    quote = '"' if quotes[0] else ""
    return line.sub(lambda _: f"{field} = {quote}{value}{quote}\n", text, 1)


def restarts(nodes, each, first_round, last_round, down, forget=False, first=0, every=1):
    """Restarts: in every `every`-th of these rounds the next `each` nodes, by ascending number from `first` on."""
    refuse_if(not 1 <= first_round <= last_round, say("no_rounds", first=first_round, last=last_round))
    refuse_if(each > nodes, say("each", each=each, nodes=nodes))
    refuse_if(first >= nodes, say("first", first=first, nodes=nodes))
    rounds = range(first_round, last_round + 1, every)
    refuse_if(each * len(rounds) > MOST_SECTIONS, say("restarts", made=each * len(rounds), most=MOST_SECTIONS))
    more = {"forget": True} if forget else {}
    return sections("restart", ({"node": (first + at * each + i) % nodes, "round": number, "down": down, **more}
                                for at, number in enumerate(rounds) for i in range(each)))


def partition(first, last, first_round, last_round):
    most = LIMITS["nodes"][1] - 1
    refuse_if(not first <= last <= most, say("no_nodes", first=first, last=last, most=most))
    refuse_if(not 1 <= first_round <= last_round, say("no_rounds", first=first_round, last=last_round))
    nodes = [str(it) for it in range(first, last + 1)]
    lines = "".join("    " + ", ".join(nodes[at:at + 20]) + ",\n" for at in range(0, len(nodes), 20))
    return f"[[partition]]\nfrom = {first_round}\nto = {last_round}\napart = [\n{lines}]\n"


def load(first_round, last_round, writes):
    return sections("load", [{"from": first_round, "to": last_round, "writes": writes}])
