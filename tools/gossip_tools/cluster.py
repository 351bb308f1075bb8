"""The numbers of a cluster, and scenarios that are made of them; the tool gossip_scenario."""
import re
from fractions import Fraction

from gossip_tools import rules, scenario
from gossip_tools.commands import Refused, refuse_if
from gossip_tools.scenario import limited
from gossip_tools.texts import speaker
from gossip_tools.words import tool

SCENARIO, ADVISE = tool("gossip_scenario"), tool("gossip_advise")
WORDS = SCENARIO.named | ADVISE.named
FANOUT, LOSS, SPLIT = (WORDS[name] for name in ("fanout", "loss", "split"))
say = speaker("cluster")
JOBS = "--jobs", "-j", "jobs", "JOBS"  # how it is asked for in other tools
# How a number looks, how one that is taken, and what to say of the others.
SHAPES = {
    "whole": ("[0-9]+", "[0-9]{1,19}", "19 are the most"),
    "decimal": (r"[0-9]+(\.[0-9]+)?", r"[0-9]{1,18}(\.[0-9]{1,9})?", "18 are the most, and 9 behind the point"),
}


def plain(number):
    """A number as it is written by hand, with up to nine decimals."""
    return str(int(number)) if number == int(number) else f"{float(number):.9f}".rstrip("0")


def instead(it, text):
    """What to write instead of a text that isn't the number it should be; empty where nothing is known."""
    decimal, time = re.fullmatch(r"[0-9]+\.[0-9]+", text), re.fullmatch(r"([0-9]+) ?(ms|s|sec|m|min)", text)
    many, thousands = re.fullmatch(r"([0-9]+) ?([kKmM])i?[bB]?", text), re.fullmatch("([0-9]+)[kK]", text)
    if it.name == "writes" and decimal and Fraction(text).denominator > 1:
        whole, part = divmod(Fraction(text), 1)
        return say("part_of_writes", whole=whole, part=part.limit_denominator(20), more=whole + 1)
    if it.unit == "bytes" and many:
        values = (int(many[1]) * step**(1 if many[2] in "kK" else 2) for step in (1000, 1024))
        return say("thousands", it, thousands=next(values), kibi=next(values))
    if it.kind == "whole" and thousands:
        return say("number", it, number=int(thousands[1]) * 1000)
    if it.unit == "per cent" and text.endswith("%"):
        return say("in_unit", it, number=text[:-1])
    if it.unit == "seconds" and time:
        seconds = int(time[1]) * {"ms": Fraction(1, 1000), "m": 60, "min": 60}.get(time[2], 1)
        return say("in_seconds", it, number=plain(seconds))
    if it.unit == "intervals" and re.fullmatch(r"[0-9.]+ ?[a-z]+", text):
        return say("in_intervals")
    if re.fullmatch("[0-9]{1,3}([,_' ][0-9]{3})+", text):
        return say("number", it, number=re.sub("[^0-9]", "", text))
    return ""


def number_of(name, text):
    it = WORDS[name]
    shape, taken, most = SHAPES[it.kind]
    if re.fullmatch(taken, text):
        return Fraction(text)
    refuse_if(re.fullmatch(shape, text), say("digits", it, text=text, most=most))
    advice, whole = instead(it, text), "whole " if it.kind == "whole" else ""
    unit = " of bytes" if it.unit == "bytes" else ""
    raise Refused(say("no_number", it, whole=whole, unit=unit, text=text, advice=f": {advice}" if advice else ""))


def told(tool, words):
    """The values of the words of a tool by their names, numbers as such. What isn't given is as usual."""
    def more(word, name):
        where = {"no_value": tool.named, "for_scenario": SCENARIO.named, "for_advise": ADVISE.named, "jobs": JOBS}
        why = next((why for why, names in where.items() if name in names), "help" if word.startswith("-") else "")
        return why and say(why, word=word, name=name)

    given = tool.given(words, more)
    values = tool.usual | given
    for name, it in tool.named.items():
        if it.values:
            refuse_if(values[name] not in (None, *it.values), say("one_of", it, values=", ".join(it.values)))
        elif values[name] is not None:
            values[name] = number_of(name, values[name])
            values[name] *= values[it.times] if it.times and name not in given else 1
    return values


def check_limits(it):
    """Refuses numbers of which no scenario can be made, and says what to do instead. The size is no part of it."""
    refuse_if(it["loss"] > LOSS.most, say("per_cent", LOSS, loss=plain(it["loss"])))
    refuse_if((it["loss"] * 10000).denominator != 1, say("decimals"))
    refuse_if(not it["entry"], say("no_bytes"))
    for name in ("keys", "writes"):
        limited(name, it[name], say("as_one_key"))
    refuse_if(not FANOUT.least <= it["fanout"] <= FANOUT.most, say("fanout", FANOUT, fanout=it["fanout"]))


def is_too_large(nodes, keys):
    return nodes > scenario.LIMITS["nodes"][1] or nodes**2 * keys > scenario.MOST_TRIPLES


def check_size(it):
    tenth = say("tenth", nodes=it["nodes"] // 10, packet=it["packet"] // 10)
    limited("nodes", it["nodes"], tenth)
    refuse_if(is_too_large(it["nodes"], it["keys"]), say("too_large", most=scenario.MOST_TRIPLES, tenth=tenth))


def counts_bytes(it, room):
    return it["count"] == "bytes" or not it["count"] and rules.counts_bytes(room)


def without_writes(rounds, fanout):
    """The sections that leave the writes to the first of the rounds that an interval has."""
    firsts = range(2, rounds + 1, fanout) if fanout > 1 else ()
    refuse_if(len(firsts) > scenario.MOST_SECTIONS, say(
        "loads", rounds=rounds, intervals=len(firsts), fanout=fanout, most=scenario.MOST_SECTIONS))
    return "".join(scenario.load(it, min(it + fanout - 2, rounds), 0) for it in firsts)


def remarks(it, room, in_bytes, loads):
    left = ["latency"] + ["more than one peer a round"] * (it["fanout"] == 1) + ["generations"] * (not in_bytes)
    values = {"room": room, "entries": float(room / it["entry"]), "entry": plain(it["entry"]), "mode": it["mode"],
              "digest": it["packet"] - room, "fanout": it["fanout"], "left": ", ".join(left)}
    return [say(line, **values) for line in (
        "room", *(("digest", "last_message") if it["digest"] else ()),
        *(("sizes", "scaled", "by_chance") if in_bytes else ("alike",)), *(("calls",) if loads else ()),
        "left_out", "not_asked")]


def main(words):
    it = told(SCENARIO, words)
    check_limits(it)
    check_size(it)
    fanout = int(it["fanout"])
    rounds, seed = (int(limited(name, it[name])) for name in ("rounds", "seed"))
    loads = without_writes(rounds, fanout)
    taken = it["digest"] * scenario.digest_numbers(it["nodes"], it["keys"], it["mode"])
    room = it["packet"] - taken
    refuse_if(it["packet"] < it["entry"], say("packet_is_too_small", packet=it["packet"], entry=plain(it["entry"])))
    refuse_if(room < it["entry"], say("digest_is_too_large", taken=taken, packet=it["packet"]))
    in_bytes = counts_bytes(it, room / it["entry"])
    fields = scenario.top(it["nodes"], it["keys"], rounds, it["writes"], it["loss"] * 10000, room / it["entry"],
                          in_bytes, it["mode"], seed)
    print(*(f"# {line}" for line in remarks(it, room, in_bytes, loads)), scenario.written(fields) + loads, sep="\n",
          end="")
