"""What is said of a decision, in the first answer, in the last one and on the page."""
from gossip_tools import cluster, healing, rules, scenario
from gossip_tools.measures import lasting, rows, sentences, span
from gossip_tools.texts import speaker

FLOOR = "the floor"
SUPPOSED = 20  # the bytes of a number in a sum that shows what a digest that wasn't told would take
say = speaker("answer")


def ended(said):
    return said and f"{said}."


def first_words(decision, call=""):
    """The first answer, from few intervals: what is chosen, and what it can't say yet."""
    it, to_knee = decision.study, decision.to_knee()
    since = say("intervals" if it.fanout > 1 else "rounds", it, intervals=it.intervals(decision.stage))
    if decision.suffices:
        return sentences(
            say("first", decision, since=since), ended(decision.tells_all()), say("first_staleness", decision),
            ended(decision.reserve()), ended(decision.why_not_knee()),
            to_knee and say("below_the_knee", decision, else_helps=else_helps(decision)),
            decision.forgetful(), *limits(decision), *(of_calls(it) if it.fanout > 1 else []))
    longer = " and then ".join(str(it.rounds(stage)) for stage in it.later_stages(decision.stage))
    return sentences(
        say("first_without", decision, since=since), decision.most_that_fits(), decision.forgetful(),
        to_knee and f"{ended(to_knee)} {else_helps(decision)}", *limits(decision),
        longer and say("seen_later", longer=longer),
        *([say("run_if_enough"), f"  {call}"] if call and it.asks_for_healing else []))


def last_of_first_words(decision, folder):
    """What to know where one stops at the first answer, a budget being enough."""
    it = decision.study
    return sentences(
        it.leaves() and healing.say("down_for_longer"),
        it.heals() and decision.reserve() and say("for_packet", decision),
        say("until_then", answer=folder / "answer.txt", page=folder / "report.html"))


def not_run(decision, call, was_enough=False):
    """Why nothing was run that heals, or in the first answer alone, where a budget was enough, and the call for it."""
    it = decision.study
    if decision.suffices or not it.heals():
        return []
    if not was_enough and not it.asks_for_healing:
        return sentences(call and say("nor_run", packet=it.packet(decision.mode)))
    why = say("was_run" if was_enough else "not_run")
    return [f"{why} " + say("to_see_them"), f"  {call}"] if call else [why]


def warnings(decision):
    it, to_knee = decision.study, decision.to_knee()
    helps = say("larger_packet", way_out=way_out(decision)) if to_knee else say("less_loss")
    return sentences(
        not decision.suffices and say("not_level", helps=helps),
        decision.suffices and to_knee and say("lags", decision, else_helps=else_helps(decision)),
        decision.forgetful(), *decision.against, *limits(decision), it.in_bytes and say("few_entries"),
        it.parts > 1 and say("tenth", decision, more=rules.TENTH_MORE[1]),
        it.parts > 1 and not rules.tenth_holds(decision.of_knee()) and say("beyond_tenth", decision),
        *(healing.to_mind(it) if decision.heals() else []))


def way_out(decision):
    """What helps where the packet can't grow."""
    it = decision.study
    own = say("own_packets") if it.shares else ""
    enough = -(-rules.knee(it.all_nodes, it.keys, it.writes) // decision.whole_budget())
    product = it.knee_name.partition(" / ")[0]
    calls = say("calls" if enough <= cluster.FANOUT.most else "more_calls", enough=enough, product=product)
    return own + say("way_out", calls=calls)


def else_helps(decision):
    return say("else_helps", way_out=way_out(decision))


def limits(decision):
    """What of the digest and the packet limits the decision."""
    it, size, given, packet = decision.study, decision.study.told["digest"], decision.given(), decision.packet()
    numbers = it.digest_numbers(decision.mode)
    fits = it.told["shared"] == "yes" or it.digest_bytes(decision.mode) <= given
    largest = max(given, it.packet(decision.mode)) if decision.to_knee() else given
    in_one = say("in_one", packet=packet) if decision.suffices and packet <= rules.DATAGRAM < given else ""
    no_room = [mode for mode in scenario.MODES if it.rooms[mode] < 1]
    return sentences(
        not size and say("no_digest", numbers=numbers, bytes=numbers * SUPPOSED),
        size and not fits and say("several_packets", numbers=numbers, size=size, given=given),
        largest > rules.DATAGRAM and say("datagrams", datagram=rules.DATAGRAM, largest=largest, in_one=in_one),
        no_room and it.parts == 1 and not it.told["mode"] and say("no_room", modes=" and ".join(no_room)))


def of_calls(it):
    """Which way the numbers err by how many others a node calls in an interval."""
    if it.fanout == 1:
        return [say("latency", seconds=cluster.plain(it.seconds)), say("more_peers")]
    return [say("latency_of_calls", it, seconds=cluster.plain(float(f"{float(it.seconds):.2g}")))]


def left_out(decision):
    it, entry = decision.study, decision.study.told["entry"]
    waits = say("any_wait")
    if decision.suffices:
        holds_in = say("bound", decision.bound) if decision.bound else say("no_bound")
        waits = say("wait", wait=lasting(it, [decision.most_rounds()]), holds_in=holds_in)
    numbers, bytes_of_all = it.digest_numbers(decision.mode), it.digest_bytes(decision.mode)
    return sentences(
        *of_calls(it), waits, say("join"), it.in_bytes and say("sizes_in_bytes", largest=1023 / 523.5 * float(entry)),
        not it.in_bytes and say("sizes", entry=cluster.plain(entry)), it.shares and say("shared"),
        it.told["digest"] and not it.shares and say("on_top", numbers=numbers, bytes=bytes_of_all),
        not decision.suffices and ended(decision.tells_all()),
        not it.tells_all() and decision.heals() and it.leaves() and say(
            "generations" if it.told["restarts"] else "groups"))


def heads(decision):
    return [line for head, said in ((say("mind"), warnings(decision)), (say("too_close"), decision.too_close()),
                                    (say("not_looked_at"), left_out(decision))) if said
            for line in ("", f"{head}:", *(f"  - {one}" for one in said))]


def of_staleness(decision, more):
    """The lines of the worst staleness, with more names and words beside it, and of the floor."""
    rests_on = f": {decision.bound.rests_on()}" if decision.suffices and decision.bound else ""
    return rows(("worst staleness", f"{decision.staleness()}{rests_on}"), *more, (FLOOR, decision.above_floor()))


def in_words(decision, heals, missing=(), more=()):
    """The answer, line by line, with lines on what was not run, and more names and words beside the worst staleness."""
    it, in_mode = decision.study, "" if decision.suffices else f", in {decision.mode}"
    lines = [say("none_is_enough", decision)]
    if decision.suffices:
        lines = sentences(say("take", decision), ended(decision.tells_all()))
    lines += ["", *of_staleness(decision, more), *rows(
        ("more than that" if decision.more_is_worse() else "a reserve", decision.reserve()),
        (it.knee_name, decision.why_not_knee()),
        ("share cut", say("cut", cut=span(decision.cut, 2), in_mode=in_mode)))]
    if heals:
        lines += heals.lines(it.heals(), decision.budget)
        lines += rows(("with the reserve", heals.with_reserve(decision)))
    if not decision.suffices:
        lines += rows(("enough", decision.to_knee()))
    lines += ["", *missing] if missing else []
    return lines + heads(decision)
