"""Trials of gossip_scenario, gossip_restarts and gossip_apart."""
import tomllib

from tried.calls import gives, refuse, run
from shared import PROGRAM, holds, text_of


def try_fields(room):
    tables = tomllib.loads(text_of("scenarios.toml"))
    for case in tables["cases"]:
        words = case.pop("words")
        status, out, err = run(room, "gossip_scenario", *words.split())
        holds(f"gossip_scenario {words}", (0, tables["usual"] | case, ""), (status, tomllib.loads(out), err))


def try_what_is_printed(room):
    """Beside the fields it says what was given, and the program takes all of it."""
    _, said, _ = run(room, "gossip_scenario nodes=1000 keys=4 writes=1 entry=40.5 packet=60750 count=bytes")
    lines = "# 60750 bytes for a delta are 1500 entries of 40.5 bytes.\n", "# budget_bytes = 60750 / 40.5 * 523.5."
    holds("it is told as it was given", (True, True), tuple(it in said for it in lines))
    # (with three calls sixty intervals are 180 rounds)
    for more, rounds, loads in (("count=bytes", 60, 0), ("count=entries", 60, 0), ("fanout=3", 180, 60)):
        _, printed, _ = run(room, "gossip_scenario nodes=1000 keys=4 writes=1 entry=40 packet=64000 digest=20", more)
        holds(f"with {more} it is accepted", (f"rounds = {rounds}\n" in printed, loads, (0, "ok\n", "")),
              (True, printed.count("[[load]]"), run(room, PROGRAM, "check", text=printed)))


def restarts(down, *places, more=""):
    return "".join(f"[[restart]]\nnode = {node}\nround = {round}\ndown = {down}\n{more}" for node, round in places)


def try_sections(room):
    # (a second call goes on where the first one ended, and round 9 isn't among every third from 2 on)
    for words, wanted in (("3 2 4 5 2", restarts(2, (0, 4), (1, 4), (2, 5), (0, 5))),
                          ("3 1 4 5 0 forget", restarts(0, (0, 4), (1, 5), more="forget = true\n")),
                          ("3 1 2 9 1 first=2 every=3", restarts(1, (2, 2), (0, 5), (1, 8))),
                          ("4096 1 100000 100000 100000 first=4095", restarts(100000, (4095, 100000)))):
        gives(room, wanted, "gossip_restarts", *words.split())
    for words, first, last, apart in (("8 10 2 3", 2, 3, "8, 9, 10"), ("4095 4095 1 100000", 1, 100000, "4095")):
        gives(room, f"[[partition]]\nfrom = {first}\nto = {last}\napart = [\n    {apart},\n]\n", "gossip_apart",
              *words.split())
    _, printed, _ = run(room, "gossip_restarts 7 1 1 1000 0")
    holds("1000 restarts", 1000, printed.count("[[restart]]"))


def try_refusals(room):
    for script in ("gossip_scenario", "gossip_restarts", "gossip_apart"):
        refuse(room, script)
