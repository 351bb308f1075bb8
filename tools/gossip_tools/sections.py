"""The tools gossip_restarts and gossip_apart, which print sections of a scenario."""
from gossip_tools import commands, scenario
from gossip_tools.commands import refuse_if
from gossip_tools.words import Word, tool

RESTARTS, APART = tool("gossip_restarts"), tool("gossip_apart")


def restarts(words):
    numbers, forget = [word for word in words if word != "forget" and "=" not in word], words.count("forget")
    texts = [word.partition("=")[::2] for word in words if "=" in word]
    are_known = len(dict(texts)) == len(texts) and dict(texts).keys() <= RESTARTS.named.keys()
    refuse_if(len(numbers) != len(RESTARTS.numbers) or forget > 1 or not are_known, commands.say("usage", RESTARTS))
    named = {name: RESTARTS.named[name].whole(text) for name, text in (RESTARTS.usual | dict(texts)).items()}
    placed = map(Word.whole, RESTARTS.numbers.values(), numbers)
    print(scenario.restarts(*placed, forget=bool(forget), **named), end="")


def apart(words):
    refuse_if(len(words) != len(APART.numbers), commands.say("usage", APART))
    print(scenario.partition(*map(Word.whole, APART.numbers.values(), words)), end="")
