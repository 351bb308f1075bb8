"""The words of a tool, which words.toml declares once: its calls are read by them, and its help, its page for man and
the completion of its words are made of them."""
import functools
import re
import textwrap
from typing import NamedTuple

from gossip_tools.commands import Refused, refuse_if, shown
from gossip_tools.scenario import LIMITS, WORDS
from gossip_tools.texts import speaker, table_of

WIDTH = 120
MOST_DIGITS = 18
say = speaker("words")


class Word(NamedTuple):
    """A word of a call, of NAME=VALUE the name, or a variable that the call goes by; as words.toml has it."""
    name: str
    line: str = ""
    kind: str | list = ""  # of a value; empty of another word
    unit: str = ""
    default: str | None = None
    least: float = 0
    most: float | None = None
    also: str = ""
    unless: str = ""
    times: str = ""

    @property
    def text(self):
        return self.line.format(default=self.default, least=self.least, most=self.most)

    @property
    def values(self):
        """Those that are known, of NAME=VALUE; None of another word."""
        return (WORDS.get(self.kind, ()) if isinstance(self.kind, str) else self.kind) if self.kind else None

    def whole(self, text):
        """The whole number that a text has, from the least to the most, where there is a most."""
        is_whole = re.fullmatch("[0-9]+", text)
        refuse_if(is_whole and len(text) > MOST_DIGITS, say("digits", self, most=MOST_DIGITS, text=shown(text)))
        if not is_whole or int(text) < self.least or self.most is not None and int(text) > self.most:
            to = "on" if self.most is None else f"to {self.most}"
            raise Refused(say("whole", self, to=to, text=shown(text)))
        return int(text)


class Tool(NamedTuple):
    """What is said of a tool: its calls, and parts, each a paragraph or the words that are explained there."""
    calls: list
    parts: list
    options: list = ()  # each with what comes after it, as "-o FOLDER"
    folder: str = ""
    example: str = ""
    numbers: dict = {}

    @property
    def words(self):
        return [word for part in self.parts if not isinstance(part, str) for word in part]

    @property
    def named(self):
        """The words that take a value, by their names."""
        return {it.name: it for it in self.words if it.kind}

    @property
    def usual(self):
        """The texts that they have where they aren't given, None for none."""
        return {name: it.default or None for name, it in self.named.items()}

    def help(self):
        width = max((len(it.name) for it in self.words), default=0) + 4
        blocks = ["\n".join(self.calls)]
        for part in self.parts:
            rows = [("", part)] if isinstance(part, str) else [(f"  {it.name}".ljust(width), it.text) for it in part]
            blocks.append("\n".join(filled(text, name, " " * len(name)) for name, text in rows))
        return "\n\n".join(blocks)

    def given(self, words, more):
        """The texts of NAME=VALUE by their names, as they were given; `more` is what is said of a word that is none."""
        given, named = {}, self.named
        also = {it.also: name for name, it in named.items() if it.also}
        for word in words:
            name, sign, text = word.partition("=")
            name = also.get(name, name)
            if sign and name in given:
                raise Refused(say("twice", name=name, text=shown(given[name]), word=shown(word)))
            if not sign or name not in named:
                raise Refused(say("unknown", word=shown(word), names=", ".join(named)) + more(word, name))
            given[name] = text
        for name, it in named.items():
            refuse_if(it.default is None and not {name, it.unless} & given.keys(), say("missing", self, name=name))
        return given


def word(name, told, shared):
    it = shared.get(name, {}) | ({"line": told} if isinstance(told, str) else told)
    least, most = LIMITS.get(it.pop("of", ""), (0, None))
    return Word(name, **{"least": least, "most": most} | it)


@functools.cache
def tool(name):
    declared = table_of("words.toml")
    it, shared = declared[name], declared["shared"]
    folder, numbers = it.get("folder", ""), it.get("numbers", {})
    parts = [part["text"].format(folder=folder) if "text" in part else [word(*pair, shared) for pair in part.items()]
             for part in it["parts"]]
    return Tool(it["calls"], parts, ["-o FOLDER"] * bool(folder) + it.get("options", []), folder, it.get("example", ""),
                {name: word(name, told, {}) for name, told in numbers.items()})


def filled(text, first="", behind=""):
    return textwrap.fill(" ".join(text.split()), WIDTH, initial_indent=first, subsequent_indent=behind,
                         break_long_words=False, break_on_hyphens=False)
