"""The pages for man: of the program from its help, and of each tool from what it declares."""
import re
import textwrap

import installed
from installed import PROGRAM, said

MOST_IN_SHORT = 80
IN_SHORT = "simulates anti-entropy gossip in a cluster, and compares modes and budgets"
NEXT = ".br\n"  # what begins a line


class Help:
    """What the program says of itself: its commands, each with its options."""

    def __init__(self, program):
        self.about, rest = said(program, "--help").split("\n\n", 1)
        self.example = re.search(r"^Example: (.*)$", rest, re.MULTILINE)[1]
        rows = re.search(r"^Commands:\n((?:  .*\n)+)", rest, re.MULTILINE)[1]
        self.commands = {name: (text, self.options(program, name))
                         for name, text in re.findall(r"^  (\S+) +(.*)$", rows, re.MULTILINE)}

    @staticmethod
    def options(program, command):
        """The options of a command, as (short, long, what comes after it, text)."""
        row = re.compile(r"^ +(?:(-\w), )?(--[\w-]+)(?: (<\w+>))? +(.*)$", re.MULTILINE)
        return row.findall(said(program, command, "--help"))


def escaped(text):
    return re.sub(r"^([.'])", r"\\&\1", text.replace("\\", r"\e").replace("-", r"\-"), flags=re.MULTILINE)


def filled(text):
    lines = textwrap.wrap(escaped(" ".join(text.split())), 78, break_long_words=False, break_on_hyphens=False)
    return "".join(re.sub("^([.'])", r"\\&\1", line) + "\n" for line in lines)


def head(name, short, package):
    return (f'.TH {name.upper()} 1 "" "{package}" "gossip_bench"\n'
            f".nh\n.ad l\n.SH NAME\n{filled(f'{name} - {short}')}")


def page_of_program(told, package, documents, which):
    """The page of the program, from its help. The last text says which program it is, as it has no option for that."""
    calls = []
    for name, (_, options) in told.commands.items():
        words = "".join(f"[\\fB{escaped(it)}\\fR {after}] " for _, it, after, _ in options if it != "--help")
        calls.append(f".B {PROGRAM} {name}\n{words}< SCENARIO\n")
    text = f"{head(PROGRAM, IN_SHORT, package)}.SH SYNOPSIS\n{NEXT.join(calls)}"
    text += f".SH DESCRIPTION\n{filled(told.about)}.SH COMMANDS\n"
    for name, (what, options) in told.commands.items():
        text += f".SS {name}\n{filled(f'{what}.')}"
        for short, long, after, what in options:
            names = ", ".join(rf"\fB{escaped(it)}\fR" for it in (short, long) if it)
            text += f".TP\n{names} {after}".rstrip() + f"\n{filled(f'{what}.')}"
    text += f".SH EXAMPLE\n.nf\n{escaped(told.example)}\n.fi\n.SH FILES\n"
    text += filled(f"The pages and the examples are in the folder {documents} of the package. docs/guide.md is for "
                   "those who run a cluster, docs/formats.md has the scenario, the report, the faults and the "
                   "statuses.") + f".SH VERSION\n{filled(which)}"
    others = ", ".join(rf"\fB{escaped(it)}\fR(1)" for it in installed.commands())
    return text + f".SH SEE ALSO\n{others}\n".replace(", ", ",\n")


def page_of_tool(name, tool, package):
    short = re.split(r"[.:]\s", " ".join(tool.parts[0].split()))[0]
    if len(short) > MOST_IN_SHORT:
        short = short[:MOST_IN_SHORT].rpartition(",")[0]
    calls = [it.partition(" ") for it in tool.calls]
    text = f"{head(name, short[:1].lower() + short[1:], package)}.SH SYNOPSIS\n"
    text += NEXT.join(f".B {escaped(it)}\n{filled(words)}" for it, _, words in calls) + ".SH DESCRIPTION\n"
    for part in tool.parts:
        text += f".PP\n{filled(part)}" if isinstance(part, str) else "".join(
            f".TP\n\\fB{escaped(it.name)}\\fR\n{filled(it.text)}" for it in part)
    return f"{text}.SH SEE ALSO\n\\fB{escaped(PROGRAM)}\\fR(1)\n"
