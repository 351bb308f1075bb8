"""Reports and what they say of some rounds; the tool gossip_read."""
import functools
import pathlib
import re
import tomllib

from gossip_tools import files, scenario
from gossip_tools.commands import Refused, folder_of, refuse_if, remark, shown
from gossip_tools.texts import speaker
from gossip_tools.words import tool

OF_FORMAT_1 = ["round", "exchanges", "unreached", "lost", "entries", "cut", "stale", "greatest"]
READ = tool("gossip_read")
say = speaker("read")
COLUMNS = {1: OF_FORMAT_1, 2: [*OF_FORMAT_1, "leftover"]}  # by the format


class NotWhole(Exception):
    """What a report lacks."""

    @classmethod
    def where(cls, is_so, why, **values):
        if is_so:
            raise cls(say(why, **values))


def settings(text):
    """The fields of a scenario that the program takes."""
    try:
        return tomllib.loads(text.removeprefix("\ufeff"))
    except tomllib.TOMLDecodeError as error:
        raise Refused(say("not_toml", error=error)) from None


@functools.lru_cache(maxsize=1024)
def length_of(text):
    """The format and the rounds of a scenario, each None where it has none. Steps that go on ask for it again."""
    top = settings(text)
    return top.get("format"), top.get("rounds")


def look_at(content, form, rounds):
    """Looks whether a report is that of a scenario of this format with so many rounds."""
    NotWhole.where(not content, "empty")
    NotWhole.where(not content.isascii(), "other_bytes")
    header, (first, _, rest) = COLUMNS[form], content.decode().partition("\n")
    *lines, last = rest.split("\n")
    NotWhole.where(first.split(",") != header, "header")
    NotWhole.where(len(lines) < rounds, "short", lines=len(lines), rounds=rounds)
    NotWhole.where(len(lines) > rounds or last, "long", rounds=rounds)
    line = re.compile(",".join(["[0-9]{1,18}"] * len(header)))
    wrong = (at for at, it in enumerate(lines, 1) if not line.fullmatch(it) or int(it.partition(",")[0]) != at)
    NotWhole.where(at := next(wrong, 0), "line", round=at)


def rows_of(content, form):
    """The rows of a report that is whole, in numbers."""
    return [dict(zip(COLUMNS[form], map(int, it.split(",")))) for it in content.decode().splitlines()[1:]]


def report(path, form, rounds):
    """A report in a folder, which is whole. Its scenario's check sum and its own stand beside it, but in folders of the
    first versions, which lack that of the program too."""
    try:
        content = path.read_bytes()
    except FileNotFoundError:
        raise NotWhole(say("not_there")) from None
    look_at(content, form, rounds)
    beside = path.with_suffix(".sum")
    if beside.exists():
        scenario = path.with_suffix(".toml")
        contents = {scenario.name: scenario.read_bytes(), path.name: content}
        compare(beside.name, beside.read_bytes(), files.check_sums(contents).encode())
    NotWhole.where(not beside.exists() and path.with_name("program").exists(), "no_sum", name=beside.name)
    return content


def compare(name, there, wanted):
    """Says what is another of the check sums that a file has, of a scenario and its report."""
    is_older = re.fullmatch(rb"[0-9]+ [0-9a-f]{64}\n", there)
    NotWhole.where(is_older, "older_sum", name=name)
    NotWhole.where(there.splitlines()[:1] != wanted.splitlines()[:1], "another_sum", whose="its scenario's", name=name)
    NotWhole.where(there != wanted, "another_sum", whose="its", name=name)


class Runs:
    """The runs of a folder, or those alone whose values are wanted: their fields, the rows of each by the values of its
    fields, how many have no check sum, and what others lack."""

    def __init__(self, folder, wanted=None):
        self.fields, self.rows, self.missing, self.without_sum = None, {}, {}, 0
        form = None
        for file in sorted(folder.glob("*-*.toml")):
            names, _, values = zip(*(part.partition("-") for part in file.stem.split(".")))
            self.fields = self.fields or names
            refuse_if(names != self.fields, say("fields", folder=folder))
            if wanted is not None and values not in wanted:
                continue
            with open(file, "rb") as text:
                its_form, rounds = length_of(scenario.read(text, file))
            refuse_if(its_form not in scenario.FORMATS or rounds is None, say("no_scenario", file=file))
            refuse_if(its_form != (form := form or its_form), say("formats", folder=folder))
            try:
                self.rows[values] = rows_of(report(file.with_suffix(".csv"), form, rounds), form)
                self.without_sum += not file.with_suffix(".sum").exists()
            except NotWhole as why:
                self.missing[file.stem] = str(why)
        others = "" if self.fields else ", ".join(sorted({it.parent.name for it in folder.glob("*/*-*.toml")}))
        there = "no_folder" if folder.exists() else "nowhere"
        why = there if not folder.is_dir() else "no_runs_but" if others else "no_runs"
        refuse_if(not self.fields, say(why, folder=folder, others=others))

    def what_is_missing(self):
        said = [f"{name} ({why})" for name, why in self.missing.items()]
        said[5:] = [f"{len(said) - 5} more"] if len(said) > 5 else []
        count, runs = len(self.missing), len(self.missing) + len(self.rows)
        return say("are_missing", count=count, runs=runs, said=", ".join(said))


def told_without_sum(count, folder):
    """A sentence on the reports that nothing shows to be as they were made."""
    return say("one_without_sum" if count == 1 else "without_sum", folder=folder, count=count)


def place(values):
    modes = scenario.MODES
    return [(modes.index(it),) if it in modes else (int(it), "") if it.isdigit() else (0, it) for it in values]


def percent_cut(rows):
    """What was cut, in per cent of all that was lacking: that is what was cut and what was sent."""
    cut, sent = (sum(row[name] for row in rows) for name in ("cut", "entries"))
    return 100 * cut / (cut + sent or 1)


def between(rows, first, last):
    return rows[first - 1:last]


def window(rows, first, last):
    rows = between(rows, first, last)
    return {"percent_cut": f"{percent_cut(rows):.2f}"} | {
        f"{name}_{which}": of(row[name] for row in rows) for name in ("greatest", "stale", "leftover")
        if name in rows[0] for which, of in (("least", min), ("most", max))}


def first_at_most(name, rows, first, most):
    return next((row["round"] for row in rows[first - 1:] if row[name] <= most), None)


def level(name, rows, first, most):
    found = first_at_most(name, rows, first, most)
    return {"round": found or "never", "took": found - first + 1 if found else "never"}


def span(values):
    """From the least to the most, where `never` is more than all numbers."""
    least, *_, most = sorted([*values, *values], key=lambda it: (it == "never", it == "never" or float(it)))
    return least if least == most else f"{least} to {most}"


def grouped(pairs):
    """The values of each key, in their order."""
    found = {}
    for key, value in pairs:
        found.setdefault(key, []).append(value)
    return found


def over_seeds(fields, found):
    """The runs that differ in their seed alone as one, by the values of the other fields."""
    at = fields.index("seed")
    alike = grouped((values[:at] + values[at + 1:], columns) for values, columns in found.items())
    spans = {values: {name: span([it[name] for it in each]) for name in each[0]} for values, each in alike.items()}
    return fields[:at] + fields[at + 1:], spans


def figures(runs, folder, what, first, second):
    """What is asked of each run, by the values of its fields."""
    found, last = {}, second if what == "window" else first
    for values in sorted(runs.rows, key=place):
        rows = runs.rows[values]
        refuse_if(not 1 <= first <= last <= len(rows), say("no_rounds", first=first, last=last, rounds=len(rows)))
        refuse_if(what == "leftover" and what not in rows[0], say("no_leftover", folder=folder))
        found[values] = window(rows, first, last) if what == "window" else \
            level("greatest" if what == "level" else what, rows, first, second)
    return found


def main(words):
    partial, seeds = "--partial" in words, "--seeds" in words
    words = [word for word in words if word not in READ.options]
    is_named = "-o" in words
    folder, words = folder_of(words, READ.folder)
    for word in words:
        refuse_if(re.match("-[^0-9]", word), say("no_option", word=shown(word)))
    if len(words) == 4 and not is_named:
        folder, words = pathlib.Path(words[3]), words[:3]
    refuse_if(len(words) != 3 or words[0] not in [it.name for it in READ.words], say("usage"))
    what, first = words[0], READ.numbers["FROM"].whole(words[1])
    second = READ.numbers["TO" if what == "window" else "LEVEL"].whole(words[2])
    runs = Runs(folder)
    refuse_if(seeds and "seed" not in runs.fields, say("no_seed", folder=folder))
    refuse_if(runs.missing and not (partial and runs.rows), say("missing", runs))
    if runs.missing:
        remark(runs.what_is_missing())
    if runs.without_sum:
        remark(told_without_sum(runs.without_sum, folder))
    fields, found = runs.fields, figures(runs, folder, what, first, second)
    if seeds:
        fields, found = over_seeds(fields, found)
    print(*fields, *next(iter(found.values())), sep=",")
    for values, columns in found.items():
        print(*values, *columns.values(), sep=",")
