"""A folder of runs of one scenario: locked while a sweep works in it, and never with a report that isn't whole.

It has the `scenario`, the check sum of the `program`, the `lock`, and for each run its scenario and, once that is
whole, its report and the check sums of both, as budget-600.mode-precise-oldest.toml, .csv and .sum. A run writes to a
name of its own, `.NAME.PROCESS.part`, and the one who holds the lock renames that. So nobody writes to a name that
counts.
"""
import contextlib
import os

from gossip_tools import files, read
from gossip_tools.commands import refuse_if
from gossip_tools.texts import speaker

say = speaker("folders")


def fields_of(name):
    """The fields in a run's name, as budget and mode in budget-600.mode-precise-oldest."""
    return tuple(part.partition("-")[0] for part in name.split("."))


class Folder:
    """A folder with the runs of a scenario, which are scenarios by name, by a program of this check sum."""

    def __init__(self, path, scenario, runs, program):
        self.path, self.scenario, self.runs, self.program = path, scenario, runs, f"{program}\n"
        self.lengths, self.changed = {name: read.length_of(text) for name, text in runs.items()}, set()

    @contextlib.contextmanager
    def held(self):
        """The folder, made ready for the runs, while no other process works in it."""
        self.look()
        with files.locked(self.path):
            # (another sweep may have come first)
            self.look()
            self.fill()
            yield self

    def look(self):
        """Refuses a folder with other things, or runs of another scenario, other fields or another program."""
        if not self.path.exists():
            return
        refuse_if(not self.path.is_dir(), say("no_folder", path=self.path))
        names, wanted = {it.name for it in self.path.iterdir()}, {fields_of(name) for name in self.runs}
        if "scenario" in names:
            refuse_if((self.path / "scenario").read_bytes() != self.scenario.encode(), say("another_scenario", self))
        else:
            refuse_if({it for it in names if not it.startswith(".scenario.")} - {"lock"}, say("no_runs", self))
        for name, dot, ending in (it.rpartition(".") for it in sorted(names)):
            refuse_if(dot and ending in ("toml", "csv", "sum") and "-" in name and fields_of(name) not in wanted,
                      say("other_fields", self, fields=", ".join(fields_of(name))))
        known = "program" in names and self.has_reports()
        refuse_if(known and (self.path / "program").read_bytes() != self.program.encode(), say("another_program", self))

    def has_reports(self):
        return any(self.path.glob("*.csv"))

    def unknown(self):
        """Sentences on what doesn't show of the reports: which program made them, and that they are as it made them."""
        if not self.has_reports() or (self.path / "program").exists():
            return []
        without = sum(not it.with_suffix(".sum").exists() for it in self.path.glob("*.csv"))
        return [say("no_program", self), *([read.told_without_sum(without, self.path)] if without else [])]

    def fill(self):
        """Fixes the scenario and those of the runs, and drops what ended sweeps have left half-written."""
        for it in self.path.glob(".*.part"):
            it.unlink()
        if not (self.path / "scenario").exists():
            files.put(self.path / "scenario", self.scenario)
        if not self.has_reports():
            files.put(self.path / "program", self.program)
        for name, text in self.runs.items():
            it = self.path / f"{name}.toml"
            if not it.exists() or it.read_bytes() != text.encode():
                self.changed.add(name)
                files.put(it, text)

    def lacks(self, name):
        """What the report of a run lacks, or nothing."""
        try:
            read.report(self.path / f"{name}.csv", *self.lengths[name])
        except read.NotWhole as why:
            return str(why)
        return say("was_another") if name in self.changed else ""

    def part(self, name):
        return files.part_of(self.path / f"{name}.csv")

    def keep(self, name):
        """Gives the report of a run its name. Answers what it lacks, and drops it, where it isn't whole."""
        part, report = self.part(name), self.path / f"{name}.csv"
        try:
            content = part.read_bytes()
            read.look_at(content, *self.lengths[name])
            # (in this order, as a report whose sum is another is made again)
            contents = {f"{name}.toml": self.runs[name].encode(), report.name: content}
            files.put(report.with_suffix(".sum"), files.check_sums(contents))
            os.replace(part, report)
            self.changed.discard(name)
        except read.NotWhole as why:
            return str(why)
        finally:
            part.unlink(missing_ok=True)
        return ""
