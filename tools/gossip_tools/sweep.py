"""Runs of one scenario with other values of its fields; the tool gossip_sweep."""
import contextlib
import errno
import os
import re
import shlex
import subprocess
import sys

from gossip_tools import commands, files, folders, running, scenario
from gossip_tools.commands import Refused, fault_of, folder_of, refuse_if, remark, shown, the_program, workers
from gossip_tools.progress import Progress
from gossip_tools.texts import speaker
from gossip_tools.words import tool

TOOL = tool("gossip_sweep")
say = speaker("sweep")
# Faults of files that are there again where the same command is given: something else has to be done first.
LASTING = {errno.EACCES, errno.EPERM, errno.EROFS, errno.EISDIR, errno.ENOTDIR, errno.ENOENT, errno.ELOOP,
           errno.ENAMETOOLONG}


def choices_of(words):
    choices = {}
    for word in words:
        more = "" if "=" in word else say("by_input", file=shlex.quote(shown(word)))
        more = say("options") if word.startswith("-") else more
        refuse_if(not re.fullmatch("[a-z_]+=[A-Za-z0-9_-]+(,[A-Za-z0-9_-]+)*", word),
                  say("no_field", word=shown(word), more=more))
        field, _, values = word.partition("=")
        refuse_if(field in choices, say("twice", what=f"the field {shown(field)}"))
        choices[field] = values.split(",")
    return choices if "mode" in choices else {**choices, "mode": list(scenario.MODES)}


def spread(text, choices, name=""):
    """The scenarios of all choices of values, by the names of their runs."""
    if not choices:
        return {name: text}
    (field, values), *rest = choices.items()
    runs = {}
    for value in values:
        more = spread(scenario.set_field(text, field, value), dict(rest), f"{name}{'.' if name else ''}{field}-{value}")
        twice = runs.keys() & more.keys()
        refuse_if(twice, say("twice", what=shown(min(twice, default=""))))
        runs |= more
    return runs


def given_scenario():
    if sys.stdin.isatty():
        remark(say("read_from_here"))
    with files.named("standard input"):
        return scenario.read(sys.stdin.buffer)


def check(runs, program):
    """Refuses, as the program does, where it accepts one of the scenarios not."""
    for name, text in runs.items():
        try:
            answer = subprocess.run([program, "check"], input=text.encode(), capture_output=True)
        except OSError as error:
            raise Refused(say("not_started", program=program, why=error.strerror)) from None
        if (answer.returncode, answer.stdout) != (0, b"ok\n"):
            told = answer.stderr.decode(errors="replace")
            ended = f" ({shown(running.reason(answer.returncode, told))})" if answer.returncode else ""
            is_answer = answer.returncode == 1 and told.startswith("fault ")
            refuse_if(not is_answer, say("another_program", program=program, ended=ended))
            sys.stderr.write(told)
            raise Refused(say("not_accepted", name=shown(name)), 1)


def make(folder, program, progress, hosts):
    for sentence in folder.unknown():
        remark(sentence)
    lacking = {name: lacks for name in folder.runs if (lacks := folder.lacks(name))}
    for name, lacks in lacking.items():
        if (folder.path / f"{name}.csv").exists():
            remark(say("again", name=name, lacks=lacks))
    progress.begin(folder.path.name, list(lacking), folder.runs.keys() - lacking.keys(), 1 if hosts else workers())
    try:
        if lacking and hosts:
            running.start(program, hosts)
            jobs = workers() if os.environ.get("JOBS") else None
            running.far(folder, list(lacking), program, hosts, jobs, progress.done)
        elif lacking:
            running.here(folder, list(lacking), program, workers(), progress.done)
    finally:
        progress.end()


def what_stands(folder):
    count = 0
    for name in folder.runs:
        # (a report that can't be read doesn't stand)
        with contextlib.suppress(OSError):
            count += not folder.lacks(name)
    return say("stands", folder, count=count, runs=len(folder.runs))


def carry_out(path, text, runs, program, progress, hosts):
    """Makes the reports of the runs that have none in the folder, or says what stands where that ends early."""
    folder = folders.Folder(path, text, runs, files.check_sum(program))
    try:
        with folder.held():
            make(folder, program, progress, hosts)
    except running.Stopped as stopped:
        why, status = say("stopped", by=stopped), stopped.status
    except running.Failed as failed:
        why, status = say("failed", why=failed), 1
    except OSError as error:
        error.filename = error.filename or path
        why, status = fault_of(error), 1
        if error.errno in LASTING:
            raise Refused(f"{why} {what_stands(folder)}." if os.path.isdir(path) else why, status) from None
    else:
        return
    raise Refused(say("goes_on", why=why.rstrip("."), stands=what_stands(folder)), status)


def main(words):
    path, words = folder_of(words, TOOL.folder)
    refuse_if(not words, commands.say("usage", TOOL))
    choices = choices_of(words)
    hosts = running.hosts()
    workers()
    program = the_program()
    running.Signals.listen()
    text = given_scenario()
    runs = spread(text, choices)
    check(runs, program)
    carry_out(path, text, runs, program, Progress({f"{path.name}/{name}": 1 for name in runs}), hosts)
    print(say("made", runs=len(runs), path=path))
