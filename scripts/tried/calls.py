"""Calls of the tools in a room of their own, and what has to come of them."""
import os
import pathlib
import shlex
import subprocess
import tempfile
import time

from shared import PROGRAM, TOP, Text, holds, text_of

GUIDE = TOP / "examples" / "guide"
TOOLS = TOP / "tools"
SMALL = TOP / "crates" / "acceptance" / "data" / "small"
HEADER = "round,exchanges,unreached,lost,entries,cut,stale,greatest\n"
# The case "comparison of the modes" of docs/formats.md, whose rows stand there, with fields in other forms.
COMPARED = (SMALL / "comparison_of_the_modes.toml").read_text().replace(
    'mode = "scuttle-breadth"\nbudget = 1', "mode = 'precise-oldest'\nbudget=2")
# What a program says that was built for newer processors.
LACKING = '#!/bin/sh\necho "this machine lacks a feature" >&2\nexit 127\n'


def words_of(call):
    """What is called, with its first words: a tool or a script of the guide by its name, or anything else."""
    script, *words = call.split() if str(call).startswith(("gossip_", "replay.py", "check_trace.py")) else [call]
    found = (GUIDE if script == "check_trace.py" else TOOLS) / script
    return found if found.is_file() else script, *words


def started(room, call, *words, text=COMPARED, given=None, out=subprocess.PIPE, err=subprocess.PIPE, before=None,
            **variables):
    """A script that runs in a room of its own, with its input: a text, that case if none is told, or a file."""
    environment = {**os.environ, "GOSSIP_BENCH": PROGRAM, "JOBS": "2", **variables}
    with tempfile.TemporaryFile("w+") as source:
        source.write(text)
        source.seek(0)
        return subprocess.Popen([*words_of(call), *words], stdin=given or source, stdout=out, stderr=err, text=True,
                                cwd=room, env=environment, preexec_fn=before)


def run(room, *call, **how):
    """The status, standard output and standard error of a script, run in a room of its own."""
    with started(room, *call, **how) as process:
        out, err = process.communicate(timeout=300)
    return process.returncode, out, err


def stopped(process, number):
    process.send_signal(number)
    out, err = process.communicate(timeout=60)
    return process.returncode, out, err


def gives(room, wanted, *call, **how):
    holds(" ".join(call), (0, wanted, ""), run(room, *call, **how))


def tells(name, text, *parts):
    holds(name, [], [it for it in parts if it not in text])


def refuses(room, why, *call, **how):
    """The script ends with status 2, prints nothing, and says why in one line."""
    holds(f"{' '.join(call)}: {why}", (2, "", Text(call[0].split()[0], why, lines=1)), run(room, *call, **how))


def refuse(room, script):
    """All that texts/refused.txt has of a script."""
    for line in text_of("refused.txt").splitlines():
        call, _, why = line.partition("-> ")
        if line.startswith(f"{script} "):
            refuses(room, why, *shlex.split(call))


def times_of(folder, pattern):
    return {it: it.stat().st_mtime_ns for it in folder.glob(pattern)}


def written(file, text):
    file.parent.mkdir(exist_ok=True)
    file.write_text(text)
    file.chmod(0o755)


def fails(room, why, status, *call, **how):
    """The script ends with this status, prints nothing, and says why in its last line."""
    ended, out, err = run(room, *call, **how)
    holds(f"{' '.join(call)}: {why}", (status, "", Text(call[0].split()[0], why), False),
          (ended, out or "", "".join(err.splitlines()[-1:]), "Traceback" in err))


def program_that(room, name, body):
    """A program in a shell's words, which starts and checks a scenario as the program does."""
    written(room / name, f'#!/bin/sh\n[ "$1" = run ] || exec "{PROGRAM}" "$@"\n{body}\n')
    return f"./{name}"


def is_running(pid):
    """Whether a process is there, and not only its status, which nobody has asked for yet."""
    try:
        return pathlib.Path(f"/proc/{pid}/stat").read_text().rpartition(")")[2].split()[0] != "Z"
    except FileNotFoundError:
        return False


def takes_signal(pid, number):
    """Whether a process has a handler of its own for a signal."""
    caught = pathlib.Path(f"/proc/{pid}/status").read_text().partition("SigCgt:")[2].split()[0]
    return bool(int(caught, 16) >> (number - 1) & 1)


def waits_for(condition, seconds=20):
    until = time.monotonic() + seconds
    while not condition():
        if time.monotonic() > until:
            return False
        time.sleep(0.02)
    return True
