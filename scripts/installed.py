"""What is installed beside the program: the one list that scripts/install and scripts/package go by."""
import os
import re
import subprocess
import sys
from pathlib import Path

from shared import TOP
from gossip_tools import starting
from gossip_tools.words import Tool

TOOLS = TOP / "tools"
TEXTS = TOP / "scripts" / "texts"
PROGRAM, REPLAY = "gossip_bench", "gossip_replay"


class Missing(Exception):
    """What isn't there to be installed, in a sentence."""


def made(folder):
    try:
        folder.mkdir(parents=True, exist_ok=True)
    except OSError as error:
        why = "isn't a folder" if folder.exists() else f"can't be made: {error.strerror}"
        raise Missing(f"{folder} {why}.") from None
    return folder


def commands():
    named = {it.name: it for it in sorted(TOOLS.glob("gossip_*")) if it.is_file()}
    return {**named, REPLAY: TOOLS / "replay.py"}


def said(*command):
    """What a command prints, or None where it isn't there or fails."""
    try:
        done = subprocess.run(command, capture_output=True, text=True)
    except OSError:
        return None
    return done.stdout if done.returncode == 0 else None


def tools():
    """What the tools declare of their words. Of replay.py, which stands alone, its help says it."""
    text = said(sys.executable, TOOLS / "replay.py", "--help").replace("replay.py", REPLAY)
    calls, *parts = text.rstrip().split("\n\n")
    options = [it.split()[1] for it in calls.splitlines()] + re.findall(r"\[(--\w+ FILE)\]", calls)
    declared = {name: starting.tool_of(name)[1] for name in starting.TOOLS}
    return {**declared, REPLAY: Tool(calls.splitlines(), parts, options)}


def beside(program):
    modules = {it.relative_to(TOOLS).as_posix(): it for it in sorted(TOOLS.glob("gossip_tools/*.*"))}
    return {PROGRAM: program, **commands(), **modules}


def starts(program, **variables):
    """What the program says of itself, or why it doesn't start."""
    done = subprocess.run([program, "--help"], capture_output=True, text=True, env={**os.environ, **variables})
    return done.stdout if done.returncode == 0 else None, done.stderr.strip()


def the_program():
    """The program of GOSSIP_BENCH, else the built one, which is built first where it has to be."""
    program = os.environ.get("GOSSIP_BENCH")
    if not program:
        if subprocess.run([TOP / PROGRAM, "--help"], stdout=subprocess.DEVNULL).returncode:
            raise Missing("the program isn't built.")
        program = TOP / "crates" / PROGRAM / "out" / PROGRAM
    program = Path(program).absolute()
    if not os.access(program, os.X_OK) or program.is_dir():
        raise Missing(f"there is no program at {program}.")
    said, why = starts(program)
    if said is None:
        raise Missing(f"{program} doesn't run here: {why}")
    return program


def needs_newer(program):
    """Whether it doesn't start where the loader hides AVX2."""
    return starts(program, GLIBC_TUNABLES="glibc.cpu.hwcaps=-AVX2")[0] is None


def text_with(name, told):
    """A text of scripts/texts with what is told in place of its marks, each line of that indented as the mark is."""
    return re.sub(r"( *)@(\w+)@", lambda mark: re.sub("(?m)^", mark[1], told[mark[2]]), (TEXTS / name).read_text())


def ends(main):
    """Calls what a script does, which has status 2 where something is missing, and a line that says so."""
    try:
        main()
    except Missing as why:
        print(f"{Path(sys.argv[0]).name}: {why}", file=sys.stderr)
        sys.exit(2)
