"""What scripts share: where the repository is, how their words are taken, the program that is tried, how a command is
run, the texts that crates/acceptance stores, the tally of trials and its last line."""
import argparse
import os
import re
import resource
import signal
import subprocess
import sys
import tempfile
from pathlib import Path

sys.dont_write_bytecode = True
TOP = Path(__file__).resolve().parent.parent
sys.path.insert(0, str(TOP / "tools"))
CRATES = TOP / "crates"
STORED = CRATES / "acceptance" / "data"
PROGRAM = os.path.abspath(os.environ.get("GOSSIP_BENCH", CRATES / "gossip_bench/out/gossip_bench"))
MOST_LETTERS = 2000  # of an outcome that are shown
OF_TRIALS = """
Each trial that fails has a line, and the last line is 'N passed, M failed'. Status: 0 where all hold, 1 where one
doesn't, 2 for other words, 3 where what is to be tried isn't there. Where the program or replay.py is tried, it is the
one that GOSSIP_BENCH or REPLAY names, if they are set.
"""
passed, failed = [], []


class Parser(argparse.ArgumentParser):
    """What takes the words of the script that has this text. What it refuses ends the script with status 2."""

    def __init__(self, text, more=""):
        super().__init__(prog=Path(sys.argv[0]).name, allow_abbrev=False)
        self.text = text + more

    def format_help(self):
        return self.text.lstrip()

    def error(self, message):
        self.exit(2, f"{self.prog}: {message}. {self.prog} --help says which words there are.\n")


def take_none(text):
    Parser(text, OF_TRIALS).parse_args()


def take_names(text, known):
    """The names that were told, of those that are known; all of them where none was."""
    parser = Parser(text, OF_TRIALS)
    parser.add_argument("names", nargs="*")
    names = parser.parse_args().names
    if unknown := [it for it in names if it not in known]:
        parser.error(f"{', '.join(unknown)}: the names are {', '.join(known)}")
    return names or known


def take_numbers(text, count, seed):
    """How many are drawn at random, and from which seed; these where none was told."""
    parser = Parser(text, OF_TRIALS)
    parser.add_argument("count", nargs="?", type=int, default=count)
    parser.add_argument("seed", nargs="?", type=int, default=seed)
    told = parser.parse_args()
    return told.count, told.seed


class Room(tempfile.TemporaryDirectory):
    """A folder that is there for the block of a with."""

    def __enter__(self):
        return Path(self.name)


class Text:
    """Equals each text, or bytes, that begins so, has these parts and, where that is told, so many lines."""

    def __init__(self, begin="", *parts, lines=None):
        self.told = begin, parts, lines

    def __eq__(self, found):
        begin, parts, lines = self.told
        text = found.decode(errors="replace") if isinstance(found, bytes) else found
        has_parts = isinstance(text, str) and text.startswith(begin) and all(it in text for it in parts)
        return has_parts and lines in (None, text.count("\n"))

    def __repr__(self):
        return f"Text{self.told}"


def ran(*command, given=b"", **how):
    """The status, standard output and standard error of a command with an input: bytes, a text or a file."""
    source = {"input": given} if isinstance(given, (bytes, str)) else {"stdin": given}
    streams = {"stdout": subprocess.PIPE, "stderr": subprocess.PIPE, "text": isinstance(given, str)}
    done = subprocess.run(command, **{**streams, **source, **how})
    return done.returncode, done.stdout, done.stderr


def small_files(most):
    """What has a process write no file above so many bytes, as a disk does that fills."""
    def limit():
        # (a write fails then, and the signal that comes with it doesn't end the process)
        signal.signal(signal.SIGXFSZ, signal.SIG_IGN)
        resource.setrlimit(resource.RLIMIT_FSIZE, (most, most))
    return limit


def text_of(name):
    """A text that trials go by, in which @x60@ stands for 60 times x."""
    text = (TOP / "scripts" / "texts" / name).read_text()
    return re.sub(r"@(.)(\d+)@", lambda mark: mark[1] * int(mark[2]), text)


def comparison_of(case):
    """The comparison of a case, or None: its report under each mode, if any is stored beside that under its own."""
    report = (STORED / f"{case}.report.csv").read_bytes()
    files = {mode: STORED / f"{case}.{mode}.csv" for mode in (STORED / "modes.txt").read_text().split()}
    if not any(file.exists() for file in files.values()):
        return None
    lines = [b"mode," + report.splitlines(keepends=True)[0]]
    for mode, file in files.items():
        rows = (file.read_bytes() if file.exists() else report).splitlines(keepends=True)[1:]
        lines += (mode.encode() + b"," + row for row in rows)
    return b"".join(lines)


def crates():
    lines = [it for it in (TOP / "crates.txt").read_text().splitlines() if it and not it.startswith("#")]
    return {name: below.split() for name, _, below in (it.partition(":") for it in lines)}


def holds(name, wanted, found):
    """Notes whether the outcome of a trial is the wanted one, and says so."""
    is_so = wanted == found
    (passed if is_so else failed).append(name)
    if not is_so:
        print(f"{name}: wanted {wanted!r:.{MOST_LETTERS}}, found {found!r:.{MOST_LETTERS}}", flush=True)
    return is_so


def all_hold(name, trials):
    """Notes whether the outcomes at all places are the wanted ones, or the first that isn't."""
    for place, wanted, found in trials:
        if wanted != found:
            break
    holds(f"{name}, at {place}", wanted, found)


def stop(why):
    """Ends the process with status 3, as what is to be tried isn't there."""
    print(f"{Path(sys.argv[0]).name}: {why}", file=sys.stderr)
    sys.exit(3)


def need_program(*others):
    for program in (PROGRAM, *others):
        if not os.access(program, os.X_OK):
            stop(f"no program at {program}. ./gossip_bench --help builds it.")


def end():
    """Prints the last line, 'N passed, M failed', and ends the process, with status 0 where nothing failed."""
    print(f"{len(passed)} passed, {len(failed)} failed", flush=True)
    sys.exit(1 if failed else 0)


def trials_of(names):
    """The functions `try_..` among the names of a module, in their order there."""
    return [it for name, it in names.items() if name.startswith("try_") and it.__module__ == names["__name__"]]


def try_each(names, needs_program=True):
    """Makes the trials that a script has, which takes no words, each in a room of its own."""
    take_none(names["__doc__"])
    if needs_program:
        need_program()
    for trial in trials_of(names):
        with Room() as room:
            trial(room)
    end()
