"""How a tool answers its caller: help, refusals in one sentence, faults of files, and where the program is."""
import errno
import os
import pathlib
import re
import shutil
import signal
import sys

from gossip_tools import VERSION
from gossip_tools.texts import speaker

MOST_LETTERS = 60  # of a word that are told
say = speaker("commands")


class Refused(Exception):
    """What a tool can't do, in a sentence for its caller."""

    def __init__(self, why, status=2):
        super().__init__(why)
        self.status = status


def refuse_if(is_so, why, status=2):
    if is_so:
        raise Refused(why, status)


class Stopped(Exception):
    def __init__(self, number):
        super().__init__(signal.Signals(number).name)
        self.status = 128 + number


def shown(word):
    """A word of the caller as it is told in a line, the first letters of a long one."""
    word = word if word.isprintable() else repr(word)[1:-1]
    return word if len(word) <= MOST_LETTERS else f"{word[:MOST_LETTERS]}.."


def folder_of(words, usual):
    """The folder that a call names by -o, or the usual one, and the other words."""
    if "-o" not in words:
        return pathlib.Path(usual), words
    at = words.index("-o")
    named, others = words[at + 1:at + 2], words[:at] + words[at + 2:]
    refuse_if(not any(named) or "-o" in named + others, say("folder"))
    return pathlib.Path(*named), others


def the_program():
    """The path of gossip_bench: what GOSSIP_BENCH names, else the one beside the tools, else the built one."""
    beside, top = pathlib.Path(__file__).resolve().parents[1:3]
    named = os.environ.get("GOSSIP_BENCH")
    choices = [named] if named else [beside / "gossip_bench", top / "crates/gossip_bench/out/gossip_bench"]
    if found := next(filter(None, map(shutil.which, choices)), None):
        return os.path.abspath(found)
    refuse_if(named, say("no_program", named=shown(named or "")))
    refuse_if((top / "crates").is_dir(), say("not_built", builds=top / "gossip_bench"))
    raise Refused(say("not_beside", beside=beside))


def workers():
    """How many runs may go at once: JOBS, else as many as there are cores for this process."""
    told = os.environ.get("JOBS", "")
    refuse_if(told and not re.fullmatch("[1-9][0-9]{0,3}", told), say("jobs", told=shown(told)))
    return int(told or len(os.sched_getaffinity(0)))


def fault_of(error):
    place = str(error.filename or "the output")
    place = shown(place) if error.errno == errno.ENAMETOOLONG else place
    return f"{place}: {'it is closed' if error.errno == errno.EBADF else error.strerror}."


def remark(text):
    """Says something beside the answer, under the name of the tool."""
    print(f"{sys.argv[0]}: {text}", file=sys.stderr)


def answer(main, tool):
    name, *words = sys.argv
    if "--help" in words or "-h" in words:
        return print(tool.help())
    if "--version" in words:
        return print(name, VERSION)
    return main(words)


def run(main, tool):
    try:
        status = answer(main, tool) or 0
        sys.stdout.flush()
        return status
    except Refused as refused:
        why, status = str(refused), refused.status
    except Stopped as stopped:
        why, status = f"stopped by {stopped}.", stopped.status
    except KeyboardInterrupt:
        why, status = "stopped by SIGINT.", 128 + signal.SIGINT
    except BrokenPipeError:
        why, status = "nobody reads the output any more.", 1
    except OSError as error:
        why, status = fault_of(error), 1
    except MemoryError:
        why, status = "out of memory.", 1
    try:
        sys.stdout.flush()
    except OSError:
        # (what is still to be printed goes nowhere, so that the end of the process can't fail on it)
        os.dup2(os.open(os.devnull, os.O_WRONLY), 1)
    remark(why)
    return status
