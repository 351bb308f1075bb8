"""Parts of trials, each a command whose last line is 'N passed, M failed', with a table of what they came to."""
import os
import re
import subprocess
import sys
import threading
import time
from collections import namedtuple
from concurrent.futures import ThreadPoolExecutor

LAST_LINE = re.compile(r"(\d+) passed, (\d+) failed")


class Outcome(namedtuple("Outcome", "name passed failed took used")):
    """What came of a part, with its seconds on the clock and of processors."""

    def __str__(self):
        took, used = (f"{round(it) // 60:>3}:{round(it) % 60:02}" for it in (self.took, self.used))
        counts = f"{self.passed:>5} passed {self.failed:>3} failed"
        return f"{self.name:<33}{counts} {took} on the clock {used} of processor time"


def outcome_of(name, last, status, took, used):
    """What came of a part by its last line and status. One that says nothing is one trial, and one that ends in another
    way than by its last line has failed."""
    counts = LAST_LINE.fullmatch(last)
    passed, failed = map(int, counts.groups()) if counts else (0, 0)
    failed += bool(status and not failed)
    passed += not counts and not status
    return Outcome(name, passed, failed, took, used)


class Parts:
    def __init__(self, folder):
        self.folder, self.outcomes, self.printing = folder, [], threading.Lock()

    def run(self, name, *command, program=None, say=lambda line: print(line, flush=True)):
        """Makes a part, passes on what it says line by line, and says whether nothing failed. One that tries a program
        tries this one, whatever the caller's names of programs and hosts are."""
        say(f"== {name}")
        rest = {it: value for it, value in os.environ.items() if it not in ("HOSTS", "JOBS", "REPLAY")}
        environment = {**rest, "GOSSIP_BENCH": str(program)} if program else None
        began, last = time.monotonic(), ""
        with subprocess.Popen(command, cwd=self.folder, env=environment, text=True, errors="replace",
                              stdin=subprocess.DEVNULL, stdout=subprocess.PIPE) as process:
            for line in process.stdout:
                last = line.rstrip("\n")
                say(last)
            _, status, used = os.wait4(process.pid, 0)
            process.returncode = os.waitstatus_to_exitcode(status)
        outcome = outcome_of(name, last, process.returncode, time.monotonic() - began, used.ru_utime + used.ru_stime)
        self.outcomes.append(outcome)
        return not outcome.failed

    def run_side_by_side(self, parts, program, lanes):
        """Makes parts, each a name and a command, and prints of each what it said once it is done."""
        def run(name, command):
            said = []
            self.run(name, *command, program=program, say=said.append)
            with self.printing:
                print(*said, sep="\n", flush=True)

        with ThreadPoolExecutor(lanes) as pool:
            # (what a part raises is raised here)
            list(pool.map(run, parts, parts.values()))

    def close(self):
        passed, failed = (sum(getattr(it, name) for it in self.outcomes) for name in ("passed", "failed"))
        print("==", *self.outcomes, f"{passed} passed, {failed} failed", sep="\n", flush=True)
        sys.exit(1 if failed else 0)
