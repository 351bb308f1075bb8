#!/usr/bin/env -S python3 -S
"""check_trace.py REPORT TRACE

Works out from a trace what the report of the same run says of each round, but for the columns that don't follow from a
trace. Prints how many rounds agree, or the first that doesn't, with status 1. An implementation is held against the
bench in the same way, by lines of its own in place of one of the two.
"""
import _signal
import sys

# (Ctrl-C ends it without a word, also while it loads. So signal.py isn't waited for, nor site, by -S above.)
if _signal.getsignal(_signal.SIGINT) is _signal.default_int_handler:
    _signal.signal(_signal.SIGINT, _signal.SIG_DFL)

import contextlib
import csv
import errno
import os

COLUMNS = ["exchanges", "lost", "entries", "cut"]


class Refused(Exception):
    """Why nothing can be said of the two."""


def rows(path, column):
    """The rows of a CSV file that has this column."""
    try:
        with open(path, newline="") as file:
            lines = csv.DictReader(file)
            if column not in (lines.fieldnames or []):
                raise Refused(f"{path} has no column {column}.")
            return list(lines)
    except (OSError, UnicodeDecodeError, csv.Error):
        raise Refused(f"{path} can't be read.") from None


def compare(report, trace):
    """The status, and what is to be said."""
    try:
        told = {it["round"]: [int(it[name]) for name in COLUMNS] for it in report}
        found = {number: [0, 0, 0, 0] for number in told}
        for it in trace:
            sent, cut = int(it["back"]) + int(it["forth"]), int(it["back_cut"]) + int(it["forth_cut"])
            before = found.setdefault(it["round"], [0, 0, 0, 0])
            found[it["round"]] = [a + b for a, b in zip(before, (1, it["fate"] != "ok", sent, cut))]
    except (KeyError, TypeError, ValueError):
        raise Refused("a line isn't whole.") from None
    for number, it in found.items():
        if told.get(number) != it:
            return 1, f"round {number}, {', '.join(COLUMNS)}: the report {told.get(number)}, the trace {it}"
    return 0, f"{len(told)} rounds agree"


def main(words):
    if "--help" in words:
        return 0, __doc__
    if len(words) != 2:
        raise Refused("usage: check_trace.py REPORT TRACE")
    return compare(rows(words[0], "greatest"), rows(words[1], "forth_cut"))


why = ""
try:
    status, said = main(sys.argv[1:])
    # (past Python's own streams, which it lacks where one is closed, and would write to again at the end)
    os.write(1, f"{said}\n".encode())
except Refused as refused:
    status, why = 2, str(refused)
except BrokenPipeError:
    status, why = 2, "nobody reads the output any more."
except OSError as error:
    reason = "it is closed" if error.errno == errno.EBADF else error.strerror
    status, why = 2, f"the output can't be written: {reason}."
if why:
    with contextlib.suppress(OSError):
        os.write(2, f"check_trace.py: {why}\n".encode(errors="backslashreplace"))
sys.exit(status)
