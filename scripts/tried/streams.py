"""Trials of all tools with streams that are closed or full, with full disks, and with Ctrl-C while they load."""
import itertools
import os
import pathlib
import pty
import re
import signal

import installed
from tried.calls import GUIDE, SMALL, TOOLS, fails, gives, program_that, run, started, stopped, waits_for, written
from shared import PROGRAM, Text, holds, small_files

INPUT, OUTPUT, ERROR = range(3)
TEXTS = (str(SMALL / "two_nodes.report.csv"), str(SMALL / "two_nodes.trace.csv"))
LARGE = "nodes=300 keys=4 writes=1 entry=40 packet=60000"
CLUSTER = ("nodes=8", "keys=1", "writes=1", "entry=40", "packet=4000", "split=0", "restarts=0")
CALLS = {
    "gossip_sweep": ("budget=1",), "gossip_read": ("window", "1", "2", "runs"), "gossip_scenario": CLUSTER[:5],
    "gossip_advise": ("-o", "advice", *CLUSTER), "gossip_restarts": ("3", "1", "1", "1", "0"),
    "gossip_apart": ("1", "2", "3", "4"), "replay.py": ("run", "--trace", "trace.csv", "--tables", "tables.csv"),
    "check_trace.py": TEXTS,
}
# All that are called as programs, with a module of Python's own that they load.
LOADED = {**dict.fromkeys(installed.commands().values(), "fractions"), TOOLS / "replay.py": "tomllib",
          GUIDE / "check_trace.py": "csv"}
SUBSETS = [closed for count in (1, 2, 3) for closed in itertools.combinations((INPUT, OUTPUT, ERROR), count)]


def files_of(room):
    return {str(it.relative_to(room)): it.read_bytes() for it in sorted(room.rglob("*"))
            if it.is_file() and it.name != "lock"}


def try_closed_streams(room):
    """A tool whose stream is closed says so in a sentence where it can, and ends with another status than 0, but where
    it has nothing to read or to print there. No file gets what was meant for a stream."""
    for script, words in (*CALLS.items(), *((it, ("--help",)) for it in LOADED)):
        _, printed, _ = run(room, script, *words)
        kept, name = files_of(room), pathlib.Path(script).name
        for closed in SUBSETS:
            status, out, err = run(room, script, *words, before=lambda: [*map(os.close, closed)])
            fails = OUTPUT in closed or INPUT in closed and script in ("gossip_sweep", "replay.py")
            says_why = re.search(rf"^{name}: .*it is closed\.\n\Z", err, re.MULTILINE) and "Traceback" not in err
            holds(f"{name} {words} with {closed} closed",
                  (fails, "" if fails else printed, fails and ERROR not in closed), (bool(status), out, bool(says_why)))
            # (each file is a beginning of what it was)
            wrong = [it for it, text in files_of(room).items() if not kept.get(it, b"").startswith(text)]
            holds(f"the files of {name} with {closed} closed", [], wrong)


def try_folders(room):
    folder = os.open(room, os.O_RDONLY)
    for tool in installed.commands().values():
        holds(f"{tool.name} on a folder", (1, "", f"{tool.name}: standard input: Is a directory.\n"),
              run(room, tool, *CALLS.get(tool.name, ()), given=folder))
    os.close(folder)


def try_full_errors(room):
    """What can't be said on standard error ends no work, and changes no status."""
    run(room, "gossip_sweep budget=1")
    kept = files_of(room)
    report = next(room.glob("runs/*.csv"))
    report.write_bytes(b"")
    with open("/dev/full", "w") as full:
        holds("a report is made again", (0, "4 runs in runs\n", kept), (
            *run(room, "gossip_sweep budget=1", err=full)[:2], files_of(room)))
        holds("an answer", (0, Text("", "\nTake scuttle-depth ")), run(room, "gossip_advise", *CLUSTER, err=full)[:2])
        for script, status, words in (("gossip_read", 2, ("window", "1", "3", "runs")), ("replay.py", 1, ("check",)),
                                      ("replay.py", 2, ("walk",)), ("check_trace.py", 2, ())):
            holds(f"{script} {words}", (status, ""), run(room, script, *words, text="", err=full)[:2])


def try_readers_that_are_gone(room):
    """A tool whose output nobody reads any more says so, with status 1, or 2 where 1 says that two texts differ."""
    for script, words in (CALLS | {"gossip_live": ("interval=0.05",)}).items():
        reader, writer = os.pipe()
        os.close(reader)
        with open(writer, "w") as gone:
            status, _, err = run(room, script, *words, out=gone)
        holds(f"{script} without a reader", (1 + (script == "check_trace.py"), True),
              (status, err.endswith(f"{script}: nobody reads the output any more.\n") or err))


def try_lost_terminals(room):
    """A terminal that goes away while a sweep shows its progress there."""
    waiting = program_that(room, "waiting", f'until [ -e go ]; do sleep 0.05; done\nexec "{PROGRAM}" run')
    terminal, shown = pty.openpty()
    with started(room, "gossip_sweep -o lost budget=1", GOSSIP_BENCH=waiting, err=shown) as process:
        os.close(shown)
        holds("progress is shown", True, b"0 of 4 runs" in os.read(terminal, 1000))
        os.close(terminal)
        (room / "go").touch()
        out, _ = process.communicate(timeout=60)
    holds("the sweep goes on", (0, "4 runs in lost\n"), (process.returncode, out))


def try_interrupts(room):
    """Ctrl-C while modules are loaded ends a tool without a word."""
    for tool, module in LOADED.items():
        late, loading = room / f"{tool.name}.late", room / f"{tool.name}.loading"
        written(late / f"{module}.py", f"import os, time\nopen({str(loading)!r}, 'w').close()\ntime.sleep(60)\n")
        with started(room, tool, "--help", PYTHONPATH=str(late)) as process:
            holds(f"{tool.name} loads", True, waits_for(loading.exists))
            holds(f"{tool.name} is interrupted", (-signal.SIGINT, "", ""), stopped(process, signal.SIGINT))


def try_full_disks(room):
    gives(room, "1 runs in full\n", "gossip_sweep -o full mode=scuttle-depth")
    with open("/dev/full", "w") as full:
        for call in (f"gossip_scenario {LARGE}", "gossip_restarts 3 1 1 1 0", "gossip_apart 1 2 3 4",
                     "gossip_read window 1 2 full", "gossip_sweep --help", "replay.py run --trace trace.csv",
                     "replay.py compare", "replay.py check", "replay.py --help", "replay.py --version"):
            fails(room, "No space left on device", 1, call, out=full)
        fails(room, "No space left on device", 2, "check_trace.py", *TEXTS, out=full)
    fails(room, "File too large", 1, "gossip_sweep -o fuller seed=1", before=small_files(100))
    holds("no scenario that isn't whole", [], [it.name for it in (room / "fuller").iterdir() if it.name != "lock"])
    fails(room, "fullest/cluster.toml: File too large.", 1, f"gossip_advise -o fullest {LARGE}",
          before=small_files(100))
    holds("no numbers that aren't whole", ["lock"], [it.name for it in (room / "fullest").iterdir()])
