"""Trials of gossip_sweep and gossip_read: what they refuse and make, and that nothing is lost, whatever happens."""
import contextlib
import os
import pathlib
import resource
import shutil
import signal
import time

from tried.calls import (
    COMPARED, HEADER, LACKING, fails, gives, is_running, program_that, refuse, refuses, run, started, stopped,
    takes_signal, waits_for, written,
)
from shared import PROGRAM, TOP, Text, holds, text_of
from gossip_tools.scenario import MODES

LONG = "x" * 5000
WRONG_HOSTS = ("x/alpha", "/", "é", "-oProxyCommand=true", "a b", "8/", "0/alpha", "8/-o", "me@", "me@-o", "alpha\n")


def try_words_of_sweeps(room):
    refuse(room, "gossip_sweep")
    refuses(room, "2 lines of the scenario above all sections set the field seed", "gossip_sweep seed=1",
            text="seed = 2\n" + COMPARED)
    refuses(room, "the scenario is empty", "gossip_sweep seed=1", text="")
    fails(room, f"answer to mode-{'x' * 55}.., so nothing was run.", 1, "gossip_sweep", f"mode={LONG}")
    for words, text, fault in (("budget=1,0", COMPARED, "6: field budget"), ("mode=breadth", COMPARED, "6: field mode"),
                               ("format=2", COMPARED, "4: missing field budget_bytes"),
                               ("mode=scuttle-depth", "mode = ''\n", "4: missing field format")):
        holds(f"sweep of {words}", (1, "", Text(f"fault {fault}")), run(room, "gossip_sweep", words, text=text))
    holds("no runs are left", False, (room / "runs").exists())


def try_variables(room):
    for jobs in ("0", "-2", "two", "99999"):
        refuses(room, f"JOBS is a whole number from 1 to 9999, which '{jobs}' isn't.", "gossip_sweep seed=1", JOBS=jobs)
    for hosts in (it for host in WRONG_HOSTS for it in (host, f":,{host}")):
        refuses(room, "in HOSTS isn't the name of a machine", "gossip_sweep seed=1", HOSTS=hosts)
    for hosts in (",", "alpha,,beta", ":, "):
        refuses(room, f"HOSTS is '{hosts}', which lacks the name of a machine", "gossip_sweep seed=1", HOSTS=hosts)
        refuses(room, f"HOSTS is '{hosts}'", "gossip_advise nodes=8 keys=1 writes=1 entry=40",
                "packet=4000", HOSTS=hosts)
    refuses(room, "GOSSIP_BENCH names 'no_program'", "gossip_sweep seed=1", GOSSIP_BENCH="no_program")
    holds("nor are any of those", False, (room / "runs").exists())


def try_long_scenarios(room):
    """No more is read than a scenario may have, which is 1048576 bytes."""
    def little_memory():
        resource.setrlimit(resource.RLIMIT_AS, (2**28, 2**28))

    with open("/dev/zero") as endless:
        refuses(room, "the scenario is longer than 1048576 bytes", "gossip_sweep seed=1", given=endless,
                before=little_memory)
    longest = COMPARED + "#" * (1048575 - len(COMPARED)) + "\n"
    refuses(room, "the scenario is longer than 1048576 bytes", "gossip_sweep -o long mode=scuttle-depth",
            text=longest + "\n")
    gives(room, "1 runs in long\n", "gossip_sweep -o long mode=scuttle-depth", text=longest)


def try_runs(room):
    gives(room, "4 runs in runs\n", "gossip_sweep budget=1")
    for mode in MODES:
        last = "2,2,0,0,2,0,0,0\n" if mode == "precise-newest" else "2,2,0,0,4,2,0,0\n"
        holds(f"{mode} in runs", f"{HEADER}1,2,0,0,4,6,2,1\n{last}",
              (room / "runs" / f"budget-1.mode-{mode}.csv").read_text())
    # (the ring of four in bytes, worked out in docs/model.md)
    ring = (TOP / "examples" / "ring_of_four.toml").read_text()
    ring = ring.replace("format = 1", "format = 2").replace("budget = 1", "budget_bytes = 5000")
    gives(room, "1 runs in ring\n", "gossip_sweep -o ring budget_bytes=1023 mode=scuttle-breadth", text=ring)
    holds("the ring of four in bytes", HEADER.replace("\n", ",leftover\n") + "1,4,0,0,11,0,1,1,0\n",
          (room / "ring" / "budget_bytes-1023.mode-scuttle-breadth.csv").read_text())
    # (a text with other ends of lines stays as it is)
    ends = COMPARED.replace("\n", "\r\n")
    gives(room, "1 runs in of two\n", "gossip_sweep budget=1 mode=scuttle-depth -o", "of two", text=ends)
    report = room / "of two" / "budget-1.mode-scuttle-depth.csv"
    made = report.stat().st_ino
    gives(room, "1 runs in of two\n", "gossip_sweep budget=1 mode=scuttle-depth -o", "of two", text=ends)
    holds("it isn't run again", made, report.stat().st_ino)


def try_other_folders(room):
    """A folder of another kind, or with runs of another scenario or other fields, is refused and stays as it is."""
    refuses(room, "another scenario", "gossip_sweep budget=1", text=COMPARED.replace("keys = 3", "keys = 2"))
    refuses(room, "has no runs", "gossip_sweep -o . budget=1")
    refuses(room, "isn't a folder", "gossip_sweep -o runs/scenario budget=1")
    refuses(room, "isn't a folder", "gossip_read window 1 2 runs/scenario")
    of_budgets = sorted(it.name for it in (room / "runs").iterdir())
    for words in (("seed=1",), ("budget=1", "seed=1"), ("mode=scuttle-depth", "budget=1"), ("mode=scuttle-depth",)):
        refuses(room, "has runs of the fields budget, mode:", "gossip_sweep", *words)
    holds("runs of other fields aren't added", of_budgets, sorted(it.name for it in (room / "runs").iterdir()))


def try_what_is_kept(room):
    """A report that stands isn't made again, whatever it says."""
    kept = room / "runs" / "budget-1.mode-precise-newest.csv"
    kept.write_text(HEADER + "1,2,0,0,4,6,2,1\n2,2,0,0,9,9,9,9\n")
    kept.with_suffix(".sum").write_text(run(kept.parent, "sha256sum", kept.stem + ".toml", kept.name)[1])
    gives(room, "2 runs in runs\n", "gossip_sweep budget=1,65535 mode=precise-newest")
    # (with room for all, exchange 1 of round 1 brings 3 each way, exchange 1 of round 2 one each way)
    gives(room, "budget,mode,percent_cut,greatest_least,greatest_most,stale_least,stale_most\n"
          "1,scuttle-breadth,33.33,0,0,0,0\n1,scuttle-depth,33.33,0,0,0,0\n1,precise-oldest,33.33,0,0,0,0\n"
          "1,precise-newest,50.00,9,9,9,9\n65535,precise-newest,0.00,0,0,0,0\n", "gossip_read window 2 2")
    gives(room, "budget,mode,round,took\n1,scuttle-breadth,2,2\n1,scuttle-depth,2,2\n1,precise-oldest,2,2\n"
          "1,precise-newest,never,never\n65535,precise-newest,1,1\n", "gossip_read level 1 0")


def try_missing(room):
    """A report that is missing is named, and so are all of them; what is there is read where that is asked for."""
    gives(room, "4 runs in missing\n", "gossip_sweep -o missing budget=1,2 mode=scuttle-depth,precise-newest")
    name = "budget-1.mode-precise-newest"
    (room / "missing" / f"{name}.csv").unlink()
    refuses(room, f"1 of 4 runs are missing: {name} (it isn't there)", "gossip_read level 1 0 missing")
    # (with room for two each way, two exchanges of a round bring the three writes)
    rows = "budget,mode,round,took\n1,scuttle-depth,2,2\n2,scuttle-depth,1,1\n2,precise-newest,1,1\n"
    holds("what is there is read", (0, rows, Text("", name)), run(room, "gossip_read level 1 0 missing --partial"))
    for it in (room / "missing").glob("*.csv"):
        it.unlink()
    refuses(room, "4 of 4 runs are missing", "gossip_read level 1 0 missing --partial")


def try_reading(room):
    """What gossip_read refuses, and a folder whose scenarios differ in other fields than the runs' or are none."""
    room = room / "reading"
    room.mkdir()
    gives(room, "4 runs in read\n", "gossip_sweep -o read budget=1")
    refuse(room, "gossip_read")
    gives(room, "budget,mode,round,took\n1,scuttle-breadth,2,2\n1,scuttle-depth,2,2\n1,precise-oldest,2,2\n"
          "1,precise-newest,2,2\n", "gossip_read level 1 0 -o read")
    other = room / "read" / "seed-1.mode-scuttle-depth.toml"
    shutil.copy(room / "read" / "budget-1.mode-scuttle-depth.toml", other)
    refuses(room, "differ", "gossip_read window 1 2 read")
    other = other.rename(room / "read" / "budget-2.mode-scuttle-depth.toml")
    for text, why in ((other.read_bytes().replace(b"format = 1", b"format = 2"), "two formats"),
                      (b"budget = ", "TOML 1.0"), (b"budget = 1", "isn't the scenario of a run"),
                      (b"# \xe9\n", "isn't UTF-8"),
                      (b"#" * 1048577, f"{other.relative_to(room)} is longer than 1048576 bytes")):
        other.write_bytes(text)
        refuses(room, why, "gossip_read window 1 2 read")


def try_sweeps_at_once(room):
    """While a sweep works in a folder no other one does, be it the same or one of another scenario."""
    waiting = program_that(room, "waiting", f'until [ -e go ]; do sleep 0.05; done\nexec "{PROGRAM}" run')
    sweep, another = ("-o", "at_once", "budget=1"), COMPARED.replace("keys = 3", "keys = 2")
    with started(room, "gossip_sweep", *sweep, GOSSIP_BENCH=waiting) as first:
        holds("a sweep begins", True, waits_for(lambda: list(room.glob("at_once/.*.part"))))
        refuses(room, f"at_once is in use by process {first.pid} on", "gossip_sweep", *sweep)
        refuses(room, "has runs of another scenario", "gossip_sweep", *sweep, text=another)
        (room / "go").touch()
        holds("the first of two sweeps", ("4 runs in at_once\n", ""), first.communicate(timeout=60))
    both = [started(room, "gossip_sweep -o new seed=1,2,3", text=it) for it in (COMPARED, another)]
    ended = [(it.communicate(timeout=60), it.returncode) for it in both]
    texts = [it.read_text() for it in room.glob("new/*.toml")]
    holds("of two sweeps of different scenarios at once one is carried out", ([0, 2], True),
          (sorted(status for _, status in ended), {"keys = 3" in it for it in texts} in ({True}, {False}) or ended))


def try_stopping(room):
    """A sweep that is stopped leaves no process and no half of a report, says what stands, and can be gone on with."""
    sweep = ("-o", "stopped", "budget=1")
    pids = room / "hanging.pids"
    hanging = program_that(room, "hanging", 'echo half\nsleep 60 &\necho $! >>hanging.pids\nwait')
    says = ("gossip_sweep: stopped by {}, which loses the runs under way. 0 of 4 runs stand in stopped; the same "
            "command goes on from there.\n")
    for ends, status, said in (*((it, 128 + it, says.format(it.name)) for it in (
            signal.SIGTERM, signal.SIGINT, signal.SIGHUP)), (signal.SIGKILL, -signal.SIGKILL, "")):
        pids.unlink(missing_ok=True)
        with started(room, "gossip_sweep", *sweep, GOSSIP_BENCH=hanging) as process:
            waits_for(lambda: pids.exists() and len(pids.read_text().split()) == 2)
            began = time.monotonic()
            outcome = stopped(process, ends)
            is_prompt = time.monotonic() - began < 3
        runs = [int(it) for it in pids.read_text().split()]
        holds(f"{ends.name}", (status, "", said, True), (*outcome, is_prompt))
        # (what was killed may have to wait for a processor to end)
        holds(f"{ends.name} ends the runs too, with what they have started", True,
              waits_for(lambda: not any(map(is_running, runs)), 5))
        # (parts that are left go with the next sweep)
        parts = [] if ends == signal.SIGKILL else list(room.glob("stopped/.*.part"))
        holds(f"what {ends.name} leaves", ([], []), (parts, list(room.glob("stopped/*.csv"))))
    reader, writer = os.pipe()
    with started(room, "gossip_sweep", *sweep, given=reader) as process:
        waits_for(lambda: takes_signal(process.pid, signal.SIGTERM))
        holds("a sweep without a scenario", (130, "", "gossip_sweep: stopped by SIGINT.\n"),
              stopped(process, signal.SIGINT))
    os.close(reader)
    os.close(writer)
    gives(room, "4 runs in stopped\n", "gossip_sweep", *sweep)
    for it in filter(is_running, runs):
        os.kill(it, signal.SIGKILL)
    holds("what is left of a sweep that was killed", ([], 4),
          (list(room.glob("stopped/.*.part")), len(list(room.glob("stopped/*.csv")))))


def try_wrong_programs(room):
    sweep = ("-o", "wrong", "budget=1", "mode=scuttle-depth")
    name = "budget-1.mode-scuttle-depth"
    refuses(room, "doesn't answer as gossip_bench does", "gossip_sweep", *sweep, GOSSIP_BENCH="/bin/true")
    written(room / "lacking", LACKING)
    written(room / "killed", "#!/bin/sh\nkill -9 $$\n")
    for program, why in (("/bin/cat", ""), ("/bin/false", "(status 1)"), ("./killed", "(it was ended by SIGKILL)"),
                         ("./lacking", "(status 127: this machine lacks a feature)")):
        refuses(room, f"doesn't answer as gossip_bench does {why}".rstrip(), "gossip_sweep", *sweep,
                GOSSIP_BENCH=program)
    holds("no folder of a wrong program", False, (room / "wrong").exists())
    cases = {
        "silent": ("exit 0", "it is empty"), "half": ("echo half; exit 0", "its header is another"),
        "faulty": ("echo half; echo fault 13: writing failed >&2; exit 1",
                   f"{name}: status 1: fault 13: writing failed"),
        "dying": ("kill -9 $$", "it was ended by SIGKILL"),
    }
    for it, (body, why) in cases.items():
        fails(room, why, 1, "gossip_sweep", *sweep, GOSSIP_BENCH=program_that(room, it, body))
        holds(f"no report of a program that is {it}", [],
              list(room.glob("wrong/*.csv")) + list(room.glob("wrong/.*.part")))


def try_lasting_faults(room):
    """A folder in the place of a file ends a sweep, which tells what stands, and promises nothing."""
    sweep = ("-o", "taken", "budget=1", "mode=scuttle-depth,precise-newest", "seed=1,2")
    gives(room, "4 runs in taken\n", "gossip_sweep", *sweep)
    for name, stand in (("budget-1.mode-precise-newest.seed-2.csv", 3), ("lock", 4)):
        kept = (room / "taken" / name).rename(room / "aside")
        (room / "taken" / name).mkdir()
        holds(f"a folder in the place of {name}", (1, "", f"gossip_sweep: taken/{name}: Is a directory. {stand} of 4 "
              "runs stand in taken.\n"), run(room, "gossip_sweep", *sweep))
        (room / "taken" / name).rmdir()
        kept.rename(room / "taken" / name)
    holds("a name that is too long", (1, "", f"gossip_sweep: {'x' * 60}..: File name too long.\n"),
          run(room, "gossip_sweep -o", LONG, "budget=1"))


def try_several_machines(room):
    """Runs on a machine with this disk, for which a script stands in, as ssh. What it starts goes on without it."""
    room, there = room / "machines", room / "machines" / "there"
    there.mkdir(parents=True)
    written(there / "ssh", text_of("ssh"))
    (room / "home").mkdir()
    far = {"PATH": f"{there}:{os.environ['PATH']}", "HOME": str(room / "home")}
    written(room / "none" / "parallel", "#!/bin/sh\nexit 1\n")
    refuses(room, "GNU parallel", "gossip_sweep -o far budget=1", HOSTS="alpha",
            PATH=f"{room / 'none'}:{os.environ['PATH']}")
    if not shutil.which("parallel"):
        return
    sweep = ("budget=1,2", "seed=1,2")
    gives(room, "16 runs in here\n", "gossip_sweep -o here", *sweep)
    for hosts, folder in ((":,alpha", "runs 2"), ("alpha", "home/shared 2")):
        gives(room, f"16 runs in {folder}\n", "gossip_sweep -o", folder, *sweep, HOSTS=hosts, **far)
        holds(f"the runs on {hosts}", [], [it.name for it in (room / "here").iterdir() if it.name != "lock" and
                                           it.read_bytes() != (room / folder / it.name).read_bytes()])
    holds("nothing else at home", {".parallel", "shared 2"}, {it.name for it in (room / "home").iterdir()})
    fails(room, "no route to leaving. 0 of 16 runs stand", 1, "gossip_sweep -o leaving", *sweep, HOSTS="leaving", **far)
    # (a machine that dies is named, though ssh doesn't name it)
    for hosts, why in (("alpha,dying", "on dying: status 255: Connection closed. "),
                       ("silent,:", "on silent: status 255. ")):
        fails(room, why, 1, "gossip_sweep -o dying", *sweep, HOSTS=hosts, **far)
    look_at_first_starts(room, sweep, far)
    faulty = program_that(room, "faulty", "echo fault 1: out of memory >&2; exit 1")
    fails(room, "status 1: fault 1: out of memory. 0 of 16", 1, "gossip_sweep -o far", *sweep,
          HOSTS="alpha", **far, GOSSIP_BENCH=faulty)
    look_at_ends(room, sweep, far)


def running_at(home):
    """The processes that have this folder as their home, as all do of sweeps with other machines here."""
    found = []
    for it in pathlib.Path("/proc").glob("[0-9]*/environ"):
        with contextlib.suppress(OSError):
            found += [it.parent.name] * (f"HOME={home}\0".encode() in it.read_bytes())
    return found


def look_at_ends(room, sweep, far):
    """A sweep that is stopped or killed leaves no run, here or on another machine."""
    hanging = program_that(room, "hanging", "echo $$ >>pids\nexec sleep 60")
    for number, status, said in ((signal.SIGTERM, 143, "0 of 16 runs stand in stopped"), (signal.SIGKILL, -9, "")):
        with started(room, "gossip_sweep -o stopped", *sweep, HOSTS=":,alpha", **far,
                     GOSSIP_BENCH=hanging) as process:
            holds("runs begin on machines", True, waits_for(lambda: len(list(room.glob("**/pids"))) == 2))
            holds(f"machines after {number.name}", (status, "", Text("", said)), stopped(process, number))
        holds(f"nothing runs there after {number.name}", True, waits_for(lambda: not running_at(far["HOME"]), 30))
        for it in running_at(far["HOME"]):
            os.kill(int(it), signal.SIGKILL)
        for it in room.glob("**/pids"):
            it.unlink()


def look_at_first_starts(room, sweep, far):
    """Nothing is run where the program doesn't start on each machine, and its line is told."""
    # (JOBS is set here alone)
    written(room / "newer", LACKING.replace("echo", f'[ "$JOBS" ] && exec "{PROGRAM}" "$@"\necho'))
    written(room / "silent", f'#!/bin/sh\n[ "$JOBS" ] && exec "{PROGRAM}" "$@"\nexit 127\n')
    for hosts, program, why in ((":,down", PROGRAM, "down: no route to down"),
                                (":,alpha,:", "./newer", "alpha: this machine lacks a feature"),
                                ("8/alpha", "./silent", "8/alpha: status ")):
        how = {"HOSTS": hosts, "GOSSIP_BENCH": program, **far}
        refuses(room, f"not each of HOSTS runs the program. {why}", "gossip_sweep -o never", *sweep, **how)
        # (another program may come next, as none is kept of which nothing was run)
        refuses(room, why, "gossip_advise -o", "never advised", "nodes=8", "keys=2", "writes=1", "entry=40",
                "packet=4000", **how)
    with started(room, "gossip_sweep -o never", *sweep, HOSTS=":,slow", **far) as process:
        holds("a first start begins", True, waits_for(lambda: (room / "home" / "slow").exists()))
        holds("a first start is stopped", (143, "", Text("", "0 of 16 runs stand")), stopped(process, signal.SIGTERM))
    pid = (room / "home" / "slow").read_text()
    holds("and leaves no ssh", True, waits_for(lambda: not is_running(int(pid)), 2))
    holds("nothing is run where a machine can't", [], [*room.glob("never*/**/*.csv"), *room.glob("never*/**/.*.part")])
