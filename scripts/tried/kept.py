"""Trials of what a sweep keeps beside its reports: the check sums of each and of its scenario, and of the program."""
import hashlib

from tried.calls import COMPARED, gives, program_that, refuses, run, times_of
from shared import PROGRAM, Text, holds

# Two nodes that are apart throughout: each lacks the three keys of the other, since round 1.
APART = COMPARED.replace("rounds = 2", "rounds = 12") + "[[partition]]\nfrom = 1\nto = 12\napart = [0]\n"
LAST = b"12,0,2,0,0,0,6,12\n"
NAME = "budget-1.mode-precise-newest"
SWEEP = ("-o", "kept", "budget=1", "mode=precise-newest")
MORE = ("-o", "kept", "budget=1,2", "mode=precise-newest")
NO_PROGRAM = ("gossip_sweep: kept lacks the file program, which says what made its reports: they are taken as made "
              "by this program.\n")
NO_SUM = "in kept 1 report has no check sum and is taken as it is.\n"
OF_BEFORE = f"{NO_PROGRAM}gossip_sweep: {NO_SUM}"


def try_damaged_reports(room):
    """A report that isn't what was written never counts, neither where runs are read, nor where a sweep goes on."""
    gives(room, "1 runs in kept\n", "gossip_sweep", *SWEEP, text=APART)
    scenario, report, beside = (room / "kept" / f"{NAME}.{ending}" for ending in ("toml", "csv", "sum"))
    whole = report.read_bytes()
    sums = run(room / "kept", "sha256sum", scenario.name, report.name)[1].encode()
    header, first, second, *_, last = whole.splitlines(keepends=True)
    holds("the last row, and what stands beside", (LAST, sums), (last, beside.read_bytes()))
    of_before = f"{len(whole)} {hashlib.sha256(whole).hexdigest()}\n".encode()
    damaged = (
        ("it is empty", b""), ("its header is another", b"mode," + whole),
        ("its header is another", whole.replace(b"\n", b",leftover\n", 1)),
        ("it is cut short after 11 of 12", whole[:-1]), ("it is cut short after 0 of 12", header + first[:-1]),
        ("it goes on after its 12 rounds", whole + b"13,0,2,0,0,0,6,13\n"),
        ("it goes on after its 12 rounds", whole + b"13,2"),
        ("its line of round 1", whole.replace(first + second, second + first)),
        ("its line of round 2", whole.replace(second, second.replace(b"0", b"none", 1))),
        ("its line of round 1", whole.replace(first, first.replace(b",2,", b"\0\0\0", 1))),
        ("it has other bytes", whole + b"\xff"),
        (f"its check sum isn't that of {NAME}.sum", whole.replace(LAST, b"12,0,2,0,0,0,6,1\n")),
        ("its check sum isn't that of", whole.replace(LAST, b"12,0,2,0,0,0,6,13\n")),
    )
    other_sums = (
        ("its check sum isn't that of", sums[:-40]), ("its scenario's check sum isn't that of", b""),
        (f"{NAME}.sum, which has its check sum, isn't there", None),
        (f"{NAME}.sum is of an earlier version, which left its scenario out", of_before),
    )
    for why, text, its_sum in (*((why, text, sums) for why, text in damaged),
                               *((why, whole, its_sum) for why, its_sum in other_sums)):
        report.write_bytes(text)
        beside.unlink() if its_sum is None else beside.write_bytes(its_sum)
        refuses(room, f"1 of 1 runs are missing: {NAME} ({why}", "gossip_read level 1 0 kept")
        wanted = (0, "1 runs in kept\n", Text("", f"{NAME} is run again", why)), whole, sums
        holds(f"it is made again: {why}", wanted,
              (run(room, "gossip_sweep", *SWEEP, text=APART), report.read_bytes(), beside.read_bytes()))


def try_reports_of_other_runs(room):
    """A report that another run made, or that was made of another scenario, never counts, whatever stands beside it."""
    gives(room, "2 runs in kept\n", "gossip_sweep", *MORE, text=APART)
    folder, other = room / "kept", "budget-2.mode-precise-newest"
    before = {it.name: it.read_bytes() for it in folder.glob("budget-*")}
    report, its_sum = (before[f"{other}.{ending}"] for ending in ("csv", "sum"))
    changes = {
        "copied": {"csv": report, "sum": its_sum},
        "renamed": {"csv": report, "sum": its_sum.replace(other.encode(), NAME.encode())},
        "edited": {"toml": before[f"{NAME}.toml"].replace(b"seed = 0", b"seed = 1")},
    }
    for change, texts in changes.items():
        for ending, text in texts.items():
            (folder / f"{NAME}.{ending}").write_bytes(text)
        why = f"{NAME} (its scenario's check sum isn't that of {NAME}.sum)"
        refuses(room, f"1 of 2 runs are missing: {why}. The same sweep makes", "gossip_read level 1 0 kept")
        why = Text(f"gossip_sweep: {NAME} is run again, as ", lines=1)
        outcome = run(room, "gossip_sweep", *MORE, text=APART)
        holds(f"what was {change} is made again", ((0, "2 runs in kept\n", why), before),
              (outcome, {it.name: it.read_bytes() for it in folder.glob("budget-*")}))
    # (what was run is what the sweep has of the scenario, whatever the file has meanwhile)
    change = program_that(room, "change", f'echo "#" >>"changed/{NAME}.toml"\nexec "{PROGRAM}" run')
    gives(room, "1 runs in changed\n", "gossip_sweep -o changed", *SWEEP[2:], text=APART, GOSSIP_BENCH=change)
    refuses(room, f"{NAME} (its scenario's check sum isn't that", "gossip_read level 1 0 changed")
    for it in folder.glob("budget-2.*"):
        it.unlink()


def try_other_programs(room):
    """Reports of another program aren't kept together with those of this one."""
    other = program_that(room, "other", f'exec "{PROGRAM}" run')
    refuses(room, "kept has reports of another program: name a new folder by -o.", "gossip_sweep", *SWEEP, text=APART,
            GOSSIP_BENCH=other)
    kept = room / "kept" / "program"
    holds("whose check sum it is", hashlib.sha256(open(PROGRAM, "rb").read()).hexdigest() + "\n", kept.read_text())
    (room / "kept" / f"{NAME}.csv").unlink()
    # (without a report another program may come, as one that was built anew after the first had failed)
    gives(room, "1 runs in kept\n", "gossip_sweep", *SWEEP, text=APART, GOSSIP_BENCH=other)
    refuses(room, "reports of another program", "gossip_sweep", *SWEEP, text=APART)


def try_folders_of_before(room):
    """A folder of earlier versions, which has no check sums, is gone on with, and told."""
    folder, told = room / "kept", "budget,mode,round,took\n1,precise-newest,never,never\n"
    (folder / "program").unlink()
    for said, read in ((NO_PROGRAM, ""), (OF_BEFORE, f"gossip_read: {NO_SUM}")):
        before = times_of(folder, "budget-*")
        holds(f"it is gone on with: {said}", (0, "1 runs in kept\n", said, before),
              (*run(room, "gossip_sweep", *SWEEP, text=APART), times_of(folder, "budget-*")))
        holds(f"it is read, and told: {read}", (0, told, read), run(room, "gossip_read level 1 0 kept"))
        (folder / f"{NAME}.sum").unlink(missing_ok=True)
    holds("runs that are new have theirs",
          ((0, "2 runs in kept\n", OF_BEFORE), ["budget-2.mode-precise-newest.sum"], False),
          (run(room, "gossip_sweep", *MORE, text=APART), [it.name for it in folder.glob("*.sum")],
           (folder / "program").exists()))
    for it in folder.glob("*.sum"):
        it.unlink()
    holds("of two", "gossip_read: in kept 2 reports have no check sum and are taken as they are.\n",
          run(room, "gossip_read level 1 0 kept")[2])
