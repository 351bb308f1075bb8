"""Trials of scripts/build and ./gossip_bench, by a toolchain that proves nothing: what is proved, what is kept, what is
made anew, and that what is called is the program; and of what scripts/try_edits leaves to rt must-fail."""
import functools
import os
import re
import shutil
import signal
import sys

from toolchain import NEWER, has_newer
from tried.calls import run, started, stopped, waits_for, written
from shared import TOP, Text, holds, small_files

# The crates, with those that each stands on, and what is needed of scripts.
CRATES = {"low": "", "left": "low", "right": "low", "gossip_bench": "left right"}
COPIED = "gossip_bench", *(f"scripts/{it}" for it in ("build", "shared.py", "toolchain.py", "try_edits",
                                                      "texts/seconds.txt"))
COMMANDS = ("sh", "env", "python3", "find", "cksum", "sort", "cat", "dirname", "readlink", "mv", "rm", "sleep")
LONG_AGO = 1_000_000_000
# What is said of a proof that takes long, as each may on a busy machine.
PROGRESS = re.compile(r"^gossip_bench: (still )?proving .*\n", re.MULTILINE)
BUILDING = "gossip_bench: building. The first build proves everything and takes minutes.\n"
TUNABLES = "glibc.malloc.hugetlb=1:glibc.malloc.top_pad=67108864"


class Toy:
    """A repository in a folder of its own, and a toolchain beside it."""

    def __init__(self, room):
        self.kit, self.top, self.bare = room / "kit", room / "a tree", room / "bare"
        self.kit.mkdir(parents=True)
        written(self.kit / "bin" / "rt", (TOP / "scripts/tried/toy_rt").read_text())
        for name in ("KIT-ID", "WHAT"):
            (self.kit / name).write_text(f"{name}\n")
        self.bare.mkdir()
        for name in COMMANDS:
            (self.bare / name).symlink_to(shutil.which(name))
        (self.top / "scripts" / "texts").mkdir(parents=True)
        for name in COPIED:
            shutil.copy(TOP / name, self.top / name)
        (self.top / "HANDLES").write_text("Handles allowed: none.\n")
        (self.top / "crates.txt").write_text("".join(f"{name}: {below}\n" for name, below in CRATES.items()))
        for name in CRATES:
            self.source(name).parent.mkdir(parents=True)
            self.source(name).write_text(f"// {name}\npub fn {name}()\n")

    path = property(lambda self: f"{self.kit / 'bin'}:{self.bare}")
    program = property(lambda self: self.top / "crates/gossip_bench/out/gossip_bench")

    def source(self, name):
        return self.top / "crates" / name / "src" / ("main.rt" if name == "gossip_bench" else "lib.rt")

    def add(self, name, line):
        self.source(name).write_text(f"{self.source(name).read_text()}{line}\n")

    def proved(self):
        """The crates that were proved since this was asked last, in their order."""
        note = self.kit / "proved"
        names = note.read_text().split() if note.exists() else []
        if names:  # (a note that is still empty is being written)
            note.unlink()
        return names

    def call(self, name, *words, with_rt=True, progress=False, **how):
        how = {"text": "", "PATH": self.path if with_rt else str(self.bare), **how}
        status, out, err = run(self.top, self.top / name, *words, **how)
        return status, out, err if progress else PROGRESS.sub("", err)

    def left(self):
        return [*self.top.glob("crates/*/out/rooms-*"), *self.top.glob("crates/*/out/**/*.part")]

    def build(self, *words, **how):
        """The status, the lines on standard error, and what was proved."""
        status, out, err = self.call("scripts/build", *words, **how)
        return status, out + err, self.proved()


def starts(name, toy, *words, builds=False, **how):
    text = "nodes = 2\nkeys = 1\n"
    printed = f"{' '.join(words)} {TUNABLES}\n{text}"
    status, out, err = toy.call("gossip_bench", *words, text=text, **how)
    holds(name, (0, printed, BUILDING if builds else ""), (status, out[-len(printed):], err[:len(BUILDING)]))


def built(room):
    toy = Toy(room)
    starts("a first call", toy, "run", "--workers", "2", builds=True)
    return toy


def builds(name, toy, wanted, *words, **how):
    """It is built, the last line says for what, and these crates were proved; in their order where it counts."""
    status, said, proved = toy.build(*words, **how)
    last = "".join(said.splitlines()[-1:])
    holds(name, (0, Text("gossip_bench: built for "), sorted(wanted)), (status, last, sorted(proved)))
    return proved


def try_kept(room):
    """A crate is proved again where what its proof reads has changed, and else it is kept."""
    toy = Toy(room / "kept")
    builds("a first build", toy, CRATES)
    holds("a proof, without the search for contracts that no call can meet", " --jobs\n",
          (toy.top / "crates/low/out/build.log").read_text())
    lines = [f"{name}: pub fn {name}()\n" for name in ("low", "left", "low", "right", "gossip_bench")]
    holds("the program", (0, f"{''.join(lines)}run \nthe scenario", ""),
          run(room, toy.program, "run", text="the scenario", GLIBC_TUNABLES=""))
    holds("what is kept isn't said to be proved, however long the look at it takes", (0, "", Text(lines=1), []),
          (*toy.call("scripts/build", progress=True, READING="1.5"), toy.proved()))
    toy.add("low", "// a remark")
    holds("a remark", (0, "", Text("gossip_bench: proving low, 1 of 4 crates\n"), ["low"]),
          (*toy.call("scripts/build", progress=True, PROVING="sleep 2.5"), toy.proved()))
    toy.add("left", "pub fn another()")
    builds("another statement", toy, ["left", "gossip_bench"])
    toy.add("low", "pub fn another()")
    builds("another statement below all", toy, CRATES)
    (toy.top / "HANDLES").touch()
    (toy.top / "crates/right/specs").mkdir()
    (toy.top / "crates/right/specs/A.antt").write_text("pub data A\n")
    builds("a file more", toy, ["right", "gossip_bench"])
    (toy.kit / "WHAT").write_text("another compiler\n")
    builds("another toolchain", toy, CRATES)
    toy.program.write_text("another program")
    builds("a program that was written over", toy, ["gossip_bench"])
    (toy.top / "crates/left/out/proved/left.rlib/statements").write_text("pub fn others()\n")
    builds("a library that was written over", toy, ["left"])


def try_order(room):
    """Those come first from which the way up to the program is longest, by the seconds of their last proofs."""
    toy = Toy(room / "order")
    (toy.top / "crates.txt").write_text("low:\nright:\nleft: low\ngossip_bench: left right\n")
    builds("a first build", toy, CRATES)
    for order, seconds in ("low left right", (1, 5, 3)), ("right low left", (9, 1, 2)):
        for name, it in zip(order.split(), seconds):
            (toy.top / f"crates/{name}/out/seconds").write_text(str(it))
        (toy.kit / "WHAT").write_text(order)
        holds(f"seconds {seconds}", f"{order} gossip_bench", " ".join(builds(order, toy, CRATES, PROCESSORS="1")))


def try_changes_under_way(room):
    """What changes while a crate is proved isn't what was proved, and is proved next time."""
    toy = Toy(room / "changes")
    change = f'[ "$0" != left ] || echo "pub fn later()" >>"{toy.source("left")}"'
    builds("a source that changes while it is proved", toy, CRATES, PROVING=change)
    holds("what was read is built", False, "later" in toy.program.read_text())
    builds("what came later", toy, ["left", "gossip_bench"])
    library = toy.top / "crates/low/out/proved/low.rlib/statements"
    toy.add("right", "// a remark")
    holds("a library that changes while one above is proved",
          (1, Text("", "a library below was changed while this crate was proved: build again"), ["right"]),
          toy.build(PROVING=f'[ "$0" != right ] || echo "pub fn other()" >>"{library}"'))
    builds("a build again", toy, ["low", "right"])


def try_building(room):
    """It builds where there is no program yet, where a source was changed, and where the program was."""
    holds("no toolchain and no program", (3, "", Text("", "rt of the Rattle toolchain", lines=1)),
          Toy(room / "unbuilt").call("gossip_bench", "run", with_rt=False))
    toy = built(room / "built")
    toy.source("low").touch()
    starts("a source with another time", toy, "check", with_rt=False)
    toy.add("low", "pub fn more()")
    holds("a source that was changed, without a toolchain", (3, "", Text(lines=1)),
          toy.call("gossip_bench", "run", with_rt=False))
    starts("a source that was changed", toy, "run", builds=True)
    holds("what was changed is in it", True, "pub fn more()" in toy.program.read_text())
    (toy.top / "crates/right/proofs").mkdir()
    (toy.top / "crates/right/proofs/A.antt").write_text("a = b\n")
    starts("a source more", toy, "run", builds=True)
    source = toy.source("left")
    time = source.stat().st_mtime_ns
    source.write_text(source.read_text().replace("fn left", "fn lest"))
    os.utime(source, ns=(time, time))
    starts("another text of the same size and time", toy, "run", builds=True)
    toy.program.write_text("#!/bin/sh\necho another\n")
    starts("another program", toy, "run", builds=True)
    toy.top = shutil.copytree(toy.top, room / "a copy", copy_function=shutil.copy)
    for path in toy.top.rglob("*"):
        os.utime(path, (LONG_AGO, LONG_AGO))
    starts("a copy with older times", toy, "run", with_rt=False)
    toy.add("low", "// older")
    os.utime(toy.source("low"), (LONG_AGO - 1, LONG_AGO - 1))
    starts("another text with an older time", toy, "run", builds=True)


def try_calling(room):
    """It can be called from anywhere, by links, and passes on its words, its streams and its status."""
    toy, elsewhere = built(room / "called"), room / "elsewhere"
    elsewhere.mkdir()
    holds("a relative path", (0, Text("", f"\nrun {TUNABLES}\n"), ""),
          run(room, "called/a tree/gossip_bench", "run", text="", PATH=str(toy.bare), CDPATH=str(room)))
    (elsewhere / "absolute").symlink_to(toy.top / "gossip_bench")
    (elsewhere / "link").symlink_to("absolute")
    holds("links", (0, Text("", f"\na b 'c' {TUNABLES}\n"), ""),
          run(room, elsewhere / "link", "a b", "'c'", text="", PATH=str(toy.bare)))
    holds("what the caller says of memory", (0, Text("", "\nrun \n"), ""),
          toy.call("gossip_bench", "run", with_rt=False, GLIBC_TUNABLES=""))
    toy.program.write_text("#!/bin/sh\ncat >&2\nexit 1\n")
    (toy.top / "scripts/build").write_text("#!/bin/sh\n")
    for name, said in (("status and standard error", BUILDING), ("once more", "")):
        holds(name, (1, "", f"{said}a fault"), toy.call("gossip_bench", "run", text="a fault"))
    # (a stream that the caller has closed stays closed)
    toy.program.write_text("#!/bin/sh\nfor it in 0 1 2; do [ -e /proc/$$/fd/$it ] || exit 7; done\n")
    toy.call("gossip_bench")
    for closed, status in (("", 0), (">&-", 7), ("<&-", 7), ("<&- >&- 2>&-", 7)):
        written(room / "closes", f'#!/bin/sh\nexec "{toy.top}/gossip_bench" {closed}\n')
        holds(f"streams {closed}", (status, "", ""), run(room, room / "closes", PATH=toy.path))


def try_failing(room):
    """What isn't proved is told, and what was built before stays, until all is proved."""
    toy = built(room / "failing")
    before, _ = toy.program.read_bytes(), toy.proved()
    toy.add("low", "pub fn wrong() // WRONG")
    why = "src/lib.rt: a goal is not proved\ngossip_bench: low is not proved: the log is crates/low/out/build.log\n"
    holds("a crate that isn't proved", (1, why, ["low"]), toy.build())
    holds("a call", (3, "", Text("", "\ngossip_bench: the build failed, so nothing was run\n")),
          toy.call("gossip_bench", "run"))
    holds("it is tried again", (["low"], before), (toy.proved(), toy.program.read_bytes()))
    toy.source("low").write_text("// low\npub fn low()\n")
    builds("the former text", toy, [])
    starts("the former text", toy, "run", with_rt=False)
    toy.add("low", "// a remark")
    holds("a proof that fails where the caller ignores how processes end", (1, ["low"]),
          toy.build(PROVING="false", before=lambda: signal.signal(signal.SIGCHLD, signal.SIG_IGN))[::2])
    holds("no toolchain", (1, "gossip_bench: the command rt of the Rattle toolchain is not found\n", []),
          toy.build(with_rt=False))
    holds("nothing else is left", [], toy.left())
    toy.program.unlink()
    (toy.top / "scripts/build").write_text("#!/bin/sh\n")
    why = f"{BUILDING}gossip_bench: the build left no program, so nothing was run\n"
    holds("a build that leaves no program", (3, "", why), toy.call("gossip_bench", "run"))


def try_toolchains(room):
    """What the scripts use of rt is in that of the toolchain at hand, if one is; where it isn't, that is told."""
    toy = Toy(room / "toolchains")
    text = (rt := toy.kit / "bin/rt").read_text()
    for name in ("handles_of", "cuts_libraries", "is_program"):  # (of rt, of the class of its crates, and of a crate)
        rt.write_text(text.replace(name, "renamed"))
        why = f"gossip_bench: {rt} is of another toolchain than these scripts: it lacks {name}\n"
        holds(f"a toolchain without {name}", (1, why, []), toy.build())
    if not shutil.which("rt"):
        print("rt isn't there: that it has what the scripts use isn't tried")
        return
    script = "import sys, toolchain; print(len(toolchain.load_rt(sys.argv[1]).rtlib.crates_below(sys.argv[1])))"
    holds("the toolchain at hand", (0, "4\n", ""), run(TOP / "scripts", sys.executable, "-c", script, str(toy.top)))


def try_full_disks(room):
    """A full disk is told in a sentence, what was kept counts no less and no more, and what is built can be run."""
    toy = Toy(room / "full")
    why = "File too large.\ngossip_bench: the build failed, so nothing was run\n"
    for most in (0, 20, 40, 100, 150):
        holds(f"no file above {most} bytes", (1, Text("gossip_bench: not built: ", "File too large.\n", lines=1)),
              toy.build(before=small_files(most))[:2])
    holds("no room for a build", (3, "", Text(BUILDING, why, lines=3)),
          toy.call("gossip_bench", "run", before=small_files(20)))
    (toy.top / "crates/low/out/seconds").write_text("")
    starts("with room", toy, "run", builds=True)
    kept = {it: it.read_bytes() for it in (toy.program.with_name(name) for name in ("seen", "built_from"))}
    shutil.copy(toy.source("low"), room / "low")
    (room / "low").replace(toy.source("low"))
    for _ in range(2):
        holds("no room for times", (0, Text("", "\nnodes = 2\n"), Text("gossip_bench: ", lines=1)),
              toy.call("gossip_bench", "run", text="nodes = 2\n", before=small_files(20)))
    holds("what was noted stays, and nothing is left", (kept, []),
          ({it: it.read_bytes() for it in kept}, [*toy.program.parent.glob("seen.*")]))
    starts("with room again", toy, "run")
    starts("and at once then", toy, "run")
    before, _ = toy.program.read_bytes(), toy.proved()
    toy.add("gossip_bench", "pub fn later()")
    holds("a program that can't be written", (1, ["gossip_bench"]), toy.build(before=small_files(100))[::2])
    holds("the program is as it was", before, toy.program.read_bytes())


def try_words(room):
    """The word portable stays until the word is native, and makes the program alone anew."""
    toy = Toy(room / "words")
    builds("a first build", toy, CRATES)
    kinds = {"portable": "all", "native": NEWER if has_newer() else "all"}
    for word, kind in kinds.items():
        changes = ["gossip_bench"] if has_newer() else []
        builds(word, toy, changes, word)
        builds(f"{word} once more", toy, [], word)
        builds(f"{word} without the word", toy, [])
        holds(f"the program after {word}", f"# for {kind}", toy.program.read_text().splitlines()[1])
    for words in (("walk",), ("portable", "native"), ("--portable",)):
        holds(f"build {' '.join(words)}", (2, "", Text("build: ", lines=1)), toy.call("scripts/build", *words))
    holds("words that are refused prove nothing", [], toy.proved())


def try_stopping(room):
    """A build that is stopped leaves nothing, one that is killed nothing that the next one keeps. Two build once."""
    toy = Toy(room / "stopping")
    waits = {"PATH": toy.path, "PROVING": "until [ -e go ]; do sleep 0.05; done"}
    begun = functools.partial(started, toy.top, toy.top / "scripts/build", **waits)
    numbers = signal.SIGTERM, signal.SIGINT, signal.SIGHUP
    for number in (*numbers, signal.SIGKILL):
        with begun() as process:
            holds("a proof begins", True, waits_for(lambda: toy.proved() == ["low"]))
            status, _, _ = stopped(process, number)
        # (what is killed leaves what the next one removes)
        if number != signal.SIGKILL:
            holds(f"{number.name} ends it, and leaves nothing", (-number, []), (status, toy.left()))
    both = [begun(before=lambda: [signal.signal(it, signal.SIG_IGN) for it in numbers]) for _ in range(2)]
    holds("a proof begins", True, waits_for(lambda: toy.proved() == ["low"]))
    _ = [process.send_signal(number) for process in both for number in numbers]
    (toy.top / "go").touch()
    holds("two builds at once, which ignore signals as their caller does", [0, 0],
          [(it.communicate(timeout=60), it.returncode)[1] for it in both])
    holds("each crate is proved once", sorted(CRATES), sorted(["low", *toy.proved()]))
    holds("what was killed is gone", [], toy.left())


def try_must_fail(room):
    """An edit of must-fail fails where rt must-fail doesn't refuse it, or by lost names alone, or is silent of it."""
    toy, said = Toy(room / "must-fail"), "refused, as it must be"
    outcomes = {"a": f"{said}: a", "b": f"{said} (only because", "c": "NOT REFUSED: c", "d": "BAD EDIT: d"}
    for name in ("README.md", *(f"{it}.edit" for it in "abcde")):
        written(toy.source("low").parent.parent / "must-fail" / name, "")
    told = "\n".join(f"rt: must-fail low/{name}.edit: {it}" for name, it in outcomes.items())
    status, out, _ = toy.call("scripts/try_edits", "low", SAYING=told)
    holds("outcomes", (1, [*"bcde"], "1 passed, 4 failed"),
          (status, re.findall(r"must-fail low/(.)\.edit: wanted 'refused'", out), out.splitlines()[-1]))
