"""The command rt of the Rattle toolchain as a module, for scripts that do a part of its work: what counts as proved and
as refused is what it says. What they use of it stands here by name; scripts/try looks for it in the toolchain at hand.
"""
import importlib.machinery
import importlib.util
import os
import shutil
import signal
import subprocess
import sys
from operator import attrgetter
from pathlib import Path

sys.dont_write_bytecode = True
# The kinds of x86-64 processor that programs are built for: by rt, and where the processor has what the newer one has.
OLDER, NEWER = "x86-64-v2", "x86-64-v3"
# What scripts use of rt and of its crates, and of what reads a crate's text and of what that finds.
USED = {
    "rt": "KIT Crate.allowed Crate.cuts_libraries checked edited free handles_of processors rtlib.Crate rtlib.PARTS "
          "rtlib.crates_below rtlib.files_of rtlib.guarded rtlib.help_of unread",
    "Crate": "below ci deps folder is_program link name of_kit out prove rlib said words",
    "rt-plant-bodies": "Source named", "Source": "data declared functions read",
    "Function": "block end file first has_body in_cycle module name opens start", "Block": "is_trait trait ty",
}
# By this flag, which rt adds where the prover's help has it, a proof also looks for contracts that no call can meet.
MEETS = "--empty-contracts"
LOADER = "/lib64/ld-linux-x86-64.so.2"
CHECK_MEMORY = 3_000_000_000  # bytes that one check may take


class Lacking(Exception):
    """Why there is no such module, in a sentence."""


def imported(path):
    loader = importlib.machinery.SourceFileLoader(f"imported_{path.name}", str(path))
    made = importlib.util.module_from_spec(importlib.util.spec_from_loader(loader.name, loader))
    # (one that has dataclasses looks itself up)
    sys.modules[loader.name] = made
    loader.exec_module(made)
    return made


def need(module, kind, *those):
    """The first of these things of a script of the toolchain must have what is used of its kind."""
    try:
        list(map(attrgetter(*USED[kind].split()), those[:1]))
    except AttributeError as lacks:
        raise Lacking(f"{module.__file__} is of another toolchain than these scripts: it lacks {lacks.name}") from None


def loaded(path):
    if not path.is_file():
        raise Lacking(f"the toolchain has no {path}")
    module = imported(path)
    need(module, path.name, module)
    return module


def load_rt(top):
    """The module, ready for the crates of the repository at top as rt ci takes them."""
    path = shutil.which("rt")
    if path is None:
        raise Lacking("the command rt of the Rattle toolchain is not found")
    rt = loaded(Path(path).resolve())
    os.chdir(top)
    rt.Crate.allowed = rt.handles_of(str(top))
    rt.rtlib.Crate = rt.Crate
    # (whether calls can meet each contract is left to rt ci: no proof rests on it, and to search takes a tenth of one)
    help_of = rt.rtlib.help_of
    rt.rtlib.help_of = lambda verb: help_of(verb).replace(MEETS, "")
    # (its first call sets handlers of signals, which only the main thread may)
    rt.rtlib.guarded()
    # (where the caller ignores how processes end each proof would seem to have gone well)
    signal.signal(signal.SIGCHLD, signal.SIG_DFL)
    need(rt, "Crate", *rt.rtlib.crates_below(str(top)))
    return rt


def lanes_of(rt):
    """How many checks go side by side, as processors and memory allow."""
    return max(1, min(rt.processors(), rt.free() // CHECK_MEMORY))


def read_by(rt, crate):
    """The functions, types and texts of a crate, and what tells the name of a type."""
    reader = loaded(Path(rt.KIT, "bin", "rt-plant-bodies"))
    source = reader.Source(crate.folder)
    need(reader, "Source", source)
    source.read("src/main.rt" if crate.is_program else "src/lib.rt")
    need(reader, "Function", *source.functions)
    need(reader, "Block", *(it.block for it in source.functions if it.block))
    return source, reader.named


def has_newer():
    """Whether this machine has a processor of the newer kind, by the loader that starts each program."""
    if not os.access(LOADER, os.X_OK):
        return False
    return f" {NEWER} (supported" in subprocess.run([LOADER, "--help"], capture_output=True, text=True).stdout


def build_for_newer(crate):
    crate.said = {**crate.said, "cpu": NEWER}


def build_program(rt, crate, flags, to):
    """Proves a program, builds it by LLVM and links it, as rt ci does, and says whether that failed."""
    words = [*crate.words(flags, keeps=False), "--toolchain", f"{rt.KIT}/toolchain", "--backend", "llvm"]
    return crate.prove(["build", *words, "-o", f"{to}.o"]) or crate.link(f"{to}.o", to)
