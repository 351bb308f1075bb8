"""Trials of scripts: their words, that they can be imported, the parts of scripts/gate, and of pages, and believed."""
import shutil
import tomllib

from installed import Missing
from pages import without_marks
from parts import Parts, outcome_of
from toolchain import imported
from tried.calls import run, written
from shared import TOP, Text, holds, text_of

TABLES = tomllib.loads(text_of("scripts.toml"))


def try_words(room):
    """Each script has help and refuses other words, and to import it does nothing."""
    scripts = sorted(it for it in (TOP / "scripts").iterdir() if it.is_file() and not it.suffix)
    holds("there are scripts", True, len(scripts) > 15)
    for script in scripts:
        name = script.name
        holds(f"{name} --help", (0, Text(name), ""), run(room, script, "--help"))
        holds(f"{name} --walk", (2, "", Text(f"{name}: ", lines=1)), run(room, script, "--walk", "about", "there"))
        holds(f"{name} is imported", str(script), imported(script).__file__)


def try_parts(room):
    """A part counts by its last line, and one that ends in another way has failed."""
    for last, status, *counts in TABLES["endings"]:
        holds(f"a last line '{last}' and status {status}", counts, [*outcome_of("a part", last, status, 0, 0)[1:3]])
    written(room / "three", "#!/bin/sh\necho 1 passed, 1 failed\necho 3 passed, 0 failed\n")
    written(room / "none", "#!/bin/sh\necho 3 passed\nkill -9 $$\n")
    parts, said = Parts(room), []
    holds("what they say", [True, False], [parts.run(it, f"./{it}", say=said.append) for it in ("three", "none")])
    holds("all of it", ["== three", "1 passed, 1 failed", "3 passed, 0 failed", "== none", "3 passed"], said)
    holds("what they came to", [(3, 0), (0, 1)], [(it.passed, it.failed) for it in parts.outcomes])


def try_marks(_):
    """What a page has between marks is no part of it in a package, or is said otherwise there, whatever it is."""
    for text, wanted in TABLES["marked"]:
        holds(text, wanted, without_marks(text, "docs/model.md"))
    for text in TABLES["wrong"]:
        try:
            holds(text, "a refusal", without_marks(text, "docs/model.md"))
        except Missing as why:
            holds(text, True, "docs/model.md has " in str(why))


def try_believed(room):
    """In a copy of the crates and scripts, believed finds each definition that stands elsewhere than what means it asks
    for, and each premise of a law that no witness shows."""
    shutil.copytree(TOP / "scripts", room / "scripts", ignore=shutil.ignore_patterns("__pycache__"))
    (room / "docs").mkdir()
    for file in ("crates.txt", "docs/proofs.md"):
        shutil.copy(TOP / file, room / file)
    for part in [*TOP.glob("crates/*/specs"), *TOP.glob("crates/*/src")]:
        shutil.copytree(part, room / part.relative_to(TOP))
    changes = tomllib.loads(text_of("believed.toml"))
    for name, change in {"nothing is changed": {"complains": []}, **changes}.items():
        front, behind = change.get("front", {}), change.get("behind", {})
        kept = {file: (room / "crates" / file).read_text() for file in front | behind}
        for file, text in kept.items():
            (room / "crates" / file).write_text(f"{front.get(file, '')}{text}{behind.get(file, '')}")
        _, out, _ = run(room, room / "scripts" / "believed")
        told = [it.split(": wanted ")[0] for it in out.splitlines() if ": wanted " in it]
        holds(name, change["complains"], [it for it in told if not it.startswith("docs/")])
        for file, text in kept.items():
            (room / "crates" / file).write_text(text)
