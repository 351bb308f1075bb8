"""Trials of scripts/try_edits over a small crate, with what the prover said of such ones."""
import shutil
import tomllib
import types
from pathlib import Path

from toolchain import imported
from tried.calls import tells
from shared import TOP, holds, text_of

NEEDED = "rt"  # which reads the crate, and applies its edits
SOURCE, ANSWERS = text_of("toy_lib.txt"), text_of("toy_answers.txt")
SAID = tomllib.loads(text_of("edits.toml"))


def toy(room, name, said=""):
    """The script, a crate, and what was read in the checks of it, each of which says the next of these texts."""
    script, rt, read = imported(TOP / "scripts/try_edits"), imported(Path(shutil.which("rt")).resolve()), []
    folder, left = room / name, iter(said.split(", "))
    for file, text in (("src/lib.rt", SOURCE), ("proofs/quad/Answers.antt", ANSWERS),
                       ("edits/010_add.edit", "file: src/lib.rt\nold:     twice + twice\nnew:     twice + twice + 1\n"),
                       ("edits/020_double.edit", "file: src/lib.rt\nold:     x + x\nnew:     x\n")):
        (folder / file).parent.mkdir(parents=True, exist_ok=True)
        (folder / file).write_text(text)

    def checked(_, texts, flags, __):
        # (by contracts it can't be read)
        if "--allow-holes" in flags:
            return ran("", 2)
        read.append(texts)
        names = next(left)
        return ran(names, int(names != "proved"))

    rt.checked = checked
    made = types.SimpleNamespace(name="toy", folder=str(folder), is_program=False)
    return script, script.Crate(rt, made, ("edits",), room / f"{name} kept"), read


def ran(names, status=1):
    lines = [SAID[it] for it in names.split()] + ["logic=not-proved"] * (status == 1)
    return types.SimpleNamespace(stdout="\n".join(lines), returncode=status)


def try_causes(room):
    """A function that isn't proved is one thing, and that its contract refuses its body another."""
    script, crate, _ = toy(room, "causes")
    causes = SAID["causes"]
    holds("causes", causes, {it: crate.functions[-1].is_refused(script.Told(ran(it))) for it in causes})


def try_names(room):
    """A method of a foreign type has the name that the prover prints. A function in a cycle of calls keeps its body."""
    _, crate, _ = toy(room, "names")
    holds("names", ["toy::U32Number::next", "toy::Piece::rest_from", "toy::double", "toy::quad"],
          [it.name for it in crate.functions])
    holds("what a check asks for", "U32Number::next", crate.functions[0].asked)
    more, double = (it.functions for it in crate.edits)
    holds("what they change", [["toy::quad"], ["toy::double"]], [[it.name for it in those] for those in (more, double)])
    copied = crate.with_contracts(more, room / "copy")
    text = crate.edited(crate.edits[:1], copied.folder)[0]["src/lib.rt"]
    tells("bodies", text, "#[cycle(rest)]\n    fn rest_from(&self, from: usize) -> usize\n"
          "        requires { from <= 9 }\n    {\n        rest(", "    ensures { result <= 200 }\n{ loop {} }\n",
          "    twice + twice + 1\n")
    holds("as many lines", SOURCE.count("\n"), text.count("\n"))
    holds("proofs", [False, True, True], [(room / "copy/proofs" / it).exists() for it in (
        "rest_from", "double/Proof.antt", "quad/Answers.antt")])


def try_lost_names(room):
    """Where answers alone name what is gone the edit is tried without these, and without what names them."""
    kept = "use Rattle.toy.proofs.quad.Goals as goal\n\n-- the sum\n"
    less = kept + ANSWERS[ANSWERS.index("helper :"):]
    script, crate, _ = toy(room, "answers")
    holds("answers", [less, less, kept, ANSWERS], [script.without(ANSWERS, lines) for lines in ([5], [4], [5, 7], [])])
    for at, (said, wanted) in enumerate(SAID["alone"].items()):
        _, crate, read = toy(room, f"alone {at}", said)
        holds(f"alone: {said}", wanted.replace("@lost@", SAID["lost"][:200]), crate.try_alone(crate.edits[0]))
        holds(f"answers: {said}", [None, less][:len(read)], [it.get("proofs/quad/Answers.antt") for it in read])
        holds(f"checks: {said}", said.count(",") + 1, len(read))


def try_groups(room):
    """Of a check of two edits each has its own verdict; a lost name leaves it open."""
    for at, (said, wanted) in enumerate(SAID["together"].items()):
        _, crate, _ = toy(room, f"together {at}", said)
        found = crate.refused(crate.edits, crate.check(crate.edits)).values()
        holds(f"together: {said}", wanted, " ".join("refused" if it else "unknown" for it in found))
    for at, (said, wanted) in enumerate(SAID["refused"].items()):
        _, crate, read = toy(room, f"refused {at}", said)
        found = crate.refused_together(crate.edits)
        holds(f"refused: {said}", wanted, " ".join(Path(it.name).stem for it in found))
        holds(f"its checks: {said}", said.count(",") + 1, len(read))
