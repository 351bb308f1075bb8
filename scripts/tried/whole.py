"""Trials of all tools alike: their help, unit tests, and scripts/install; and of the scripts of examples/guide."""
import os
import shutil
import sys
import unittest

import installed
from gossip_tools import VERSION
from tried.calls import COMPARED, GUIDE, LACKING, SMALL, TOOLS, gives, refuses, run, written
from shared import PROGRAM, TOP, Text, holds, passed, ran

INSTALL = TOP / "scripts" / "install"
# What may be said of the program that is installed.
NEEDS = "it needs an x86-64-v3 processor: scripts/build portable builds it for older ones too\n"


def try_help(room):
    tools = sorted(it for it in TOOLS.glob("gossip_*") if it.is_file())
    holds("there are tools", True, len(tools) >= 5)
    for tool in (*tools, GUIDE / "check_trace.py"):
        holds(f"{tool.name} --help", (0, Text(tool.name, "\n\n"), ""), run(room, tool, "--help"))
    for name, tool in installed.commands().items():
        (room / name).symlink_to(tool)
        holds(f"{name} --version", (0, f"{name} {VERSION}\n", ""), run(room, room / name, "--version"))
    older = "import sys; sys.version_info = (3, 10); sys.path.insert(0, sys.argv[1]); import "
    for module, wanted in (("gossip_tools", 2), ("replay", 1)):
        holds(f"an older Python for {module}", (wanted, "", Text("", "Python 3.11 or later is needed")),
              run(room, sys.executable, "-c", older + module, TOOLS))


def try_units(_):
    sys.path.insert(0, str(TOOLS))
    result = unittest.TestResult()
    unittest.defaultTestLoader.discover(str(TOOLS / "tests")).run(result)
    for name, why in result.failures + result.errors:
        holds(str(name), "", why)
    passed.extend(["a unit test"] * (result.testsRun - len(result.failures) - len(result.errors)))
    holds("there are unit tests", True, result.testsRun > 0)


def installs(room, folder, *said, **variables):
    """All is put into a folder, and this is printed, but for what the program needs."""
    status, out, err = run(room, INSTALL, folder, **variables)
    holds(f"install {folder}", (0, "".join(said), ""), (status, out.replace(NEEDS, ""), err))
    holds(f"the program in {folder}", True, os.access(f"{folder}/gossip_bench", os.X_OK))
    return out


def try_install(room):
    (room / "bin").mkdir()
    there, made = str(room / "bin"), str(room / "a new" / "bin")
    installs(room, there, f"{there}/gossip_bench\n", PATH=f"{there}:{os.environ['PATH']}")
    for folder in (there, made):
        installs(room, folder, f"{folder}/gossip_bench, and {folder} isn't on the path\n")
    holds("what is installed", (0, "ok\n", ""), run(room, room / "bin/gossip_bench", "check"))
    # (a tool that is installed calls the program beside it, from any folder)
    rest = {name: it for name, it in os.environ.items() if name != "GOSSIP_BENCH"}
    holds("a tool that is installed", (0, f"4 runs in {room / 'installed'}\n", ""),
          ran(f"{there}/gossip_sweep", "-o", room / "installed", "budget=1", given=COMPARED, cwd="/", env=rest))
    # (by this variable install has AVX2 hidden)
    written(room / "newer", LACKING.replace("echo", '[ -z "$GLIBC_TUNABLES" ] && exit\necho'))
    out = installs(room, there, f"{there}/gossip_bench, and {there} isn't on the path\n", GOSSIP_BENCH="./newer")
    holds("install tells that AVX2 is needed", True, out.endswith(NEEDS))
    written(room / "lacking", LACKING)
    for words, variables in (((f"{room}/lacking",), {}), ((f"{room}/lacking/below",), {}), ((there, there), {}),
                             ((there,), {"GOSSIP_BENCH": "none"}), ((there,), {"GOSSIP_BENCH": "./lacking"})):
        holds(f"install {words}", (2, "", Text("install: ", lines=1)), run(room, INSTALL, *words, **variables))


def try_traces(room):
    for name, count in (("a_node_forgets", 3), ("two_nodes", 1), ("ring_of_four", 1)):
        report, trace = SMALL / f"{name}.report.csv", SMALL / f"{name}.trace.csv"
        gives(room, f"{count} rounds agree\n", "check_trace.py", str(report), str(trace))
    wrong = room / "wrong.csv"

    def differs(found, *files):
        holds(f"another {found}", (1, f"round {found}\n", ""), run(room, GUIDE / "check_trace.py", *map(str, files)))

    wrong.write_text(report.read_text().replace("1,4,0,0,8,2,4,1", "1,4,0,0,9,2,4,1"))
    differs("1, exchanges, lost, entries, cut: the report [4, 0, 9, 2], the trace [4, 0, 8, 2]", wrong, trace)
    wrong.write_text(trace.read_text() + "2,0,0,1,lost2,1,1,3,0,1,0\n")
    differs("2, exchanges, lost, entries, cut: the report None, the trace [1, 1, 3, 1]", report, wrong)
    wrong.write_text("".join(trace.read_text().splitlines(keepends=True)[:1]))
    differs("1, exchanges, lost, entries, cut: the report [4, 0, 8, 2], the trace [0, 0, 0, 0]", report, wrong)
    refuses(room, "usage", "check_trace.py", str(report))
    refuses(room, "no column greatest", "check_trace.py", str(trace), str(report))
    refuses(room, "can't be read", "check_trace.py", str(report), "none.csv")
    for line in ("2,0,0\n", "2,0,0,1,ok,1,1,some,0,0,0\n"):
        wrong.write_text(trace.read_text() + line)
        refuses(room, "isn't whole", "check_trace.py", str(report), str(wrong))


def try_picture(room):
    if not shutil.which("gnuplot"):
        return

    def drawn(*words):
        return run(room, "gnuplot", "-c", str(GUIDE / "plot.gnuplot"), *words)

    (room / "compared.csv").write_text(run(room, PROGRAM, "compare", text=COMPARED.replace("=2", "=1"))[1])
    holds("a picture", (0, "", ""), drawn("compared.csv", "picture.svg", "1"))
    picture = (room / "picture.svg").read_text()
    holds("its curves", 8, picture.count("<title>scuttle-") + picture.count("<title>precise-"))
    for file, *first in (("compared.csv",), ("compared.csv", "3"), ("compared.csv", "0"), ("compared.csv", "one"),
                         ("wrong.csv", "1"), ("none.csv", "1")):
        holds(f"plot.gnuplot {file} {first}", (2, "", Text("plot.gnuplot: ")), drawn(file, "other.svg", *first))
    holds("plot.gnuplot --help", (0, Text(), Text("gnuplot -c plot.gnuplot")), drawn("--help"))
    holds("no picture where it refuses", False, (room / "other.svg").exists())
