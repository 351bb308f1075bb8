"""How a tool starts, whichever of its streams are closed, and ends, whenever Ctrl-C comes.

While Python itself starts, Ctrl-C comes as a traceback. So it is started with -S, which leaves out site, the longest
part of that, and signal.py isn't waited for.
"""
import _signal
import contextlib
import importlib
import io
import os
import sys

# Of each tool the module and the function that carries it out.
TOOLS = {
    "gossip_advise": ("advise", "main"), "gossip_apart": ("sections", "apart"), "gossip_live": ("live", "main"),
    "gossip_read": ("read", "main"), "gossip_restarts": ("sections", "restarts"),
    "gossip_scenario": ("cluster", "main"), "gossip_sweep": ("sweep", "main"),
}


class StandardError(io.TextIOWrapper):
    """Standard error. What can't be written there is dropped, as the work is worth more than what is said of it."""

    def write(self, text):
        with contextlib.suppress(OSError):
            super().write(text)
        return len(text)

    def flush(self):
        with contextlib.suppress(OSError):
            super().flush()


def fill_closed_streams():
    """Opens /dev/null for each closed stream, so that no file gets its number, in a way that fails where it is used."""
    for number, way in enumerate((os.O_WRONLY, os.O_RDONLY, os.O_RDONLY)):
        try:
            os.fstat(number)
        except OSError:
            os.set_inheritable(os.open(os.devnull, way), True)
    sys.stdin = sys.stdin or open(0, closefd=False)
    sys.stdout = sys.stdout or open(1, "w", closefd=False)
    sys.stderr = StandardError(open(2, "wb", closefd=False), errors="backslashreplace", line_buffering=True)


def end_at_signals():
    """From here on a signal ends the process without a word, where the caller doesn't ignore it."""
    for number in (_signal.SIGINT, _signal.SIGTERM, _signal.SIGHUP):
        if callable(_signal.getsignal(number)):
            _signal.signal(number, _signal.SIG_DFL)


def tool_of(name):
    module, main = TOOLS[name]
    words = importlib.import_module("gossip_tools.words")
    return getattr(importlib.import_module(f"gossip_tools.{module}"), main), words.tool(name)


def name_of(path):
    """The tool that a file is by its name, or by that of what it is a link to."""
    while (name := os.path.basename(path)) not in TOOLS:
        path = os.path.join(os.path.dirname(path), os.readlink(path))
    return name


def start():
    """Carries out the tool that was called, and ends the process."""
    interrupt = _signal.getsignal(_signal.SIGINT)
    sys.argv[0] = name_of(sys.argv[0])
    end_at_signals()
    fill_closed_streams()
    commands = importlib.import_module("gossip_tools.commands")
    main, tool = tool_of(sys.argv[0])
    _signal.signal(_signal.SIGINT, interrupt)
    status = commands.run(main, tool)
    end_at_signals()
    sys.exit(status)
