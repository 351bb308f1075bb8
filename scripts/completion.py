"""Completion of the words of the program and its tools, for bash, zsh and fish, from the program's help and from what
the tools declare."""
from dataclasses import dataclass, field

from installed import PROGRAM, text_with
from gossip_tools import scenario, sweep

FIELDS = {"format": [*map(str, scenario.FORMATS)], **dict.fromkeys(scenario.LIMITS, ()), **scenario.WORDS}
# What fish asks of the word that it completes.
NAMED = 'string match -q "{}=*" -- (commandline -ct)'
NO_NAME_YET = f"not {NAMED.format('*')}"
MADE = "Completion for gossip_bench and its tools, made by scripts/package from what they say of themselves."


@dataclass
class Words:
    """What may come next: plain words, names with the values that are known, files and folders."""

    plain: list
    named: dict = field(default_factory=dict)
    before_file: list = field(default_factory=list)
    before_folder: list = field(default_factory=list)
    is_folder: bool = False
    has_lists: bool = False

    @property
    def names(self):
        return [f"{name}=" for name in self.named]


def words_of_program(told):
    for name, (_, options) in told.commands.items():
        yield f"{PROGRAM} {name}", Words([option for _, option, _, _ in options],
                                         before_file=[option for _, option, after, _ in options if after == "<FILE>"])
    yield PROGRAM, Words([*told.commands, "--help"])


def words_of_tool(tool):
    named = {it.name: it.values for it in tool.words if it.values is not None}
    plain = [it.name for it in tool.words if it.values is None and it.name.islower()]
    options = [it.partition(" ") for it in tool.options]
    before = {kind: [option for option, _, after in options if after == kind] for kind in ("FILE", "FOLDER")}
    is_sweep = tool is sweep.TOOL
    return Words([*plain, *(option for option, _, _ in options), "--help", "--version"], FIELDS if is_sweep else named,
                 before["FILE"], before["FOLDER"], "[FOLDER]" in tool.calls[0], has_lists=is_sweep)


def patterns(table, which):
    """The pattern for what stands before a file, or a folder, of each tool."""
    pairs = dict.fromkeys(f'"{key.partition(" ")[0]} {option}"' for key, it in table.items() for option in which(it))
    return " | ".join(pairs)


def filled(shell, table, plain, value):
    """The text for a shell, with what its cases put where: of plain words and names, and of values."""
    values = [f'"{key} {name}") {value(" ".join(values))} ;;' for key, words in table.items()
              for name, values in words.named.items() if values]
    rows = [(f'"{key}"*' if " " in key else f'"{key} "*') + f") {plain(it)}{' folders=yes' * it.is_folder} ;;"
            for key, it in table.items()]
    return text_with(f"completion.{shell}", {
        "made": MADE, "commands": " ".join(commands(table)), "values": "\n".join(values), "plain": "\n".join(rows),
        "files": patterns(table, lambda it: it.before_file), "folders": patterns(table, lambda it: it.before_folder),
        "lists": " | ".join(key for key, it in table.items() if it.has_lists)})


def for_bash(table):
    return filled("bash", table, lambda it: f'words="{" ".join([*it.names, *it.plain])}"', lambda it: f'words="{it}"')


def for_zsh(table):
    return filled("zsh", table, lambda it: f"names=({' '.join(it.names)}) plain=({' '.join(it.plain)})",
                  lambda it: f"plain=({it})")


def lines_for_fish(key, words, has_commands):
    tool, _, first = key.partition(" ")
    behind = f"complete -c {tool}"
    if first:
        behind += f" -n '__fish_seen_subcommand_from {first}'"
    elif has_commands:
        behind += " -n __fish_use_subcommand"
    plain = [it for it in words.plain if not it.startswith("-")]
    for option in (it for it in words.plain if it.startswith("--")):
        yield f"{behind} -l {option[2:]}" + " -r -F" * (option in words.before_file)
    folders = "-a '(__fish_complete_directories)'"
    rows = ((plain, f"-a '{' '.join(plain)}'"), (words.names, f"-n '{NO_NAME_YET}' -a '{' '.join(words.names)}'"),
            (words.before_folder, f"-s o -x {folders}"), (words.is_folder, folders))
    yield from (f"{behind} {row}" for are_there, row in rows if are_there)
    for name, values in words.named.items():
        if values:
            yield f"{behind} -n '{NAMED.format(name)}' -a '(__gossip_values {' '.join(values)})'"


def for_fish(table):
    lines = [f"complete -c {it} -f" for it in commands(table)]
    for key, words in table.items():
        lines += lines_for_fish(key, words, any(other.startswith(f"{key} ") for other in table))
    return text_with("completion.fish", {"made": MADE, "lines": "\n".join(lines)})


def commands(table):
    return dict.fromkeys(key.partition(" ")[0] for key in table)
