"""The pages of a package: those of this repository, with the names that commands and files have in a package, and
without what is for a clone alone."""
import posixpath
import re
import tomllib

from installed import TEXTS, Missing

# The pages of docs/ that show commands with their outputs, which scripts/check_guide runs.
WITH_OUTPUTS = ("guide.md", "by_hand.md", "study.md", "testing.md")
PAGES = ("README.md", *(f"docs/{page}" for page in WITH_OUTPUTS), "docs/model.md", "docs/formats.md")
# What stands between these marks is for a clone. Where the first one has a name, a package says something else there.
MARKED = re.compile(r"<!--clone(?::(\w+))?-->(.*?)<!--/clone-->", re.DOTALL)
INSTEAD = tomllib.loads((TEXTS / "pages.toml").read_text())
# The section that names contracts, which a package leaves out: a parenthesis with a name of code.
PROVED, CONTRACTS = re.compile(r"(?<=\n## What is proved\n).*?(?=\n## )", re.DOTALL), re.compile(r" \([^()]*`[^()]*\)")


def without_marks(text, page):
    """A page as a package says it, where that differs from a clone."""
    instead = INSTEAD.get(page, {})
    named = [name for name, _ in MARKED.findall(text) if name]
    if sorted(named) != sorted(instead):
        raise Missing(f"{page} has the marks {', '.join(named)} for what a package says otherwise, and not "
                      f"{', '.join(instead)}, which scripts/texts/pages.toml has.")
    text = MARKED.sub(lambda found: instead[found[1]] if found[1] else "", text)
    if "clone-->" in text:
        raise Missing(f"{page} has a mark <!--clone--> or <!--/clone--> without the other.")
    return PROVED.sub(lambda found: CONTRACTS.sub("", found[0]), text)


def target_in_package(target, page):
    """Where a link leads in a package, or None where that isn't there."""
    path, mark, place = target.partition("#")
    if not path or "://" in path:
        return target
    there = posixpath.normpath(posixpath.join(posixpath.dirname(page), path))
    if there.startswith("tools/gossip_tools/"):
        return f"{'../' * (3 + page.count('/'))}lib/gossip_bench/gossip_tools/{posixpath.basename(there)}"
    return target if there in PAGES or there.startswith("examples/") or there.endswith(".svg") else None


def linked(text, page):
    """The text without the links that lead nowhere in a package."""
    def link(found):
        words, target = found.groups()
        there = target_in_package(target, page)
        if there:
            return f"[{words}]({there})"
        return f"{words} of the repository" if words.endswith(".md") else words

    return re.sub(r"(?<!!)\[([^\]\n]*)\]\(([^)\s]*)\)", link, text)


def renamed(text):
    """The text with commands by their names on the path, and files of the tools by their place."""
    # (the file, where a command reads it)
    text = re.sub(r"(?<=' )tools/replay\.py(?= >)", '"$(command -v gossip_replay)"', text)
    text = re.sub(r"(?:tools/)?\breplay\.py\b", "gossip_replay", text)
    text = text.replace("tools/gossip_tools/", "lib/gossip_bench/gossip_tools/")
    return re.sub(r"tools/(?=gossip_)|\./(?=gossip_bench\b)", "", text)


def in_package(text, page):
    return renamed(linked(without_marks(text, page), page))
