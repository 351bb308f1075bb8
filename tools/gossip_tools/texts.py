"""The texts beside the modules: words.toml, said.toml with what is said, page.css, page.html and picture.gnuplot."""
import functools
import pathlib
import re
import string
import tomllib

FOLDER = pathlib.Path(__file__).parent


def text_of(name):
    return (FOLDER / name).read_text("utf-8")


@functools.cache
def table_of(name):
    return tomllib.loads(text_of(name))


class Sentence(string.Formatter):
    """Fills a sentence: what it names is a value of what it is about, or what a method of that name answers."""

    def get_field(self, field_name, args, kwargs):
        found, first = super().get_field(field_name, args, kwargs)
        return (found() if callable(found) else found), first


def sentence(part, name):
    """A sentence of a part of said.toml, in one line."""
    return re.sub(r"\s*\n\s*", " ", table_of("said.toml")[part][name])


def said(part, name, it=None, /, **values):
    """A sentence of a part, filled: of something, as `it`, and of further values."""
    return Sentence().format(sentence(part, name), it=it, **values)


def speaker(part):
    return functools.partial(said, part)
