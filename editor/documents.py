"""The texts that an editor holds, each in its language, and the names of files as an editor writes them."""
import re
from functools import cached_property
from pathlib import Path
from urllib.parse import quote, unquote_to_bytes, urlsplit

from languages import assembly, gypsy, infix, mention_at, piton, values
from positions import Text
from trees import tree_of

# The module of each language. Nothing in a debug script is named.
LANGUAGES = {"gypsy": gypsy, "piton": piton, "mini": infix, "asm": assembly, "values": values, "script": None}
PARENTHESES = ("gypsy", "piton", "values")
# What some editors call the languages that have another name here.
OTHER_NAMES = {"stackvalues": "values", "fm9001": "asm"}
# A source that a comment at the head of a line names.
NAMED = re.compile(rb"^;.*?([\w./-]+\.(?:gypsy|mini))", re.M)


def path_of(uri):
    """The file of an address. A byte that is no text stays the byte that it is."""
    return Path(unquote_to_bytes(urlsplit(uri).path).decode("utf-8", "surrogateescape"))


def address_of(path):
    """The address of a file."""
    return "file://" + quote(str(path).encode("utf-8", "surrogateescape"))


class Document:
    """A text that the editor holds."""

    def __init__(self, address, language, data):
        self.address, self.text, self.path = address, Text(data), path_of(address)
        language, ending = OTHER_NAMES.get(language, language), self.path.suffix[1:]
        self.language = language if language in LANGUAGES else ending if ending in LANGUAGES else "gypsy"
        self.module = LANGUAGES[self.language]

    @property
    def data(self):
        return self.text.data

    @cached_property
    def mentions(self):
        """All names in it."""
        return list(self.module.mentions(self.data)) if self.module else []

    def mention(self, position):
        """The name at a position, or None."""
        return mention_at(self.mentions, self.text.place(position))

    def end_of(self, place):
        """Where what is at a place ends, at most with its line."""
        number = self.text.line_of(place)
        end = self.text.starts[number] + len(self.text.line(number))
        if self.language in PARENTHESES:
            tree = next((it for it in tree_of(self.data).walk() if it.place == place), None)
            end = min(end, tree.end if tree else place + 1)
        elif self.language == "mini":
            end = place + len(re.match(rb"\w+|:=|<=|.?", self.data[place:]).group())
        return max(end, min(place + 1, len(self.data)))


def sources_of(path, data):
    """The sources that values may be for: the one that a comment names, else that of the same name, else all beside them."""
    for name in NAMED.findall(data):
        if (path.parent / name.decode()).is_file():
            return [path.parent / name.decode()]
    named = [it for it in (path.with_suffix(".gypsy"), path.with_suffix(".mini")) if it.is_file()]
    return named or sorted(it for it in path.parent.glob("*.*") if it.suffix in (".gypsy", ".mini"))
