"""The languages that an editor is served: of each the names in a text, its outline, what may come at a place, and what is said of a name."""
import re
from collections import namedtuple

# A name in a text, from a place to an end: what it names, in which scope, and whether it is declared here; `detail` is how it is declared then.
Mention = namedtuple("Mention", "kind name scope place end declares detail", defaults=("",))
# A part of a text for its outline: from a place to an end, with its name from another place to another end, and the parts in it.
Part = namedtuple("Part", "kind name detail place end name_place name_end parts", defaults=((),))
# What may come at a place: what is shown, put in, and said of it.
Offer = namedtuple("Offer", "kind label insert detail said", defaults=("", ""))

NAME = re.compile(r"(?!(?:true|false)$)[A-Za-z][A-Za-z0-9_*$-]{0,63}")


def mention(kind, scope, tree, declares=False, detail=""):
    return Mention(kind, tree.text, scope, tree.place, tree.end, declares, detail)


def part(kind, tree, name, detail="", parts=()):
    return Part(kind, name.text or "", detail, tree.place, tree.end, name.place, name.end, tuple(parts))


def mention_at(mentions, place):
    """The name at a place, or right before it."""
    return next((it for it in mentions if it.place <= place < it.end), None) or next((it for it in mentions if it.end == place), None)


def same(mentions, one):
    """All mentions of what one names."""
    return [it for it in mentions if (it.kind, it.name, it.scope) == (one.kind, one.name, one.scope)]


def declaration_of(mentions, one):
    """Where what is named was declared: its first declaration, as the languages have it."""
    return next((it for it in same(mentions, one) if it.declares), None)
