"""The infix language: docs/languages/mini.md. What may come at a place is told by guide/infix.py."""
import beside  # noqa: F401
from infix import PATTERN, WORDS, expected_after, may_come, tokens_before
from languages import Mention, Offer, Part, declaration_of


def tokens(data):
    """The names and words of a program, each with its place."""
    text, at = data.decode("latin-1"), 0
    while at < len(text):
        found = PATTERN.match(text, at)
        if found and found.lastgroup:
            yield found.group(), found.lastgroup, at
        at = found.end() if found else at + 1


def mentions(data):
    """All names of a program."""
    before = ""
    for text, group, at in tokens(data):
        if group == "name" and text not in WORDS:
            sort = {"int": "a number", "bool": "a truth value"}.get(before)
            yield Mention("variable", text, "", at, at + len(text), bool(sort), f"{before} {text};, {sort}" if sort else "")
        before = text


def outline(data):
    return (Part("variable", it.name, it.detail.split(";")[0], it.place, it.end, it.place, it.end) for it in mentions(data) if it.declares)


def said_of(data, one):
    declared = declaration_of(list(mentions(data)), one)
    yield f"**variable** `{declared.detail}`" if declared else f"**{one.name}** isn't declared."


def offers(data, place):
    """What some program goes on with at a place."""
    text = data.decode("latin-1")
    while place and (text[place - 1].isalnum() or text[place - 1] == "_"):
        place -= 1
    stack = expected_after(tokens_before(text, place))
    kinds = may_come(stack) if stack is not None else []
    for kind in kinds:
        if kind == "a name":
            yield from (Offer("variable", it.name, it.name, it.detail) for it in mentions(data) if it.declares)
        elif kind in WORDS:
            yield Offer("form", kind, kind)
