"""Assembly texts of the FM9001: docs/languages/asm.md."""
import re

import beside  # noqa: F401
import manual
from languages import Mention, Offer, Part, declaration_of

LABEL = re.compile(rb"\s*([A-Za-z][A-Za-z0-9_*$-]*):")
NAMED = re.compile(rb"\s*\.(?:final|start|word) +([A-Za-z][A-Za-z0-9_*$-]*)")
WORD = re.compile(rb"\s*(\.[a-z]+|[A-Z][A-Z0-9]*)(\[[a-z]*\])?")


def lines(data):
    """Each line without its comment, with its place."""
    at = 0
    for line in data.split(b"\n"):
        yield at, line.split(b";")[0]
        at += len(line) + 1


def mentions(data):
    """All names of a text, and the operations of its instructions."""
    for at, line in lines(data):
        found = LABEL.match(line)
        if found:
            yield made("label", found, at, True, found.group(1).decode() + ": " + line[found.end():].strip().decode(errors="replace"))
            at, line = at + found.end(), line[found.end():]
        if found := NAMED.match(line):
            yield made("label", found, at)
        if found := WORD.match(line):
            yield made("operation", found, at)
            if found.group(2):
                yield made("store condition", found, at, group=2)


def words(data):
    """The places of the statements that are words, in their order."""
    for at, line in lines(data):
        found = LABEL.match(line)
        statement = WORD.match(line, found.end() if found else 0)
        if statement and statement.group(1) not in (b".base", b".size", b".final", b".start"):
            yield at + statement.start(1)


def made(kind, found, at, declares=False, detail="", group=1):
    name = found.group(group).decode().strip("[]")
    return Mention(kind, name, "", at + found.start(group), at + found.end(group), declares, detail)


def outline(data):
    return (Part("label", it.name, it.detail.partition(": ")[2], it.place, it.end, it.place, it.end) for it in mentions(data) if it.declares)


def said_of(data, one):
    if one.kind == "operation" and one.name.startswith("."):
        yield f"**{one.name}**: {manual.directives().get(one.name, '')}"
    elif one.kind == "operation":
        yield f"**{one.name} B,A** stores in B: {manual.machine_operations().get(one.name, 'no operation has this name')}"
    elif one.kind == "store condition":
        yield f"**[{one.name}]** The result is stored where the flags say: {manual.store_conditions().get(one.name, 'no condition has this name')}"
    else:
        declared = declaration_of(list(mentions(data)), one)
        yield f"**label** `{declared.detail}`" if declared else f"**{one.name}** isn't declared."


def offers(data, place):
    """Operations at the head of a statement, and labels behind a directive."""
    before = data[data.rfind(b"\n", 0, place) + 1:place]
    if re.search(rb"\.(final|start|word) +\S*$", before):
        yield from (Offer("label", it.name, it.name, it.detail) for it in mentions(data) if it.declares)
    else:
        yield from (Offer("predefined", name, name, said) for name, said in (manual.machine_operations() | manual.directives()).items())
