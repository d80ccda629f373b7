"""Runs a text of Piton or of assembly for `try`, and prints what it leaves in its data areas, or in the words that have a label."""
import re
from pathlib import Path

import assembly
from final_memory import MOST_IMAGE, changed, ran, signed

# The most bytes of a text of each kind.
LIMITS = {"piton": 16_777_216, "assembly": MOST_IMAGE}
FIRST = re.compile(rb"(?:\s|;[^\n]*\n)*(\(\s*piton\b|\.base\b|[A-Za-z][A-Za-z0-9_*$-]*:(?!=))")


def kind_of(data):
    """Whether a text is one of Piton or of assembly, by what it begins with after comments; nothing for any other text."""
    first = FIRST.match(data)
    return None if first is None else "piton" if first[1].startswith(b"(") else "assembly"


def labels(data):
    """The labels of an assembly text in their order: of each its name, how many words are before it, and whether a `.word` stands there, or nothing more."""
    count, waiting = 0, []
    for line in assembly.all_lines(data):
        if line.label:
            waiting.append(line.label)
        if line.statement and line.word not in assembly.HEADER:
            yield from ((name, count, line.word == ".word") for name in waiting)
            count, waiting = count + 1, []
    yield from ((name, count, True) for name in waiting)


def labelled(data, image, before, after):
    """The names of words that are data, with where they begin and end in the window. The last of them ends with the text's words, or with what the run
    changed last."""
    found = list(labels(data))
    used = max([len(image.words), *(index + 1 for index, (old, new) in enumerate(zip(before, after)) if old != new)])
    for name, start, is_data in found:
        if is_data and start < image.size:
            yield name, start, min((it for _, it, _ in found if it > start), default=max(used, start + 1))


def areas(printed, image):
    """The data areas of a Piton text, with where they begin and end in the window: they follow the word at the final program counter."""
    start = image.final - image.base + 1
    # The lines between the two counts and the stack.
    for line in printed.splitlines()[2:-1]:
        yield line.split(" ")[0], start, start + line.count("(")
        start += line.count("(")


def named_lines(named, after):
    """A line for each name with its words, as numbers with a sign."""
    for name, start, end in named:
        words = " ".join(str(signed(it)) for it in after[start:end])
        yield f"{name} = {words if end == start + 1 else f'({words})'}\n"


def after_piton(program, room, image, printed):
    """What the run of a linked Piton text prints, and leaves in the areas, after `prun` printed this of the text."""
    counted = re.search(r"^counted (\d+)$", printed, re.M)[1]
    values = Path(room, "none")
    values.write_text("()", encoding="ascii")
    told, image, _, after = ran(program, room, image, values, counted)
    return told + "".join(named_lines(areas(printed, image), after))


def after_assembly(program, room, image, data, budget):
    """What the run of an assembled text prints, and leaves in the words with labels; and which other words it changed."""
    values = Path(room, "none")
    values.write_text("()", encoding="ascii")
    told, image, before, after = ran(program, room, image, values, budget)
    named = list(labelled(data, image, before, after))
    shown = {it for _, start, end in named for it in range(start, end)}
    return told + "".join(named_lines(named, after)) + "".join(changed(image, before, after, shown))
