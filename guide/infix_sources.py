"""Which statement of an infix program a place of its lowered source belongs to, by the form that docs/languages/mini.md gives: "The lowered source"."""
from collections import namedtuple

from infix import tokens_before
from places import WIDTH
from positions import Text
from trees import tree_of

# A statement: its kind, where it begins, where it or its head ends, in how many blocks it is, and its blocks.
Statement = namedtuple("Statement", "kind place end depth blocks")
# What a place of the lowered source is: the statement that it belongs to, and whether something is computed there.
Tie = namedtuple("Tie", "statement is_computing")


class Reader:
    """Reads the statements of an accepted program, in blocks."""

    def __init__(self, text):
        self.tokens, self.next = tokens_before(text, len(text)), 0

    def behind(self, wanted):
        """Goes behind the next token of a kind. Where the one before it ends, and that one itself, is returned."""
        while self.tokens[self.next].kind != wanted:
            self.next += 1
        self.next += 1
        return tuple(it.place + len(it.text) for it in self.tokens[self.next - 2:self.next])

    def block(self, depth=0):
        """The statements up to the end of a block, or of the text."""
        made = []
        while self.next < len(self.tokens) and self.tokens[self.next].kind != "}":
            kind, _, place = self.tokens[self.next]
            if kind in ("int", "bool"):
                self.behind(";")
            elif kind in ("while", "if"):
                head, _ = self.behind("{")
                blocks = [self.block(depth + 1)]
                if kind == "if":
                    self.behind("{")
                    blocks.append(self.block(depth + 1))
                made.append(Statement(kind, place, head, depth, blocks))
            else:
                made.append(Statement(":=", place, self.behind(";")[1], depth, []))
        self.next += 1
        return made


def tied(statements, block):
    """The places of a lowered block, each with what it is."""
    rest = iter(block.items[2:])
    for one in statements:
        for it in rest:
            yield it.place, Tie(one, one.kind == ":=" or it.head() not in ("if", "loop"))
            if is_last(one.kind, it):
                break
        if one.kind == ":=":
            continue
        branch = it
        if one.kind == "while":
            inner = it.item(1)
            *calls, branch = inner.items[1:]
            yield from ((call.place, Tie(one, True)) for call in calls)
            # The round itself, the `if` in it and the way out of the loop.
            yield from ((place.place, Tie(one, False)) for place in (inner, branch, branch.item(3)))
        for own_block, lowered in zip(one.blocks, branch.items[2:]):
            yield from ((place.place, Tie(one, False)) for place in (lowered, lowered.item(1)))
            yield from tied(own_block, lowered)


def is_last(kind, lowered):
    """Whether a lowered statement is the last one of its statement."""
    if kind == ":=":
        return lowered.head() == "mg-simple-variable-assignment" and "$" not in lowered.item(1).text
    return lowered.head() == ("loop" if kind == "while" else "if")


class InfixSource:
    """An infix program with its lowered source, whose places lead to its statements."""

    def __init__(self, text, lowered):
        self.text, self.lines = text, Text(text.encode("latin-1"))
        self.ties = dict(tied(Reader(text).block(), tree_of(lowered).item(2).item(6)))
        statements = sorted((it.statement for it in self.ties.values()), key=lambda it: it.place)
        self.first, self.last = (statements[0], statements[-1]) if statements else (None, None)

    def tie(self, place):
        """What a place of the lowered source is; None where it belongs to no statement."""
        return self.ties.get(place)

    def statement_at(self, place):
        """The statement that a place of the lowered source belongs to; of its first place, and of its end, the first and the last one in the text."""
        tie = self.ties.get(place)
        if tie:
            return tie.statement
        return self.first if place < min(self.ties, default=0) else self.last

    def where(self, one):
        """Line and column of a statement."""
        return self.lines.where(one.place)

    def statement(self, one):
        """A statement, or the head of one with blocks, on one line and cut where it is long."""
        flat = " ".join(self.text[one.place:one.end].split())
        return flat if len(flat) <= WIDTH else f"{flat[:WIDTH - 3]}..."


def own(variables):
    """The variables without the temporaries, whose names no infix program can have."""
    return {name: value for name, value in variables.items() if "$" not in name}
