"""Where a place of a source is, and what stands there."""
from bisect import bisect_right

from positions import Text
from sources import tokens

WIDTH = 60


class Source:
    """A source of Micro-Gypsy that was accepted. A name is the text that the program read: a character for each byte. It is read once."""

    def __init__(self, content):
        self.data, self.ends, words, opened = content, {}, {}, []
        for token, place in tokens(content):
            if token == b"(":
                opened.append(place)
            elif token == b")":
                self.ends[opened.pop()] = place + 1
            elif len(opened) == 2:
                # A procedure is a list in the program's list, and its second atom, behind `proc`, is its name.
                words.setdefault(opened[1], []).append(token.decode("latin-1"))
        self.heads = {place: atoms[1] for place, atoms in words.items()}
        self.procedures, self.where = sorted(self.heads), Text(content).where

    def procedure(self, place):
        """The name of the procedure that a place is in."""
        return self.heads[self.procedures[bisect_right(self.procedures, place) - 1]]

    def statement(self, place, width=WIDTH):
        """What stands at a place, on one line and cut where it is long: no more of it is read. At a procedure's own place it is its end."""
        if place in self.heads:
            return f"end of {self.heads[place]}"
        flat, after, end = "", place, self.ends[place]
        for token, at in tokens(self.data, place, end):
            flat += (" " if at > after and token != b")" else "") + token.decode("latin-1")
            after = at + len(token)
            if len(flat) > width:
                return f"{flat[:width - 3]}..."
        return flat
