"""Trees of texts in parentheses, also of such as are being written: a list that isn't closed ends with the text, and a `)` too many counts for nothing."""
from functools import lru_cache

from sources import tokens


class Tree:
    """An atom, with its text, or a list, with its items, from a place to an end."""

    def __init__(self, place, end, text=None):
        self.place, self.end, self.text, self.items = place, end, text, [] if text is None else None

    def head(self):
        """The first item of a list if that is an atom, or nothing."""
        return self.items[0].text or "" if self.items else ""

    def item(self, number):
        """An item, or an empty list if there are fewer."""
        return self.items[number] if self.items and number < len(self.items) else Tree(self.end, self.end)

    def parts(self):
        return self.items or []

    def walk(self):
        """The tree and all trees in it, in their order."""
        rest = [self]
        while rest:
            it = rest.pop()
            yield it
            rest.extend(reversed(it.parts()))


@lru_cache(8)
def tree_of(data):
    """The tree of a text, or an empty list. What has it changes nothing in it."""
    opened = [Tree(0, len(data))]
    for token, place in tokens(data):
        if token == b"(":
            made = Tree(place, len(data))
            opened[-1].items.append(made)
            opened.append(made)
        elif token == b")":
            if len(opened) > 1:
                opened.pop().end = place + 1
        else:
            opened[-1].items.append(Tree(place, place + len(token), token.decode(errors="replace")))
    return opened[0].item(0)


def path_to(tree, place):
    """The trees round a place, from the outermost to the innermost."""
    path = []
    while tree is not None and tree.place <= place <= tree.end:
        path.append(tree)
        tree = next((it for it in reversed(tree.parts()) if it.place <= place <= it.end), None)
    return path


def spelled(tree, width=100):
    """A tree on one line, cut if it is long."""
    text, rest = "", [tree]
    while rest and len(text) <= width:
        it = rest.pop()
        if isinstance(it, str):
            text += it
        elif it.text is not None:
            text += it.text
        else:
            text += "("
            rest.append(")")
            for number, part in reversed(list(enumerate(it.items))):
                rest += [part, " "] if number else [part]
    return text if len(text) <= width else f"{text[:width - 3]}..."
