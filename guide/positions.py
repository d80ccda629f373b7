"""Places of a text, which the program counts in bytes, and positions, which editors count in lines and in units of UTF-16, both from 0."""
from bisect import bisect_right


class Text:
    """The bytes of a text. A byte that is no text counts as one character."""

    def __init__(self, data):
        self.data, self.starts = data, [0]
        at = data.find(b"\n")
        while at >= 0:
            self.starts.append(at + 1)
            at = data.find(b"\n", at + 1)

    def line_of(self, place):
        return bisect_right(self.starts, place) - 1

    def where(self, place):
        """Line and column of a place, in bytes from 1, as `3:17`."""
        line = self.line_of(place)
        return f"{line + 1}:{place - self.starts[line] + 1}"

    def line(self, number):
        """The bytes of a line, without its end."""
        end = self.starts[number + 1] if number + 1 < len(self.starts) else len(self.data)
        return self.data[self.starts[number]:end].rstrip(b"\r\n")

    def position(self, place):
        """The position of a place, as an editor wants it."""
        place = min(place, len(self.data))
        number = self.line_of(place)
        return {"line": number, "character": units(self.data[self.starts[number]:place])}

    def place(self, position):
        """The place of an editor's position, or the end of its line if that is shorter."""
        if position["line"] >= len(self.starts):
            return len(self.data)
        start, left = self.starts[position["line"]], position["character"]
        for character in self.line(position["line"]).decode("utf-8", "surrogateescape"):
            if left <= 0:
                break
            left -= 2 if ord(character) > 0xFFFF else 1
            start += len(character.encode("utf-8", "surrogateescape"))
        return start

    def range(self, place, end):
        return {"start": self.position(place), "end": self.position(end)}


def units(data):
    """How many units of UTF-16 these bytes are."""
    text = data.decode("utf-8", "surrogateescape")
    return len(text) + sum(ord(it) > 0xFFFF for it in text)
