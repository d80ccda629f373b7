"""Images and values as the board of this folder is loaded with them, and its memory as the report of a run.

The files are those that the program accepts, which is asked before: nothing is judged here. Not proved: docs/languages/image-file.md,
docs/languages/values.md and docs/program/cli.md say what `cli_stack` makes of the same files, and .ci/checks/circuit.sh compares the two.
"""
import struct
import sys
from dataclasses import dataclass
from pathlib import Path

sys.path.append(str(Path(__file__).resolve().parent.parent / "guide"))
from sources import number_of, tree_of  # noqa: E402

WORDS = 2**32
NO_ADDRESS = WORDS - 1
KINDS = ("integer", "boolean", "character")
CONDITIONS = ("leave", "routineerror", "normal")    # the numbers 0, 1 and 2; an image names the others


@dataclass(frozen=True)
class Slot:
    """Where a variable is: item j is the word at `address` - j. The length is 0 for a simple type."""
    name: str
    kind: str
    length: int
    address: int


@dataclass(frozen=True)
class Image:
    """The window (its first address, how many words it has, and its first words), where a run begins and ends, and what memory is read
    as. `flags` is 8 for c, 4 for v, 2 for n and 1 for z, added; `condition` is None without a condition word."""
    base: int
    size: int
    final: int
    registers: list[int]
    flags: int
    condition: int | None
    names: list[str]
    slots: list[Slot]
    words: list[int]


class Reader:
    """The fields of an image file, one after another."""

    def __init__(self, data: bytes):
        self.data, self.place = data, 0

    def take(self, count: int) -> bytes:
        self.place += count
        return self.data[self.place - count:self.place]

    def numbers(self, count: int) -> list[int]:
        return list(struct.unpack(f">{count}I", self.take(4 * count)))

    def number(self) -> int:
        return self.numbers(1)[0]

    def name(self) -> str:
        return self.take(self.number()).decode("latin-1")

    def slot(self) -> Slot:
        name, (kind, length, address) = self.name(), self.numbers(3)
        return Slot(name, KINDS[kind], length, address)


def read_image(data: bytes) -> Image:
    """The image of a file, of version 1 or 2. The procedures and marks of version 2 aren't read: a run needs none."""
    it = Reader(data)
    it.take(8)
    base, size, final = it.numbers(3)
    registers, flags, condition = it.numbers(16), it.number(), it.number()
    names = [it.name() for _ in range(it.number())]
    slots = [it.slot() for _ in range(it.number())]
    words = it.numbers(it.number())
    return Image(base, size, final, registers, flags, None if condition == NO_ADDRESS else condition, names, slots, words)


def item_of(kind: str, text: bytes) -> int:
    """The number that stands for an item of a kind."""
    if kind == "boolean":
        return int(text == b"true")
    return number_of(text.decode().removeprefix("#"), WORDS)


def read_values(data: bytes, slots: list[Slot]) -> list[list[int]]:
    """The items of each slot, from a text of values, which has an entry for each."""
    values = {name.decode(): value if isinstance(value, list) else [value] for name, value in tree_of(data)}
    return [[item_of(slot.kind, item) for item in values[slot.name]] for slot in slots]


def loaded(image: Image, values: list[list[int]]) -> list[int]:
    """The words of the window: the image's, zeros, and the values in their slots."""
    memory = image.words + [0] * (image.size - len(image.words))
    for slot, items in zip(image.slots, values):
        for j, item in enumerate(items):
            memory[slot.address - j - image.base] = item % WORDS
    return memory


def condition_text(names: list[str], word: int) -> str:
    known = [*CONDITIONS, *names]
    return known[word] if word < len(known) else f"?{word}"


def item_text(kind: str, word: int) -> str:
    if kind == "integer":
        return str(word - WORDS if word >= WORDS // 2 else word)
    if kind == "boolean":
        return {0: "false", 1: "true"}.get(word, f"?{word}")
    return f"#{word}" if word <= 127 else f"?{word}"


def reading(image: Image, memory: list[int]) -> str:
    """What the window says: the lines of a report after its first, `finished N`."""
    lines = []
    if image.condition is not None:
        lines.append(f"condition {condition_text(image.names, memory[image.condition - image.base])}\n")
    for slot in image.slots:
        items = [item_text(slot.kind, memory[slot.address - j - image.base]) for j in range(slot.length or 1)]
        lines.append(f"{slot.name} = {'(' + ' '.join(items) + ')' if slot.length else items[0]}\n")
    return "".join(lines)
