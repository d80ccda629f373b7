"""The activations of a run: their variables by `show all`, and the places of calls by the words of memory: docs/languages/piton.md, "On the processor"."""
import re
from collections import namedtuple

# An activation: its procedure, the place of the statement that is being done in it, and its variables.
Activation = namedtuple("Activation", "procedure place variables")


class Memory:
    """The words of memory at a moment of the processor."""

    def __init__(self, run, count):
        self.run, self.count = run, count
        shown = run.moment("fm9001", count).shown
        self.registers = [int(it.split()[1], 16) for it in shown[1:17]]
        self.flags = shown[17].removeprefix("flags ")

    def read(self, first, size):
        """So many words from an address on; None for one outside the window."""
        return self.run.words(self.count, first, size)


def waiting(lines):
    """The procedures that wait for a call, each with its variables, by the lines of `show all`; the newest first."""
    found = []
    for it in lines:
        head = re.fullmatch(r"in (\S+)", it)
        if head:
            found.append((head[1], []))
        elif found:
            found[-1][1].append(tuple(it.split(" = ", 1)))
    return found


def calls(run, count):
    """The places of the calls that procedures wait for, at a count at which the run is at a mark, and so each frame is one; the newest first."""
    memory, code, found = Memory(run, count), run.code, []
    address, top = memory.registers[:2]
    words = memory.read(top, run.image.condition + 1 + run.program.sizes[0] - top)
    name = code.program_at(memory.registers[15])
    while True:
        links = address - top + code.frames[name]
        address, back = words[links], words[links + 1]
        if not address:
            return found
        # It is the call before the address that the run comes back to.
        name = code.program_at(back - 1)
        found.append(code.place_at(back - 1))
