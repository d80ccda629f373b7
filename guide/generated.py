"""Which Piton and which words belong to which statement of a source, by what `pit` and `show` print: docs/proved/generated.md."""
import re
from bisect import bisect_right
from collections import defaultdict, namedtuple
from functools import cache

import manual
from trees import tree_of

# An instruction of Piton: its program, its number there, its label, its text, its address and how many words its code has, and its place in what `pit` stored.
Instruction = namedtuple("Instruction", "program number label text address words place")
# A variable of a procedure: its kind, its length, 0 of a simple one, and the word of a frame that has its index.
Variable = namedtuple("Variable", "name kind length offset")
Word = namedtuple("Word", "number text")

# An instruction with its label, as `pit` stores it, behind which lists may end; and the name of its operation.
LINE = re.compile(r"(?:\(dl (\S+) \(\) )?(\(.*)")
HEAD = re.compile(r"\(([^ )]+)")


class Image:
    """What `show` prints of an image."""

    def __init__(self, shown):
        field = dict(re.findall(r"^(base|size|final|condition) (\w+)$", shown, re.M))
        self.base, self.final, self.condition = (int(field.get(it, "0"), 16) for it in ("base", "final", "condition"))
        self.end = self.base + int(field["size"])
        rows = re.findall(r"^([0-9a-f]{8}) ([0-9a-f]{8}) (.*)$", shown, re.M)
        self.words = {int(address, 16): Word(int(number, 16), text) for address, number, text in rows}
        self.marks = [(int(address, 16), name, int(place)) for address, name, place in re.findall(r"^mark (\w+) (\S+) (\d+)$", shown, re.M)]
        self.variables, rows = {}, []
        for line in shown.splitlines():
            word, *rest = line.split(" ")
            if word == "procedure":
                self.variables[rest[0]] = rows = []
            elif word == "variable":
                rows.append(Variable(rest[0], rest[1], int(rest[2]), int(rest[3])))

    def word(self, address):
        """A word of the image and the instruction that it is."""
        return self.words.get(address, Word(0, "MOVE[cc] r0,r0"))

    def places(self):
        """The places of the source at which a run may stand."""
        return sorted({place for _, _, place in self.marks})


@cache
def taken_words(name, words):
    """Which words of the code of an instruction of Piton are no instructions, by docs/languages/fm9001.md: the operands that stand behind instructions,
    and those of a table."""
    at, found = 0, []
    for text in manual.codes()[name][0].split("; "):
        at += 1
        if re.search("[=@]", text):
            found.append(at)
            at += 1
    return found, range(at, words) if name == "jump-case" else ()


class Code:
    """The instructions of a system with their addresses, and the statement that each belongs to."""

    def __init__(self, pit, shown):
        self.image, self.pit = Image(shown), pit
        # The addresses of words that are no instructions: operands, which an instruction takes from behind it, and addresses in tables, to which one jumps.
        self.operands, self.tables = set(), set()
        self.entries, self.programs, self.frames, self.of_place = [], {}, {}, None
        self.read()
        if self.end != self.image.final:
            raise ValueError(f"the code of Piton ends at {self.end}, and that of the image at {self.image.final}")
        self.by_address = {it.address: it for rows in self.programs.values() for it in rows}
        self.marked = sorted((address, place) for address, _, place in self.image.marks)

    def read(self):
        """Reads the text as the program prints it: a line for each head of a program, which leaves a list open, and for each instruction."""
        first, *lines = self.pit.split(b"\n")
        self.end, at, rows = int(first.split()[4]), len(first) + 1, []
        for line in lines:
            if line.count(b"(") > line.count(b")"):
                rows = self.begin(tree_of(line))
            elif line:
                found = LINE.match(line.decode())
                text = found[2].removesuffix(")" * (found[2].count(")") - found[2].count("(")))
                head = HEAD.match(text)[1]
                words = manual.codes()[head][1] + (text.count(" ") if head == "jump-case" else 0)
                operands, table = taken_words(head, words)
                self.operands |= {self.end + it for it in operands}
                self.tables |= {self.end + it for it in table}
                rows.append(Instruction(self.entries[-1][1], len(rows), found[1] or "", text, self.end, words, at))
                self.end += words
            at += len(line) + 1

    def begin(self, tree):
        """Begins a program, whose prelude pushes r0, its temporaries' words, and its formals from the stack."""
        name, formals, temporaries = tree.item(0).text, tree.item(1).parts(), tree.item(2).parts()
        self.entries.append((self.end, name))
        self.operands |= {self.end + 2 + 2 * number for number in range(len(temporaries))}
        self.end += 2 + len(formals) + 2 * len(temporaries)
        self.frames[name], self.programs[name] = len(formals) + len(temporaries), []
        return self.programs[name]

    def shown_word(self, address):
        """A word as an instruction, or as a number if it is none."""
        word = self.image.word(address)
        return word.text if self.is_instruction(address) else f"= {word.number:08x}"

    def is_instruction(self, address):
        return address <= self.image.final and address not in self.operands and address not in self.tables

    def addresses_of(self, name):
        """The addresses of a program's code."""
        number = next(number for number, (_, it) in enumerate(self.entries) if it == name)
        ends = [address for address, _ in self.entries[number + 1:]]
        return range(self.entries[number][0], ends[0] if ends else self.end)

    def program_at(self, address):
        """The name of the program whose code has an address."""
        return self.entries[max(bisect_right(self.entries, (address, "\uffff")) - 1, 0)][1]

    def instruction_at(self, address):
        """The instruction of Piton whose code has an address, or None in a prelude and behind the code."""
        if address >= self.image.final:
            return None
        rows = self.programs[self.program_at(address)]
        number = bisect_right(rows, address, key=lambda it: it.address) - 1
        return rows[number] if number >= 0 else None

    def place_at(self, address):
        """The place of the statement whose code has an address, or None if it is no procedure of the source."""
        if self.program_at(address) not in self.image.variables:
            return None
        number = bisect_right(self.marked, (address, 1 << 60)) - 1
        found = self.marked[number] if number >= 0 else None
        return found[1] if found and self.program_at(found[0]) == self.program_at(address) else None

    def of_statement(self, place):
        """The instructions of Piton of the statement at a place, without those of the statements in it."""
        if self.of_place is None:
            self.of_place = defaultdict(list)
            for it in (it for name in self.image.variables for it in self.programs.get(name, [])):
                self.of_place[self.place_at(it.address)].append(it)
        return self.of_place[place]
