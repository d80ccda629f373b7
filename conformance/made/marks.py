"""Marks in the images that `build` stores: how many there are, and that each place that a run of the source comes to is one of theirs."""
import re
import struct

from rows import Row, Run

# A source whose main has no formals, how many marks its image has, and how many steps its run makes. They have each item of work: calls,
# loops, branches, handlers, conditions on their way out.
SOURCES = [
    ("(program main (proc main () () () () (call p () ())) (proc p () () () () (no-op)))", 8, 4),
    ("(program main (proc main () () () () (loop (signal leave))))", 6, 3),
    ("(program main (proc main () () ((b boolean true)) () (if b (no-op) (no-op))))", 8, 4),
    ("(program main (proc main () () () () (begin (signal routineerror) (routineerror) (no-op))))", 7, 4),
    ("(program main (proc main () (first second) () () (call p () (second))) (proc p () (bad) () () (signal bad)))", 8, 4),
    (
        "(program main (proc main () () ((n integer 2)) () (call p (n) ()))\n"
        "(proc p ((n integer)) () ((b boolean false) (one integer 1)) ()\n"
        "(seq (mg-simple-constant-eq b n 0) (if b (no-op) (seq (mg-integer-subtract n n one) (call p (n) ()))))))",
        14,
        19,
    ),
]

ASSIGNMENT = "(program main (proc main ((x integer)) () () () (mg-simple-constant-assignment x 7)))"


class Reader:
    """The fields of an image, one after the other."""

    def __init__(self, content):
        self.content, self.at = content, 0

    def number(self):
        self.at += 4
        return struct.unpack(">I", self.content[self.at - 4 : self.at])[0]

    def pass_by(self, numbers):
        self.at += 4 * numbers

    def pass_name(self):
        length = self.number()
        self.at += length

    def pass_names(self):
        for _ in range(self.number()):
            self.pass_name()

    def pass_variables(self):
        for _ in range(self.number()):
            self.pass_name()
            self.pass_by(3)


def marks_of(image):
    """The procedure and the place of each mark of an image of version 2, by ascending addresses."""
    fields = Reader(image)
    # The magic, the version, the window, the end, the registers, the flags and the condition address.
    fields.pass_by(23)
    fields.pass_names()
    fields.pass_variables()
    fields.pass_by(fields.number())
    for _ in range(fields.number()):
        fields.pass_name()
        fields.pass_names()
        fields.pass_variables()
    marks = [(fields.number(), fields.number(), fields.number()) for _ in range(fields.number())]
    return [(procedure, place) for _, procedure, place in marks]


def marked(source, count, steps):
    """A session that shows where each step begins, and the image, which has a mark for each of these places."""
    met = set()

    def meets(printed):
        shown = re.findall(rb"^at (\d+) depth", printed, re.MULTILINE)
        met.update(map(int, shown))
        return len(shown) == steps and printed.endswith(b"stepped 1 ended\n")

    def has_marks(files):
        found = marks_of(files["i"])
        return len(found) == count and met <= {place for _, place in found}

    files = {"s": source.encode(), "v": b"()", "d": b"show\nstep 1\n" * steps}
    runs = [Run(b"debug gypsy s v 100 100 d", meets, 0), Run(b"build s 100 100 i", b"built *\n", stored="i", content=has_marks)]
    return Row(f"marks.py: {count} marks", files, runs)


def rows():
    for source in SOURCES:
        yield marked(*source)
    wanted = [(0, place) for place in (48, 14, 14, 14)]
    run = Run(b"build s 100 100 i", b"built *\n", stored="i", content=lambda files: marks_of(files["i"]) == wanted)
    yield Row("marks.py: those of an assignment", {"s": ASSIGNMENT.encode()}, [run])
