"""Writes a page that shows a run of a source on every level: statement, Piton, words and memory, at every moment.

    page.py PROGRAM SOURCE VALUES CTRL TEMP BUDGET OUT.html [MOMENTS]

The page is one file and needs nothing else. This script only asks: what PROGRAM, the proved one, printed of the run goes into the page as it was
printed. The page's own script reads these texts, compares the levels and shows them; it is the same script in the page with an editor (live.py).
An infix program is lowered first, and shown beside its source. At most MOMENTS instructions are shown, 3,000 if left out.

The status is 0 where the page is written, 1 where the words are no such row, and else what PROGRAM ended with where it refuses something.
"""
import argparse
import base64
import gzip
import html
import json
import os
import re
import sys
from concurrent.futures import ThreadPoolExecutor
from pathlib import Path
from string import Template

from ends import end, store
from generated import Image
from printed import shows_of
from program import Program, TooMuch, carried_out, lower, number

HERE = Path(__file__).resolve().parent / "page"
MOMENTS = 3000
MOST_MOMENTS = 20000
# The most words that one line of a script asks for, about how many words one session prints, and at how many moments at most: a script has 1 MiB.
LINE, SESSION, ASKED = 4096, 250_000, 10_000
# The most bytes that the program prints for a page, which has them all.
MOST_ANSWERS = 100_000_000


# ---- Memory after each instruction ----

class Memory:
    """Asks for memory after each instruction that can write it: the condition word, and the words that the run uses of both stacks."""

    def __init__(self, program, shown, machines):
        self.program, self.image = program, Image(shown)
        numbers = [int(it, 16) for it in re.findall(r"^r\d+ ([0-9a-f]{8})$", machines, re.M)]
        self.registers = [numbers[it:it + 16] for it in range(0, len(numbers), 16)]
        self.parts = list(self.parts_of(program.sizes[0]))

    def parts_of(self, control):
        """The parts of memory that are asked for, each its first address and its length: the condition word, and what the run uses of the control
        stack, which ends where the other begins, and of that."""
        condition = self.image.condition
        begin = condition + 1 + control
        lowest = min(it[1] for it in self.registers if it[15] != self.image.final)
        top = min(it[2] for it in self.registers)
        for low, until in (condition, condition + 1), (lowest, begin), (top, self.image.end):
            yield from ((first, min(LINE, until - first)) for first in range(low, until, LINE))

    def writes(self, moment):
        """Whether the instruction of a moment can write memory: its target is no register."""
        operands = self.image.word(self.registers[moment][15]).text.partition(" ")[2]
        return not re.fullmatch(r"r\d+", operands.split(",")[0])

    def moments(self):
        """Each count of instructions after which memory is asked for, with what is printed."""
        counts = [0, *(it + 1 for it in range(len(self.registers) - 1) if self.writes(it))]
        asks = "".join(f"words {first} {size}\n" for first, size in self.parts)
        many = max(1, min(ASKED, SESSION // sum(size for _, size in self.parts)))
        for some in (counts[it:it + many] for it in range(0, len(counts), many)):
            steps = (f"step {count - before}\n{asks}" for before, count in zip([0, *some], some))
            yield from zip(some, shows_of(self.program.session("fm9001", "".join(steps)))[1:])


# ---- A run ----

def gather(program, budget, most):
    """What the program prints of a run, as the page's script reads it: guide/page/moments.js."""
    answers = {"infix": lower(program), "control": program.sizes[0], "temporary": program.sizes[1]}
    program.ask("check", "s")
    program.ask("pit", "s", *program.sizes, "p")
    program.ask("build", "s", *program.sizes, "i")
    answers["pit"] = (program.folder / "p").read_text()
    answers["show"] = program.ask("show", "i")
    answers["run"] = program.ask("run", "i", "v", budget, ends=(0, 5))
    last = min(int(answers["run"].split()[1]), most)
    answers["fm9001"] = program.moments("fm9001", "show\nup\n", last)
    made = program.steps_within("piton", last)
    answers["piton"], answers["cost"] = program.moments("piton", "show\nup\n", made), program.cost("piton", made)
    steps = program.steps_within("gypsy", last)
    answers["gypsy"] = program.moments("gypsy", "show\n", steps)
    with ThreadPoolExecutor(os.cpu_count()) as pool:
        answers["counts"] = list(pool.map(lambda it: program.cost("gypsy", it), range(steps + 1)))
    memory = Memory(program, answers["show"], answers["fm9001"])
    answers["parts"], answers["memory"] = memory.parts, list(memory.moments())
    answers["source"], answers["values"] = program.text("s"), program.text("v")
    return answers


# ---- The page ----

BELIEF = """Not proved: that this page shows what was printed. It was written by <code>{command}</code>, which asked the proved program {asked:,} \
times and put the answers in here as they were printed; the script of this page reads them, has compared the levels at each moment, and would show \
nothing but the difference had there been one. Nor that the system’s files and output hand on what the program reads and prints; nor what the README \
of the repository lists under <em>What is trusted</em>."""


UNPROVED = "<strong>The program itself wasn’t proved when this was written: a trial built it.</strong> "


def packed(content):
    """Bytes as they can stand in a page."""
    return base64.b64encode(gzip.compress(content, 9, mtime=0)).decode()


def script_of(name, folder=HERE):
    return (folder / name).read_text(encoding="utf-8")


def render(title, subtitle, belief, **parts):
    """The page, which is one file. Its parts beside these are texts for the places of page.html."""
    fill = dict.fromkeys(("style", "editor", "data", "tail", "body"), "") | parts
    fill["style"] = script_of("page.css") + fill["style"]
    fill |= {"title": html.escape(title), "subtitle": html.escape(subtitle), "belief": belief}
    fill |= {"moments": script_of("moments.js"), "script": script_of("page.js")}
    return Template(script_of("page.html")).substitute(fill)


def words_of_line():
    parser = argparse.ArgumentParser(prog="./stack page", description="Writes a page that shows a run on every level.")
    parser.add_argument("program", help=argparse.SUPPRESS)
    for name in ("source", "values"):
        parser.add_argument(name, metavar=name.upper(), type=Path)
    for name, metavar in (("control", "CTRL"), ("temporary", "TEMP"), ("budget", "BUDGET")):
        parser.add_argument(name, metavar=metavar, type=number)
    parser.add_argument("out", metavar="OUT.html", type=Path)
    parser.add_argument("moments", metavar="MOMENTS", type=number, nargs="?", default=MOMENTS)
    return parser


def write_page(words, line):
    """Asks, and writes the page."""
    with Program(words.program, words.source, words.values, words.control, words.temporary) as program:
        program.left = MOST_ANSWERS
        try:
            answers = gather(program, words.budget, min(words.moments, MOST_MOMENTS))
        except TooMuch:
            raise TooMuch(f"the page would have more than {MOST_ANSWERS:,} bytes of what the program prints: MOMENTS, the last word, takes fewer") from None
    belief = BELIEF.format(command=html.escape(" ".join(["./stack page", *line[1:]])), asked=program.asked)
    if os.environ.get("STACK_TRIED") == "1":
        belief = UNPROVED + belief.replace("the proved program", "that program")
    text = render(words.source.name, "every level of a run, at every moment", belief, data=packed(json.dumps(answers).encode()))
    # A name that is no text can't stand on the page.
    store(words.out, text.encode("utf-8", "replace"))
    print(f"written {words.out}")


if __name__ == "__main__":
    end(lambda: carried_out(words_of_line(), write_page, sys.argv[1:]))
