#!/usr/bin/env python3
"""Random sources by `quick` and `run`, beside `go`: the same condition and values, in no more instructions.

Each seed makes a source, values and sizes, as in random_sources.py; of an odd seed the source has a quick image at these sizes. `run` of what `quick`
stored has to print what `go` prints, but for the number of instructions, which may be smaller; with one instruction less it has to be unfinished. At
sizes of the stacks that are too small both `build` and `quick` have to say so. The files of the two have to differ exactly if the source has a quick
image, which is counted here too. A seed for which this isn't so is told in a line.
"""
import re
import subprocess
import sys
import tempfile
from pathlib import Path
from random import Random

from random_sources import SECONDS, Case, Literal, Run, Statement, listed, random_case, try_seeds, words_of

FINISHED = re.compile(r"finished (\d+)\n(.*)", re.S)


# Calls nest at most so deep in line, and statements so deep; so much is made at most; and an image of so little has room in every window.
MOST_NESTED, MOST_LEVELS, MOST_LINED, SURELY_SMALL = 16, 200, 2**20, 2**15


class TooMuch(Exception):
    """Main's calls don't go in line."""


class Lining:
    """Counts what is made if main's calls go in line, for the sizes of a run."""

    def __init__(self, run: Run):
        self.run, self.size = run, 0
        main = run.stack[0]
        self.count(run.source.main.body, main.control, main.temporary, MOST_NESTED, MOST_LEVELS)

    def add(self, size: int):
        self.size += size
        if self.size > MOST_LINED:
            raise TooMuch

    def inside(self, statement: Statement, control: int, temporary: int, nested: int, levels: int):
        if levels <= 0:
            raise TooMuch
        self.count(statement, control, temporary, nested, levels - 1)

    def count(self, statement: Statement, control: int, temporary: int, nested: int, levels: int):
        """Counts a statement in an activation with so many words in use, in which calls and statements may still nest so deep."""
        if statement.word == "call":
            self.call(statement.items[0], control, temporary, nested, levels)
            return
        parts = [it for it in statement.items if isinstance(it, Statement)]
        self.add(len(parts) if statement.word == "seq" else 1)
        for part in parts:
            self.inside(part, control, temporary, nested, levels)

    def call(self, name: str, control: int, temporary: int, nested: int, levels: int):
        if nested == 0:
            raise TooMuch
        callee = self.run.source.procedures[name]
        control, temporary = control + 2 + len(callee.variables), temporary + words_of(callee.locals)
        enough = max(len(callee.variables), callee.most[1])
        if temporary + enough > self.run.temporary or control + callee.most[0] > self.run.control:
            self.add(1)
            return
        if any(it.type.length for it in callee.locals):
            raise TooMuch
        conditions = len(callee.conditions) + len(callee.local_conditions)
        self.add(1 + conditions + len(callee.locals))
        self.inside(callee.body, control, temporary, nested - 1, levels - conditions)


def has_quick(run: Run) -> bool | None:
    """Whether the source of a run has a quick image at its sizes; nothing if that isn't sure without the image's size."""
    try:
        return True if Lining(run).size <= SURELY_SMALL else None
    except TooMuch:
        return False


def case_of(seed: int) -> Case:
    rng = Random(seed)
    while True:
        case = random_case(rng)
        if seed % 2 == 0 or has_quick(case.run):
            return case


class Folder:
    """A folder with a source and values, in which commands are answered."""

    def __init__(self, program: str, folder: str, case: Case):
        self.program, self.path = program, Path(folder)
        formals = case.run.source.main.formals
        self.path.joinpath("s").write_text(case.run.source.text)
        self.path.joinpath("v").write_text(listed(f"({v.name} {Literal(v.type.kind, case.run.start[v.name])})" for v in formals))

    def ask(self, words: str) -> tuple[int, str]:
        made = subprocess.run([self.program, *words.split()], cwd=self.path, capture_output=True, text=True, timeout=SECONDS, check=False)
        return made.returncode, made.stdout + made.stderr

    def has_same(self, name: str, other: str) -> bool:
        return self.path.joinpath(name).read_bytes() == self.path.joinpath(other).read_bytes()


def difference(program: str, seed: int) -> str:
    """What isn't as it has to be, or nothing."""
    case = case_of(seed)
    run = case.run
    with tempfile.TemporaryDirectory() as name:
        folder = Folder(program, name, case)
        sizes, count = f"{run.control} {run.temporary}", run.instructions
        for tight in case.tight:
            words = f"s {tight.control} {tight.temporary} t"
            built, made = folder.ask(f"build {words}"), folder.ask(f"quick {words}")
            if built[0] != made[0] or built[0] != 0 and built != made:
                return f"quick {words} ends otherwise than build: {made}"
        went, made = folder.ask(f"go s v {sizes} {count} i"), folder.ask(f"quick s {sizes} q")
        if made[0] != 0 or not re.fullmatch(r"built \d+\n", made[1]):
            return f"quick s {sizes} q: {made}"
        if folder.has_same("i", "q") is has_quick(run):
            return f"quick s {sizes} q stores {'the plain image' if has_quick(run) else 'another image'}"
        ran = folder.ask(f"run q v {count}")
        told, wanted = FINISHED.fullmatch(ran[1]), FINISHED.fullmatch(went[1])
        if not told or not wanted or told[2] != wanted[2] or int(told[1]) > int(wanted[1]):
            return f"run q v {count}: wanted {went}, got {ran}"
        less = int(told[1]) - 1
        if less >= 0 and folder.ask(f"run q v {less}") != (5, f"unfinished {less}\n"):
            return f"run q v {less} isn't unfinished"
    return ""


def told_difference(program: str, seed: int) -> str:
    """The same, with the seed and its source."""
    found = difference(program, seed)
    return f"seed {seed}: {found}; source {case_of(seed).run.source.text!r}" if found else ""


if __name__ == "__main__":
    sys.exit(try_seeds(__doc__, told_difference))
