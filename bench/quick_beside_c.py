#!/usr/bin/env python3
"""Counts the instructions of examples: of their plain images and of what `quick` stores, on the FM9001, and of the same in C on this computer.

The C programs are examples.c, by tcc, `gcc -O0` and `gcc -O1`, as far as they are there. Their instructions are counted by `valgrind
--tool=callgrind`, from the first one of the function to its return. The table is printed as docs/working/benchmarks.md has it. An image's
instructions are checked: each index, and each sum that overflows. Those of the C programs aren't.
"""
import re
import shutil
import subprocess
import tempfile
from pathlib import Path

from measure import program_parser

HERE = Path(__file__).resolve().parent
EXAMPLES = HERE.parent / "examples"
STACKS = ["1000", "1000"]
BUDGET = "1000000000"
COMPILERS = {"`tcc`": ["tcc"], "`gcc -O0`": ["gcc", "-O0"], "`gcc -O1`": ["gcc", "-O1"]}
# The function of examples.c, the source, and its values.
PROGRAMS = [
    ("upto", "counting/upto.gypsy", "counting/upto.values"),
    ("clock_to_0", "counting/clock.gypsy", "counting/four.values"),
    ("sum", "arrays/sum.gypsy", "arrays/sum.values"),
    ("sort", "arrays/sort.gypsy", "arrays/sort.values"),
    ("letters", "characters/letters.gypsy", "characters/letters.values"),
    ("gcd", "infix/gcd.mini", "infix/gcd.values"),
    ("product", "numbers/product.gypsy", "numbers/product.values"),
    ("factorial", "numbers/factorial.gypsy", "numbers/factorial.values"),
    ("pass", "arrays/pass.gypsy", "arrays/pass.values"),
]


def printed(words, folder):
    return subprocess.run([*map(str, words)], cwd=folder, check=True, capture_output=True, text=True).stdout


def on_the_processor(program, source, values, folder):
    """The instructions of the plain image and of what `quick` stores, and whether these are two images."""
    if source.suffix == ".mini":
        printed([program, "mini", source, "source.gypsy"], folder)
        source = folder / "source.gypsy"
    went = printed([program, "go", source, values, *STACKS, BUDGET, "plain.image"], folder)
    printed([program, "quick", source, *STACKS, "quick.image"], folder)
    ran = printed([program, "run", "quick.image", values, BUDGET], folder)
    counts = [int(it.split("\n")[0].removeprefix("finished ")) for it in (went, ran)]
    if went.split("\n")[1:] != ran.split("\n")[1:]:
        raise SystemExit(f"{source}: the two images end otherwise")
    return *counts, (folder / "plain.image").read_bytes() != (folder / "quick.image").read_bytes()


def in_c(words, folder):
    """The instructions of each program in C, by a compiler with these words."""
    printed([*words, "-c", "-o", "examples.o", HERE / "examples.c"], folder)
    printed(["gcc", "-o", "run", HERE / "run_examples.c", "examples.o"], folder)
    counts = {}
    for name, *_ in PROGRAMS:
        line = ["valgrind", "--tool=callgrind", f"--toggle-collect={name}", "--callgrind-out-file=/dev/null", "./run", name]
        said = subprocess.run(line, cwd=folder, check=True, capture_output=True, text=True).stderr
        counts[name] = int(re.search(r"Collected : (\d+)", said)[1])
    return counts


def main():
    program = program_parser(__doc__).parse_args().program
    with tempfile.TemporaryDirectory() as name:
        folder = Path(name)
        beside = {title: in_c(words, folder) for title, words in COMPILERS.items() if shutil.which(words[0])}
        titles = ["Program", "Plain image", "By `quick`", *beside]
        print(f"| {' | '.join(titles)} |\n|{'---|' * len(titles)}")
        for function, source, values in PROGRAMS:
            plain, quick, is_quick = on_the_processor(program, EXAMPLES / source, EXAMPLES / values, folder)
            cells = [f"`{source}`", f"{plain:,}", f"{quick:,}" if is_quick else "the same", *(f"{it[function]:,}" for it in beside.values())]
            print(f"| {' | '.join(cells)} |")


if __name__ == "__main__":
    main()
