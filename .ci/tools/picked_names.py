#!/usr/bin/env python3
"""Tries labels that were picked to collide: `pcheck` and `asm` make as many instructions of them as of ordinary ones, and say the same.

    python3 .ci/tools/picked_names.py PROGRAM

Under the fixed seed of the standard library's hasher the picked names begin their search at one place of a hash table, so a table without a key of its own
looks at all of them for each. Valgrind counts the instructions: no time is taken. The exit status is 1 where picked names took more than a tenth more than
ordinary ones, and 2 where there is no Valgrind, or it can't run the program, as one with an address sanitizer.
"""
import re
import shutil
import subprocess
import sys
import tempfile
from itertools import islice, product
from pathlib import Path
from string import ascii_letters

sys.path.append(str(Path(__file__).resolve().parents[2] / "tools"))

from arguments import parser_of  # noqa: E402
from arguments import program as executable  # noqa: E402

COUNT, LENGTH, BITS, MORE = 2000, 8, 9, 1.1
COUNTED = ["valgrind", "--tool=cachegrind", "--cache-sim=no", "--cachegrind-out-file=/dev/null"]
WORD, MULTIPLIER, SEED = 2**64 - 1, 0x9E3779B97F4A7C15, 0x243F6A8885A308D3


class NotCounted(Exception):
    """Nothing is known of how many instructions a program makes, for the reason that the text says."""


def folded(left, right):
    """Both halves of a product, one over the other."""
    whole = left * right
    return (whole ^ whole >> 64) & WORD


def taken(state, byte):
    """The hasher's state behind a byte."""
    return folded(state ^ byte * 0x010101, MULTIPLIER ^ 2)


def picked():
    """Names whose hashes have low bits 0, under the fixed seed: the length as a number of 8 bytes, and then each byte."""
    begin = folded(SEED ^ LENGTH, MULTIPLIER ^ 16)
    for front in product(ascii_letters, repeat=LENGTH - 1):
        state = begin
        for it in front:
            state = taken(state, ord(it))
        for last in ascii_letters:
            made = taken(state, ord(last))
            if not (made ^ made >> 32) & (2**BITS - 1):
                yield "".join(front) + last


def piton(names):
    return f"(piton main 9 9 0 () () (main () (){''.join(f'(dl {it}()(no-op))' for it in names)}(ret)))"


def assembly(names):
    return f".base 0\n.size {len(names)}\n.final 0\n.start 0\n" + "".join(f"{it}: .word 0\n" for it in names)


def instructions(program, words, text):
    """What a command says of a text, and how many instructions it makes."""
    with tempfile.TemporaryDirectory() as room:
        Path(room, "t").write_text(text)
        ran = subprocess.run([*COUNTED, program, *words], cwd=room, capture_output=True, text=True, check=False)
    found = re.search(r"I\s+refs:\s+([0-9,]+)", ran.stderr)
    if not found:
        raise NotCounted(f"valgrind doesn't run the program to its end: {ran.stderr[-200:]!r}")
    return (ran.returncode, ran.stdout), int(found[1].replace(",", ""))


def counted(program):
    """Whether picked names take no more instructions than ordinary ones."""
    chosen, ordinary, failed = list(islice(picked(), COUNT)), [f"l{it:07d}" for it in range(COUNT)], 0
    for command, form in (["pcheck", "t"], piton), (["asm", "t", "o"], assembly):
        (said, few), (also, many) = (instructions(program, command, form(it)) for it in (ordinary, chosen))
        holds = said[0] == 0 and said == also and many < MORE * few
        failed += not holds
        print(f"{command[0]}: {COUNT} ordinary names {few:,} instructions, picked ones {many:,}{'' if holds else ': FAILED'}")
    return not failed


def main():
    parser = parser_of(__doc__)
    parser.add_argument("program", type=executable, help="cli_stack")
    program = parser.parse_args().program
    if not shutil.which(COUNTED[0]):
        print("valgrind isn't there: apt-get install valgrind")
        return 2
    try:
        return 0 if counted(program) else 1
    except NotCounted as fault:
        print(fault)
        return 2


if __name__ == "__main__":
    sys.exit(main())
