#!/usr/bin/env python3
"""Tries `./stack end`: the words that it prints after random programs for the processor, beside those of a model of it in Python.

    python3 .ci/tools/end_rows.py PROGRAM

A line of `end` is an address, the word that was there, and the word that is there. Each word that the model changed has one line, and no other has any.
Two windows take more than one run: one by the number of its words, one by the text of their values. A run that doesn't come to its end has the status
and the line of `run`. The exit status is 1 where something differed.
"""
import struct
import subprocess
import sys
import tempfile
from pathlib import Path
from random import Random

import fm9001
import random_programs

sys.path.append(str(Path(__file__).resolve().parents[2] / "tools"))

from arguments import parser_of  # noqa: E402
from arguments import program as executable  # noqa: E402

TOP = Path(__file__).resolve().parents[2]
MACHINES = 60
MOVE, PC = 0, 15
POINTER, PUT = 1, 9


def large(words, places):
    """A machine with these words, which puts a number at each of the places."""
    code = []
    for place in places:
        code += [random_programs.word(MOVE, 0, POINTER, 3, PC), place, random_programs.word(MOVE, 1, POINTER, 0, 0) | 1 << 9 | PUT]
    return 0, len(words), len(code), [0] * 16, 0, code + words[len(code):], 3 * len(places)


def machines(rng):
    """Machines of random programs, and two with large windows."""
    yield from ((random_programs.machine_of_edges if number % 2 else random_programs.machine)(rng) for number in range(MACHINES))
    yield large([0] * 850_000, [100, 4095, 4096, 819_199, 819_200, 849_999])
    yield large([2**31 + 1] * 200_000, [100, 99_999, 150_000, 199_999])


def image(it):
    base, size, final, registers, flags, words, _ = it
    return b"FM91" + struct.pack(f">{25 + len(words)}I", 1, base, size, final, *registers, flags, 2**32 - 1, 0, 0, len(words), *words)


def by_model(it):
    """What `end` is to print, and its status."""
    base, _, final, registers, flags, words, budget = it
    model = fm9001.Machine(base, words, registers, flags)
    count, outside = model.run(budget, final)
    if outside:
        return 6, f"outside {outside} after {count}\n"
    if model.registers[PC] != final:
        return 5, f"unfinished {count}\n"
    lines = (f"{base + at:08x} {old:08x} {new:08x}\n" for at, (old, new) in enumerate(zip(words, model.memory)) if old != new)
    return 0, f"finished {count}\n" + "".join(lines)


def main():
    parser = parser_of(__doc__)
    parser.add_argument("program", type=executable, help="cli_stack")
    program, differing, seen = parser.parse_args().program, 0, [0, 0, 0]
    with tempfile.TemporaryDirectory() as room:
        path, none = Path(room, "image"), Path(room, "none")
        none.write_text("()")
        for number, it in enumerate(machines(Random(1))):
            path.write_bytes(image(it))
            words = [sys.executable, TOP / "guide/final_memory.py", program, path, none, str(it[-1])]
            ran = subprocess.run(words, capture_output=True, text=True, check=False)
            wanted = by_model(it)
            seen[{0: 0, 5: 1, 6: 2}[wanted[0]]] += 1
            if (ran.returncode, ran.stdout) != wanted:
                differing += 1
                print(f"end: machine {number}: {ran.returncode} {ran.stdout[:200]!r}, wanted {wanted[0]} {wanted[1][:200]!r} {ran.stderr[-200:]}")
    print(f"end: {seen[0]} programs finished, {seen[1]} didn't, {seen[2]} left the window; {differing} differed")
    return 1 if differing or min(seen) == 0 else 0


if __name__ == "__main__":
    sys.exit(main())
