#!/usr/bin/env python3
"""What a step takes: the computer's instructions, by callgrind, so on any machine alike; or with --times nanoseconds, on a quiet machine.

    python3 bench/steps.py [--times] PROGRAM [INTERPRETER ..]

`run` makes the steps of four images: a loop of four instructions, a linked loop of Micro-Gypsy, a large generated program that runs once, and
a linked loop of Piton. INTERPRETER takes an image of version 1 and a budget, and makes the same steps. What a run with a budget of no step
takes is left out. Both tables are printed as docs/working/benchmarks.md has them.

Without --times, `mean` and `prun` make the steps of the second and the last one's texts, too; wanted is valgrind. With it the loops have
forty times as many rounds, and all programs take turns: the time of a process is its own and the system's.
"""
import os
import re
import statistics
import struct
import subprocess
import sys
import tempfile
from pathlib import Path

import programs
from measure import executable, parser_of

HERE = Path(__file__).resolve().parent
BUDGET = 1_000_000_000
STACKS = ["100", "100"]

TURNS = 15
MORE = 40
TITLES = {
    "loop": "the loop of four instructions",
    "linked": "a linked loop of Micro-Gypsy",
    "large": "a large generated program that runs once",
    "piton": "a linked loop of Piton",
}

GYPSY_LOOP = """(program main
(proc main () () ((n integer {}) (b boolean false) (one integer 1)) ()
(loop (seq (mg-simple-constant-eq b n 0) (if b (signal leave) (mg-integer-subtract n n one))))))
"""

PITON_LOOP = """(piton main 3 2 0 () () (main () ((n (nat 0)))
(push-constant (nat {})) (pop-local n)
(dl loop () (push-local n)) (sub1-nat) (set-local n) (test-nat-and-jump not-zero loop) (ret)))
"""


def plain(image):
    """The same window, registers, flags and words as an image of version 1, without names."""
    place = 4

    def number():
        nonlocal place
        place += 4
        return struct.unpack_from(">I", image, place - 4)[0]

    def name():
        nonlocal place
        length = number()
        place += length

    version, base, size, final, *registers, flags, _condition = (number() for _ in range(22))
    assert image[:4] == b"FM91" and version in (1, 2)
    for _ in range(number()):
        name()
    for _ in range(number()):
        name()
        place += 12
    words = [number() for _ in range(number())]
    fields = [1, base, size, final, *registers, flags, 0xFFFFFFFF, 0, 0, len(words), *words]
    return b"FM91" + struct.pack(f">{len(fields)}I", *fields)


def collected(words, folder):
    """The computer's instructions of a process, and what it printed."""
    ran = subprocess.run(
        ["valgrind", "--tool=callgrind", "--callgrind-out-file=/dev/null", *map(str, words)], cwd=folder, capture_output=True, text=True
    )
    return int(re.search(r"Collected : (\d+)", ran.stderr)[1]), ran.stdout


def a_step(command, steps_of, folder):
    """The steps that a command makes, and the instructions of each; `command` gives its words for a budget."""
    whole, printed = collected(command(BUDGET), folder)
    started, _ = collected(command(0), folder)
    steps = int(re.search(steps_of, printed)[1])
    return steps, (whole - started) / steps


def make_images(program, folder, times=1):
    """Writes the four images, all of version 1, whose loops have so many times their rounds."""
    subprocess.run([sys.executable, HERE / "loop_image.py", str(250_000 * times)], cwd=folder, check=True)
    (folder / "linked.gypsy").write_text(GYPSY_LOOP.format(20_000 * times))
    (folder / "large.gypsy").write_text(programs.source_of(200, 4))
    (folder / "piton.piton").write_text(PITON_LOOP.format(200_000 * times))
    (folder / "none.values").write_text("()")
    for made in (
        ["build", "linked.gypsy", *STACKS, "linked.image"],
        ["build", "large.gypsy", *STACKS, "large.image"],
        ["pbuild", "piton.piton", "piton.image"],
    ):
        subprocess.run([program, *made], cwd=folder, check=True, stdout=subprocess.DEVNULL)
    for name in TITLES:
        path = folder / f"{name}.image"
        path.write_bytes(plain(path.read_bytes()))


def runs(program, interpreters, name):
    """For each program the words of a run of an image within a budget."""
    yield lambda budget: [program, "run", f"{name}.image", "none.values", str(budget)]
    for interpreter in interpreters:
        yield lambda budget, it=interpreter: [it, f"{name}.image", str(budget)]


def steps_of(program, name, folder):
    """How many steps an image makes."""
    ran = subprocess.run([program, "run", f"{name}.image", "none.values", str(BUDGET)], cwd=folder, capture_output=True, text=True)
    return int(re.search(r"finished (\d+)", ran.stdout)[1])


def count(program, interpreters, folder):
    """Prints the instructions of each step, and those of the texts' own machines."""
    print("| Image | Steps | `run` |" + "".join(f" {Path(it).name} | Ratio |" for it in interpreters))
    print("|---|---|---|" + "---|---|" * len(interpreters))
    for name, title in TITLES.items():
        steps = steps_of(program, name, folder)
        own, *others = [
            (collected(command(BUDGET), folder)[0] - collected(command(0), folder)[0]) / steps for command in runs(program, interpreters, name)
        ]
        print(f"| {title} | {steps:,} | {own:.1f} |" + "".join(f" {it:.1f} | {it / own:.2f} |" for it in others), flush=True)
    for command, answer in (
        (["mean", "linked.gypsy", "none.values", *STACKS], r"steps (\d+)"),
        (["prun", "piton.piton"], r"halted (\d+)"),
    ):
        steps, taken = a_step(lambda budget, words=command: [program, *words, budget], answer, folder)
        print(f"{command[0]}: {taken:.1f} instructions a step, of {steps} steps")


def time_of(words, folder):
    """The time of one process, its own and the system's, in nanoseconds."""
    process = subprocess.Popen(words, cwd=folder, stdout=subprocess.DEVNULL)
    usage = os.wait4(process.pid, 0)[2]
    return (usage.ru_utime + usage.ru_stime) * 1e9


def time(program, interpreters, folder):
    """Prints the nanoseconds of each step: the least and the median of all turns, and how often the own step goes into the other's."""
    print("| Image | Steps | `run`, least | Median |" + "".join(f" {Path(it).name}, least | Median | Ratio |" for it in interpreters))
    print("|---|---|---|---|" + "---|---|---|" * len(interpreters))
    for name, title in TITLES.items():
        steps = steps_of(program, name, folder)
        commands = list(runs(program, interpreters, name))
        turns = [[time_of(command(BUDGET), folder) - time_of(command(0), folder) for command in commands] for _ in range(TURNS)]
        (least, median), *others = [(min(it) / steps, statistics.median(it) / steps) for it in zip(*turns)]
        rest = "".join(f" {low:.2f} | {middle:.2f} | {middle / median:.2f} |" for low, middle in others)
        print(f"| {title} | {steps:,} | {least:.2f} | {median:.2f} |{rest}", flush=True)


def main():
    parser = parser_of(__doc__)
    parser.add_argument("--times", action="store_true", help="nanoseconds in place of instructions")
    parser.add_argument("program", type=executable, help="cli_stack")
    parser.add_argument("interpreters", nargs="*", type=executable, help="interpreters of the same processor")
    words = parser.parse_args()
    with tempfile.TemporaryDirectory(prefix="steps-") as room:
        folder = Path(room)
        make_images(words.program, folder, MORE if words.times else 1)
        (time if words.times else count)(words.program, words.interpreters, folder)


if __name__ == "__main__":
    main()
