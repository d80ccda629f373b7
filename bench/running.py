#!/usr/bin/env python3
"""Times `run` on loop.image beside another interpreter of the processor, and shows the memory that large windows take.

Each is run nine times, the two by turns: user time of the whole process. Memory is the
most that the process had, of `run` on images of nothing but a window; GNU time tells it, since a process begins with the most of its parent.
"""
import os
import struct
import subprocess
import tempfile
from pathlib import Path

from measure import executable, program_parser

HERE = Path(__file__).resolve().parent
TURNS = 9
STEPS = 200_000_000
BUDGET = 1_000_000_000


def user_time(words, folder):
    """The user time of one run, in seconds."""
    process = subprocess.Popen(words, cwd=folder, stdout=subprocess.DEVNULL)
    _, _, usage = os.wait4(process.pid, 0)
    return usage.ru_utime


def by_turns(commands, folder):
    """The user times of each command, in order of length, where the commands take turns."""
    turns = [[user_time(words, folder) for words in commands] for _ in range(TURNS)]
    return [sorted(times) for times in zip(*turns)]


def window_image(size):
    """An image with a window of so many words, which ends where it begins."""
    return b"FM91" + struct.pack(">25I", 1, 0, size, 0, *[0] * 16, 0, 0xFFFFFFFF, 0, 0, 0)


def megabytes(words, folder):
    """The most memory that a command had."""
    ran = subprocess.run(["/usr/bin/time", "-f", "%M", *words], cwd=folder, capture_output=True, text=True, check=True)
    return int(ran.stderr) / 1024


def main():
    parser = program_parser(__doc__)
    parser.add_argument("interpreter", type=executable, nargs="*", help="takes an image of version 1 and a budget")
    words = parser.parse_args()
    program, interpreters = str(words.program), words.interpreter
    with tempfile.TemporaryDirectory(prefix="running-") as room:
        folder = Path(room)
        (folder / "none.values").write_text("()")
        run = [program, "run", str(HERE / "loop.image"), "none.values", str(BUDGET)]
        others = [[str(it), str(HERE / "loop.image"), str(BUDGET)] for it in interpreters]
        for words, times in zip([run, *others], by_turns([run, *others], folder)):
            best, median = times[0], times[TURNS // 2]
            print(f"{Path(words[0]).name}: best {STEPS / best / 1e6:.1f}, median {STEPS / median / 1e6:.1f} million steps a second")
        for size in (1, 1 << 10, 1 << 15, 1 << 20):
            (folder / "window.image").write_bytes(window_image(size))
            print(f"a window of {size} words: {megabytes([program, 'run', 'window.image', 'none.values', '1'], folder):.1f} MB")


if __name__ == "__main__":
    main()
