#!/usr/bin/env python3
"""Times the built program on the texts at the limits of each layer and on the long runs of conformance/made/large.py.

For each row: the bytes of its text, what is printed, the least
time of some turns, the whole process's own and the system's, and the most memory that it had.
"""
import subprocess
import sys
import tempfile
from pathlib import Path

sys.dont_write_bytecode = True
CONFORMANCE = Path(__file__).resolve().parents[1] / "conformance"
sys.path[:0] = [str(CONFORMANCE), str(CONFORMANCE / "made")]
import large
from measure import program_parser, start, taken

LAYERS = ["trees", "piton", "gypsy", "meaning"]


def write(number, folder):
    """Writes the text and the values of a row. It is done by a process of its own, since a process begins with the most memory of its parent."""
    rows = large.TEXTS + large.RUNS
    row = rows[int(number)]
    is_text = callable(row[3])
    Path(folder, "t").write_text(row[3]() if is_text else row[3])
    Path(folder, "v").write_text("" if is_text else row[4])


def main(program, layer):
    print("| Text | Command | Bytes | Printed | Time | Memory |\n|---|---|---|---|---|---|")
    for number, row in enumerate(large.TEXTS + large.RUNS):
        of, name, words = row[:3]
        if layer in (None, of):
            with tempfile.TemporaryDirectory() as folder:
                subprocess.run([sys.executable, __file__, "--write", str(number), folder], check=True)
                length = Path(folder, "t").stat().st_size
                seconds, memory, _, printed = taken(program, words, folder)
            print(f"| {name} | `{words.split()[0]}` | {length:,} | `{printed}` | {seconds:.2f} s | {memory} MB |", flush=True)


if __name__ == "__main__":
    parser = program_parser(__doc__)
    parser.add_argument("layer", nargs="?", choices=LAYERS, help="without one all are timed")
    start(parser, write, main)
