#!/usr/bin/env python3
"""Counts what commands ask of the heap, on sources of growing size.

The sources are those of programs.py, with 64 words for each stack; the image that `show`, `migrate` and `run` read is `build`'s, and the one
that `unasm` reads has its words and no marks. Each command runs once, with .ci/tools/counting_allocations.c loaded before the C library. For
each: the bytes of the file that it reads first, the calls that took memory, the bytes that they asked for together, the most that one asked
for, and the most that was held at once.
"""
import os
import subprocess
import sys
import tempfile
from pathlib import Path

sys.dont_write_bytecode = True
import programs
from large_files import image
from measure import program_parser

sys.path.append(str(Path(__file__).resolve().parents[1] / ".ci/tools"))
from counted_rows import counts_in  # noqa: E402

COUNTING = Path(__file__).resolve().parents[1] / ".ci/tools/counting_allocations.c"
SIZES = [1 << 13, 1 << 16, 1 << 20]
BUDGET = 10_000_000
COMMANDS = [
    "check t",
    "pit t 64 64 o.piton",
    "build t 64 64 o.image",
    f"go t v 64 64 {BUDGET} o.image",
    f"mean t v 64 64 {BUDGET}",
    "need t o.cert",
    "pcheck o.piton",
    "pbuild o.piton o2.image",
    "show o.image",
    "migrate o.image o3.image",
    f"run o.image v {BUDGET}",
    "unasm plain.image o.asm",
    "asm o.asm o4.image",
]


def counted(program, library, folder, words):
    """What a command asks of the heap. It has to end well, and no allocation may be refused."""
    how = dict(os.environ, COUNTS="counts", LD_PRELOAD=str(library))
    with open(Path(folder, "printed"), "wb") as printed:
        subprocess.run([program, *words.split()], cwd=folder, env=how, stdout=printed, check=False)
    path = Path(folder, "counts")
    (counts,) = counts_in(path)
    path.unlink()
    if counts.status or counts.refused or not counts.calls:
        sys.exit(f"{words}: {counts}")
    return counts


def rows(program, library, folder):
    """Each command on each source: the command, the bytes of the file that it reads first, and its counts. `build` prints how many words it built."""
    Path(folder, "v").write_text("((x 1))", encoding="ascii")
    words_built = 0
    for size in SIZES:
        Path(folder, "t").write_text(programs.largest_source(size), encoding="ascii")
        for words in COMMANDS:
            command, name = words.split()[:2]
            path = Path(folder, name)
            if name == "plain.image":
                path.write_bytes(image(words_built, False))
            yield command, path.stat().st_size, counted(program, library, folder, words)
            if command == "build":
                words_built = int(Path(folder, "printed").read_text().split()[1])


def main():
    program = program_parser(__doc__).parse_args().program
    print("| Command | Bytes read | Calls | Asked for together | Largest request | Held at most | Held, a byte |\n|---|---|---|---|---|---|---|")
    with tempfile.TemporaryDirectory() as folder:
        library = Path(folder, "counting.so")
        subprocess.run(["cc", "-shared", "-fPIC", "-O1", "-o", library, COUNTING, "-ldl"], check=True)
        for command, size, it in sorted(rows(program, library, folder), key=lambda row: list_place(row[0])):
            print(f"| `{command}` | {size:,} | {it.calls:,} | {it.asked:,} | {it.largest:,} | {it.most_held:,} | {it.most_held / size:.1f} |")


def list_place(command):
    """The place of a command in the list of commands."""
    return [words.split()[0] for words in COMMANDS].index(command)


if __name__ == "__main__":
    main()
