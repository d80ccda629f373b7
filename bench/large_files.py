#!/usr/bin/env python3
"""Times the built program on large images, assembly texts and certificates.

Sources of so many statements, built: each has a mark in the image. Images of version 2 with so many words, each with a mark: listed,
migrated and run for one instruction. The same words, without marks, as assembly text and back; its lines are padded so that the largest
text has nearly the 33,554,432 bytes that `asm` takes. A source of 1,000 procedures, each of which calls the next 50 times: its least
certificate, and whether that covers it. For each: the bytes of the file that is read, the least time of some turns, the whole process's own
and the system's, and the most memory that it had.
"""
import struct
import subprocess
import sys
import tempfile
from pathlib import Path

sys.dont_write_bytecode = True
from measure import program_parser, start, taken

NO_ADDRESS = 0xFFFFFFFF
NO_OPERATION = 0x00EE0000    # MOVE r0,r0
LARGEST = 1 << 20
LARGEST_TEXT = 1 << 25
PROCEDURES, CALLS = 1000, 50
STATEMENTS = 130_000


def image(count, marked):
    """An image of so many words, whose run begins at the first and has a mark at each where it is `marked`."""
    header = [2, 0, count, count - 1, *[0] * 15, 0, 0, NO_ADDRESS, 0, 0, count]
    words = struct.pack(f">{count}I", *[NO_OPERATION] * (count - 1), 1)
    tables = struct.pack(">2I", 0, 0)
    if marked:
        procedure = struct.pack(">2I", 1, 4) + b"main" + struct.pack(">2I", 0, 0)
        tables = procedure + struct.pack(">I", count) + b"".join(struct.pack(">3I", at, 0, at) for at in range(count))
    return b"FM91" + struct.pack(f">{len(header)}I", *header) + words + tables


def assembly(count):
    """A text of so many instructions, each padded by a comment, so that a text of `LARGEST` words has `LARGEST_TEXT` bytes."""
    header = f".base 0\n.size {count}\n.final {count - 1}\n.start 0\n"
    length = (LARGEST_TEXT - len(header)) // LARGEST
    return header + (f"MOVE r1,r{count % 10} ".ljust(length - 1, ";") + "\n") * count


def chain():
    """Main calls the first procedure, and each procedure the next one, `CALLS` times."""
    calls = [f"(seq {' '.join([f'(call p{it + 1} () ())'] * CALLS)})" for it in range(PROCEDURES - 1)]
    names = ["main", *(f"p{it}" for it in range(1, PROCEDURES))]
    return f"(program main {' '.join(f'(proc {name} () () () () {body})' for name, body in zip(names, [*calls, '(no-op)']))})"


def statements(count):
    """A main of so many statements, each of which has a mark."""
    return f"(program main (proc main () () () () (seq {' '.join(['(no-op)'] * count)})))"


def rows():
    """What stands before each row in the folder, the command, and its file."""
    for count in (STATEMENTS // 4, STATEMENTS // 2, STATEMENTS):
        yield f"{count:,} statements", "build s 10 10 i", "s", lambda count=count: statements(count).encode()
    for count in (LARGEST // 4, LARGEST // 2, LARGEST):
        for words in ("show i", "migrate i o", "run i v 1"):
            yield f"{count:,} words and marks", words, "i", lambda count=count: image(count, True)
        yield f"{count:,} words", "unasm i o", "i", lambda count=count: image(count, False)
        yield f"{count:,} lines", "asm t o", "t", lambda count=count: assembly(count).encode()
    yield f"{PROCEDURES:,} procedures, {(PROCEDURES - 1) * CALLS:,} calls", "need s c", "s", lambda: chain().encode()
    yield f"{PROCEDURES:,} procedures, {(PROCEDURES - 1) * CALLS:,} calls", "cert s c 65536 65536", "s", lambda: chain().encode()


def write(number, folder):
    """Writes the file of a row. It is done by a process of its own, since a process begins with the most memory of its parent."""
    _, _, name, content = list(rows())[int(number)]
    Path(folder, name).write_bytes(content())
    Path(folder, "v").write_text("()", encoding="ascii")


def main(program):
    print("| File | Command | Bytes | Status | Time | Memory |\n|---|---|---|---|---|---|")
    with tempfile.TemporaryDirectory() as folder:
        for number, (what, words, name, _) in enumerate(rows()):
            subprocess.run([sys.executable, __file__, "--write", str(number), folder], check=True)
            length = Path(folder, name).stat().st_size
            seconds, memory, status, _ = taken(program, words, folder, is_read=False)
            print(f"| {what} | `{words.split()[0]}` | {length:,} | {status} | {seconds:.2f} s | {memory} MB |", flush=True)


if __name__ == "__main__":
    start(program_parser(__doc__), write, main)
