#!/usr/bin/env python3
"""Times the stack beside a C compiler: writes sources of 64 KiB to 1 MiB to a folder, and C files of the same sizes that do the same, and prints
what checking, compiling and running them takes. `stack`, `gcc` and `tcc` have to be on the PATH."""

import os
import pathlib
import subprocess

from measure import parser_of

SIZES = [1 << n for n in range(16, 21)]
TURNS = 5


def sequence(statements):
    """One statement that does these one after the other, as a balanced tree."""
    while len(statements) > 1:
        pairs = [f"(seq {first}\n{second})" for first, second in zip(statements[::2], statements[1::2])]
        statements = pairs + statements[len(pairs) * 2 :]
    return statements[0]


def source_of(procedures, rounds):
    """Main calls each procedure once; each adds, compares, chooses, subtracts and assigns so many times."""
    calls = sequence([f"(call p{i} (x) ())" for i in range(procedures)])
    parts = [f"(program main\n(proc main ((x integer)) () () ()\n{calls})\n"]
    for i in range(procedures):
        body = [
            "(mg-integer-add x x d)",
            "(mg-simple-constant-eq b x 0)",
            f"(if b (mg-simple-constant-assignment x {i % 97}) (no-op))",
            "(mg-integer-subtract x x d)",
            "(mg-simple-variable-assignment y x)",
            f"(mg-simple-constant-assignment y {i % 89})",
        ]
        locals_ = "(d integer 3) (y integer 0) (b boolean false)"
        parts.append(f"(proc p{i} ((x integer)) () ({locals_}) ()\n{sequence(body * rounds)})\n")
    return "".join(parts) + ")\n"


def largest_source(size):
    """The largest of these sources that has at most so many bytes."""
    best = max((n for n in range(1, 201) if len(source_of(n, 1)) <= size))
    rounds = 1
    while best == 200 and len(source_of(best, rounds + 1)) <= size:
        rounds += 1
    return source_of(best, rounds)


def c_of(size):
    """A C file of about so many bytes, of functions that do the same, each eight times."""
    parts, calls = [], []
    while sum(map(len, parts)) + sum(map(len, calls)) < size:
        i = len(parts)
        body = f"""    if (__builtin_add_overflow(*x, d, x)) return;
    b = *x == 0;
    if (b) {{ *x = {i % 97}; }} else {{ ; }}
    if (__builtin_sub_overflow(*x, d, x)) return;
    y = *x;
    y = {i % 89};
"""
        parts.append(f"static void p{i}(int *x)\n{{\n    int d = 3, y = 0, b = 0;\n{body * 8}}}\n")
        calls.append(f"    p{i}(&x);\n")
    return "".join(parts) + "int main(void)\n{\n    int x = 1;\n" + "".join(calls) + "    return x;\n}\n"


def taken(words):
    """The least time of some turns, and the memory of that turn."""
    best = None
    for _ in range(TURNS):
        process = subprocess.Popen(words, stdout=subprocess.PIPE, stderr=subprocess.STDOUT)
        printed = process.stdout.read().decode().replace("\n", " / ")
        _, status, usage = os.wait4(process.pid, 0)
        found = (usage.ru_utime + usage.ru_stime, usage.ru_maxrss // 1024, os.waitstatus_to_exitcode(status), printed[:40])
        best = found if best is None else min(best, found)
    return "%.3f s %d MB, status %d: %s" % best


def main():
    parser = parser_of(__doc__)
    parser.add_argument("folder", type=pathlib.Path, help="where the files are written")
    os.chdir(parser.parse_args().folder)
    pathlib.Path("one.values").write_text("((x 1))")
    for size in SIZES:
        text, c = largest_source(size), c_of(size)
        pathlib.Path("program.gypsy").write_text(text)
        pathlib.Path("program.c").write_text(c)
        print(f"source {len(text)} bytes, C {len(c)} bytes")
        for words in (
            "stack check program.gypsy",
            "stack pit program.gypsy 64 64 program.piton",
            "stack build program.gypsy 64 64 program.image",
            "stack go program.gypsy one.values 64 64 1000000000 program.image",
            "gcc -O0 -c -o program.o program.c",
            "tcc -c -o program.o program.c",
        ):
            print(f"  {words}: {taken(words.split())}", flush=True)
    print(f"stack big 7 900: {taken('stack big 7 900'.split())}")


if __name__ == "__main__":
    main()
