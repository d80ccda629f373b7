#!/usr/bin/env python3
"""Counts the computer's instructions that `build` takes, by parts, and beside it what `tcc -c` takes on the C file of the same size.

The source and the C file are the largest of programs.py; callgrind counts, so a machine with other work gives the same figures. A part is a
function with all that it calls; one that LLVM put into its caller has no row. Then come the functions that take most by themselves, and who
asks for memory: how often, and what the C library takes for it. Wanted is valgrind; without `tcc` on the PATH its row is left out.
"""
import collections
import re
import shutil
import subprocess
import tempfile
from pathlib import Path

import programs
from measure import program_parser

LARGEST = programs.SIZES[-1]
COMMAND = "build program.gypsy 64 64 program.image"
PARTS = {
    "the tree is read": r"stack_text::reader::read_text_tree$",
    "the source is made of it": r"gypsy_syntax::reading::statements::statement$",
    "the tree is given back": r"\w+::stack_text\+\+tree\+\+TextTree\+Destruct::drop$",
    "the rules are judged": r"gypsy_check::statements::check_statement$",
    "names become positions": r"gypsy_space::resolving::resolve$",
    "what procedures need": r"gypsy_space::counting::needs_with$",
    "the text of Piton is written": r"gypsy_codegen::system::programs$",
    "the same, checked": r"gypsy_codegen::generating::generate_with$",
    "its layout": r"piton_linker::sizes::layout$",
    "it is linked": r"(piton_linker::linking::link_small|stack_build::imaging::image)$",
    "the marks": r"gypsy_codegen::marking::statement$",
    "the image's file": r"fm_image::writing::write_image$",
    "all": r"main$",
}
MEMORY = ["rattle_alloc", "rattle_realloc", "rattle_dealloc"]


def profile(path):
    """What each function takes by itself, and each pair of caller and callee: how often, and with all that it calls."""
    names, alone, calls = {}, collections.Counter(), collections.defaultdict(lambda: [0, 0])
    caller = callee = count = None

    def named(text):
        number, _, name = text.partition(" ")
        # (a generic function's copies are counted as one)
        return names.setdefault(number, re.sub(r"::<#\w+>", "", name))

    for line in path.read_text().splitlines():
        if line.startswith("fn="):
            caller = named(line[3:])
        elif line.startswith("cfn="):
            callee = named(line[4:])
        elif line.startswith("calls="):
            count = int(line[6:].split()[0])
        elif re.match(r"[-+*\d]", line):
            taken = int(line.split()[1])
            if count is None:
                alone[caller] += taken
            else:
                pair = calls[caller, callee]
                pair[0] += count
                pair[1] += taken
                count = None
    return alone, calls


def collected(words, folder):
    """A run under callgrind: its profile."""
    out = folder / "profile"
    run = ["valgrind", "--tool=callgrind", "--dump-instr=no", f"--callgrind-out-file={out}", *words]
    subprocess.run(run, cwd=folder, check=True, capture_output=True)
    return profile(out)


def millions(number):
    return f"{number / 1e6:.1f}"


def print_profile(alone, calls):
    """The parts, the functions that take most, and who asks for memory."""
    print("| Part | Million instructions |\n|---|---|")
    for part, pattern in PARTS.items():
        into = [pair[1] for (_, callee), pair in calls.items() if re.match(pattern, callee)]
        if into:
            print(f"| {part} | {millions(max(into))} |")
    print("\n| Function, by itself | Million instructions |\n|---|---|")
    for name, taken in alone.most_common(25):
        print(f"| `{name}` | {millions(taken)} |")
    print("\n| Asks for memory | Call | Times | Million instructions |\n|---|---|---|---|")
    asked = [(pair[1], pair[0], caller, callee) for (caller, callee), pair in calls.items() if callee in MEMORY]
    for taken, times, caller, callee in sorted(asked, reverse=True)[:20]:
        print(f"| `{caller}` | `{callee}` | {times:,} | {millions(taken)} |")
    for each in MEMORY:
        print(f"| all | `{each}` | {sum(it[1] for it in asked if it[3] == each):,} | {millions(sum(it[0] for it in asked if it[3] == each))} |")


def main():
    program = str(Path(program_parser(__doc__).parse_args().program).resolve())
    with tempfile.TemporaryDirectory(prefix="build-parts-") as room:
        folder = Path(room)
        (folder / "program.gypsy").write_text(programs.largest_source(LARGEST))
        (folder / "program.c").write_text(programs.c_of(LARGEST))
        alone, calls = collected([program, *COMMAND.split()], folder)
        print(f"build: {millions(sum(alone.values()))} million instructions")
        if shutil.which("tcc"):
            print(f"tcc -c: {millions(sum(collected(['tcc', '-c', '-o', 'program.o', 'program.c'], folder)[0].values()))} million instructions")
        print()
        print_profile(alone, calls)


if __name__ == "__main__":
    main()
