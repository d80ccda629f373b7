#!/usr/bin/env python3
"""Random programs that change their own code: what `run` makes of them, beside an interpreter in C (`fm9001.c`), or in Python where no C compiler is.

Each machine has a window of some pages, most of whose words are instructions: of the forms that linked code has, of others, and any words at
all. Pointers lead into the window, so that much of what is stored is code, and is met again. A jump at every few words leads to the end, where
registers and flags are stored; so that a run which comes there shows them. The whole window is printed as one array, and of a run that doesn't
come there how far it came.

Every second machine is one of edges: its window ends at the end of a page, or a word before or behind it, or has a few words; a stretch of it
is zeros, whose pages nothing has filled; pointers lead to the ends of pages and of the window; and it stops at any address, or after any
number of steps, also where the emulator would go on with several steps at once.
"""
import shutil
import struct
import subprocess
import sys
import tempfile
from concurrent.futures import ThreadPoolExecutor
from pathlib import Path
from random import Random

import fm9001

sys.path.append(str(Path(__file__).resolve().parents[2] / "tools"))

from arguments import drawn_of  # noqa: E402

HERE = Path(__file__).resolve().parent
BUDGET = 3000
PAGE = 256
PC, ALWAYS = 15, 14
SET = [1, 3, 5, 7]      # the conditions under which a flag is set
DATA, POINTERS = range(3, 8), (0, 1, 2, 8, 9, 10)
OPERATION = {name: number for number, name in enumerate(fm9001.OPERATIONS)}


def word(operation, mode_b, b, mode_a, a, condition=ALWAYS, flags=0):
    return operation << 24 | condition << 20 | flags << 16 | mode_b << 14 | b << 10 | mode_a << 4 | a


def operand(rng):
    """A mode and a register: of data as it is, or of a pointer in some mode."""
    mode = rng.randrange(4)
    return mode, rng.choice(POINTERS if mode else DATA)


def plain(rng):
    """An instruction without a literal; its target is no register of a pointer."""
    operation = rng.randrange(16) if rng.random() < 0.6 else OPERATION["MOVE"]
    condition, flags = (rng.randrange(16), rng.randrange(16)) if rng.random() < 0.4 else (ALWAYS, 0)
    if rng.random() < 0.2:
        return word(operation, *operand(rng), 0, 0, condition, flags) | 1 << 9 | rng.randrange(512)
    return word(operation, *operand(rng), *operand(rng), condition, flags)


def instruction(rng, to):
    """The words of an instruction, with the literal behind it. `to` is where a jump or a pointer may lead."""
    kind = rng.random()
    if kind < 0.01:
        return [rng.getrandbits(32)]
    if kind < 0.1:
        return [word(OPERATION["MOVE"], 0, PC, 3, PC, rng.randrange(16)), to]
    if kind < 0.2:
        return [word(OPERATION["MOVE"], 0, rng.choice(POINTERS), 3, PC), to]
    if kind < 0.35:
        return [word(rng.choice([OPERATION["MOVE"], rng.randrange(16)]), *operand(rng), 3, PC), plain(rng)]
    return [plain(rng)]


def ending():
    """The words that store fifteen registers and the flags, each behind the instruction that stores it, and one at which a run ends."""
    registers = [word(OPERATION["MOVE"], 3, PC, 0, r) for r in range(15)]
    flags = [word(OPERATION["MOVE"], 3, PC, 0, 0, condition) | 1 << 9 | 1 for condition in SET]
    return [it for store in registers + flags for it in (store, 0)] + [0]


def machine(rng):
    """Base, size, final program counter, registers, flags and words."""
    end = ending()
    base, size = rng.choice([0, 0, rng.randrange(2**16), rng.randrange(2**32 - 2**12)]), rng.randrange(128, 700)
    place, words, starts = size - len(end), [], []
    while len(words) < place:
        starts.append(base + len(words))
        leaves = rng.random() < 0.03
        words += [word(OPERATION["MOVE"], 0, PC, 3, PC, rng.choice(SET)), base + place] if leaves else instruction(rng, rng.choice(starts))
    words = words[:place] + end
    registers = [rng.choice(starts) if r in POINTERS else plain(rng) for r in range(PC)] + [rng.choice(starts)]
    return base, size, base + size - 1, registers, rng.randrange(16), words, BUDGET


def machine_of_edges(rng):
    """The same, of a window that ends near the end of a page, with a stretch of zeros."""
    size = rng.choice([rng.randrange(1, 12), PAGE * rng.randrange(1, 6) + rng.randrange(-2, 3)])
    base = rng.choice([0, rng.randrange(2**16), 2**32 - 1 - size, 2**31 - size // 2])
    edges = [base + it for it in range(size) if it % PAGE in (0, 1, PAGE - 2, PAGE - 1) or it in (0, size - 2, size - 1)]
    words = []
    while len(words) < size:
        words += instruction(rng, rng.choice(edges))
    words = words[:size]
    zeros = rng.randrange(size)
    words[zeros : zeros + rng.choice([0, PAGE, 2 * PAGE])] = []
    words[zeros:zeros] = [0] * (size - len(words))
    registers = [rng.choice(edges) if r in POINTERS else plain(rng) for r in range(PC)] + [rng.choice(edges)]
    return base, size, base + rng.randrange(size), registers, rng.randrange(16), words, rng.choice([BUDGET, rng.randrange(60)])


def signed(it):
    return it - 2**32 if it >= 2**31 else it


def by_program(program, folder, number, it):
    """What `run` prints: the words are the values of a slot, which begins at the window's last word and goes down."""
    base, size, final, registers, flags, words, budget = it
    fields = [1, base, size, final, *registers, flags, 2**32 - 1, 0, 1, 1]
    slot = b"m" + struct.pack(">4I", 0, size, base + size - 1, 0)
    image, values = Path(folder, f"{number}.image"), Path(folder, f"{number}.values")
    image.write_bytes(b"FM91" + struct.pack(f">{len(fields)}I", *fields) + slot)
    values.write_text(f"((m ({' '.join(str(signed(it)) for it in reversed(words))})))")
    ran = subprocess.run([program, "run", image.name, values.name, str(budget)], cwd=folder, capture_output=True, text=True, check=False)
    return ran.stdout


def by_c(compiler, folder, machines):
    """What the interpreter in C prints of all machines, one after the other."""
    subprocess.run([compiler, "-O1", "-o", Path(folder, "fm9001"), HERE / "fm9001.c"], check=True)
    numbers = "".join(
        f"{base} {size} {final} {budget} {' '.join(map(str, [*registers, flags, *words]))}\n"
        for base, size, final, registers, flags, words, budget in machines
    )
    return subprocess.run([Path(folder, "fm9001")], input=numbers, capture_output=True, text=True, check=True).stdout


def by_python(it):
    base, size, final, registers, flags, words, budget = it
    model = fm9001.Machine(base, words, registers, flags)
    count, outside = model.run(budget, final)
    if outside:
        return f"outside {outside} after {count}\n"
    if model.registers[PC] != final:
        return f"unfinished {count}\n"
    return f"finished {count}\nm = ({' '.join(str(signed(it)) for it in reversed(model.memory))})\n"


def main():
    chosen = drawn_of(__doc__, 800)
    rng = Random(chosen.seed)
    machines = [(machine_of_edges if number % 2 else machine)(rng) for number in range(chosen.how_many)]
    compiler = shutil.which("cc") or shutil.which("gcc") or shutil.which("clang")
    with tempfile.TemporaryDirectory() as folder:
        with ThreadPoolExecutor(4) as pool:
            said = list(pool.map(lambda it: by_program(str(chosen.program), folder, *it), enumerate(machines)))
        beside = compiler and by_c(compiler, folder, machines)
    if not compiler:
        beside = "".join(map(by_python, machines))
        print("random programs: no C compiler is here; they are compared with the model in Python")
    ended = [sum(it.startswith(how) for it in said) for how in ("finished", "unfinished", "outside")]
    if "".join(said) != beside or min(ended) == 0:
        print(f"random programs, seed {chosen.seed}: {ended} of {len(machines)} ended in each way, or another interpreter says otherwise")
        return 1
    steps = sum(int(it.split()[1 if it[0] in "fu" else 3]) for it in said)
    print(f"{len(machines)} random programs, {steps} steps: {ended[0]} finished, {ended[1]} didn't, and {ended[2]} left the window, as in {'C' if compiler else 'Python'}")
    return 0


if __name__ == "__main__":
    sys.exit(main())
