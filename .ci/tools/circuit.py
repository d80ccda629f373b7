#!/usr/bin/env python3
"""The circuit in other people's tools: what a simulator makes of the processor's Verilog text, beside the machine.

    python3 .ci/tools/circuit.py PROGRAM [--all] [--simulator icarus|verilator]

PROGRAM is the built `cli_stack`, which says what a run gives; memory and cycles are those of the machine in fm9001.py. Compared are

- random states, in Icarus: instructions of every operation, store condition and pair of modes, with addresses outside among them;
- images: of all examples that have values, of generated sources, and of random words. Before the run the words, registers and variables
  that the board is loaded with are compared with what `show` and `debug` say of the image;
- in Icarus, the printed netlist in the processor's place, on the images of the shortest examples;
- wrong texts of the processor, in Icarus: the states have to tell each.

--all takes more of each. The exit status is 1 where something differs, and 2 where the simulator is missing.
"""
import argparse
import re
import struct
import subprocess
import sys
import tempfile
from collections import Counter
from collections.abc import Iterator
from dataclasses import dataclass, replace
from itertools import product
from pathlib import Path
from random import Random

sys.dont_write_bytecode = True
TOP = Path(__file__).resolve().parents[2]
HARDWARE = TOP / "hardware"
sys.path[:0] = [str(HARDWARE), str(TOP / ".ci/tools")]
import random_sources

sys.path.append(str(Path(__file__).resolve().parents[2] / "tools"))

from arguments import parser_of  # noqa: E402
from arguments import program as executable  # noqa: E402
from fm9001 import CONDITIONS, MASK, OPERATIONS, PC, SIGN, Machine, flag_letters  # noqa: E402
from images import Image, loaded, read_image, read_values, reading  # noqa: E402
from simulation import NETLIST, PROCESSOR, NotSimulated, Simulated, compiled, missing_packages, report, simulate, write_words  # noqa: E402

STACK = 300             # words of each stack, of the examples
BUDGET = 10**6          # instructions that no example comes to
NETLIST_INSTRUCTIONS = 100      # the netlist takes Icarus ten times as long
ICARUS_INSTRUCTIONS = 3000      # more of them take Icarus more than half a second
WINDOW = 32             # words that a state has room for
MODES = [*range(4), None]       # of A; None is an immediate
EDGES = [0, 1, 2, SIGN - 1, SIGN, SIGN + 1, MASK - 1, MASK]


# Random states.

@dataclass(frozen=True)
class State:
    """A state, and how many instructions are to be made from it."""
    base: int
    size: int
    flags: int
    steps: int
    registers: list[int]
    memory: list[int]

    def words(self) -> list[int]:
        return [self.base, self.size, self.flags, self.steps, *self.registers, *self.memory, *[0] * (WINDOW - self.size)]


def random_word(rng: Random) -> int:
    return rng.choice([rng.choice(EDGES), rng.getrandbits(32), rng.getrandbits(32)])


def random_instruction(rng: Random, operation: int, condition: int, mode_b: int, mode_a: int | None) -> int:
    """The word of such an instruction; the bits that it ignores are random too."""
    a = 1 << 9 | rng.getrandbits(9) if mode_a is None else rng.getrandbits(3) << 6 | mode_a << 4 | rng.getrandbits(4)
    head = rng.getrandbits(4) << 28 | operation << 24 | condition << 20 | rng.getrandbits(4) << 16
    return head | mode_b << 14 | rng.getrandbits(4) << 10 | a


def random_address(rng: Random, base: int, size: int) -> int:
    """Mostly in the window or beside it, so that a register that moves comes in or goes out."""
    beside = [base - 1, base, base + 1, base + size - 1, base + size]
    return rng.choices([base + rng.randrange(size), rng.choice(beside), random_word(rng)], [12, 5, 1])[0] & MASK


def random_state(rng: Random, word: int) -> State:
    """A state that is about to make this instruction, which almost always is in the window."""
    size = rng.choice([1, 2, 3, WINDOW - 1, WINDOW, rng.randint(4, WINDOW)])
    base = rng.choice([0, 1, rng.getrandbits(31), MASK - size])
    registers = [rng.choice([random_address(rng, base, size), random_word(rng)]) for _ in range(16)]
    for register in (word & 15, word >> 10 & 15):
        registers[register] = random_address(rng, base, size)
    memory = [random_word(rng) for _ in range(size)]
    registers[PC] = base + rng.randrange(size) if rng.random() < 0.98 else random_address(rng, base, size)
    if 0 <= registers[PC] - base < size:
        memory[registers[PC] - base] = word
    return State(base, size, rng.getrandbits(4), rng.choice([1, 1, 2, 3]), registers, memory)


def random_states(rng: Random, rounds: int) -> list[State]:
    """Of each operation, mode of B and mode of A one for each condition in so many rounds; sixteen rounds have each condition once."""
    states = []
    for start, operation, mode_b, (place, mode_a) in product(range(rounds), range(len(OPERATIONS)), range(4), enumerate(MODES)):
        condition = (len(CONDITIONS) // rounds * start + operation + 5 * mode_b + 3 * place) % len(CONDITIONS)
        states.append(random_state(rng, random_instruction(rng, operation, condition, mode_b, mode_a)))
    rng.shuffle(states)
    return states


def line_of(state: State, seen: Counter) -> str:
    """What steps.v has to print of a state, but for the registers and flags where the processor has stopped, which are left out. What an
    address outside was wanted for is counted."""
    machine = Machine(state.base, state.memory, state.registers, state.flags)
    _, fault = machine.run(state.steps)
    memory = " ".join(f"{word:08x}" for word in machine.memory)
    if fault:
        seen[fault.what] += 1
        return f"1 {fault.address:08x} {machine.cycles:08x} {memory}"
    seen["none"] += 1
    return f"0 {machine.cycles:08x} {machine.flags:x} {' '.join(f'{word:08x}' for word in machine.registers)} {memory}"


def shortened(line: str, size: int) -> str:
    """The same of a line that steps.v printed."""
    faults, at, cycles, flags, *words = line.split()
    registers, memory = words[:16], words[16:16 + size]
    return " ".join(["1", at, cycles, *memory] if faults == "1" else ["0", cycles, flags, *registers, *memory])


def run_states(program: list[str], states: list[State], folder: Path) -> list[str]:
    """What steps.v prints of each state, shortened."""
    for name in ("words.hex", "registers.hex"):
        write_words(folder / name, [0] * 16)
    write_words(folder / "states.hex", [word for state in states for word in state.words()])
    ran = subprocess.run([*program, f"+states={len(states)}"], cwd=folder, capture_output=True, text=True, check=False)
    lines = [line for line in ran.stdout.splitlines() if re.match(r"[01x] \w{8} ", line)]
    if len(lines) != len(states):
        raise NotSimulated(f"steps.v printed {len(lines)} lines for {len(states)} states: {ran.stdout[-500:]}{ran.stderr[-500:]}")
    return [shortened(line, state.size) for line, state in zip(lines, states)]


def differing_states(program: list[str], states: list[State], wanted: list[str], folder: Path) -> Iterator[str]:
    for state, want, got in zip(states, wanted, run_states(program, states, folder)):
        if want != got:
            place = state.registers[PC] - state.base
            word = f"{state.memory[place]:08x}" if 0 <= place < state.size else "outside"
            yield f"the state with {word} at r15: wanted\n  {want}\ngot\n  {got}"


# Images.

@dataclass(frozen=True)
class Run:
    """A file of an image with its values, and the words of `debug` that begin a session of the same source, where there is one."""
    name: str
    image: Path
    values: Path
    session: list[str] | None
    budget: int = BUDGET


class Program:
    """The built program, in a folder."""

    def __init__(self, path: Path, folder: Path):
        self.path, self.folder = path, folder

    def run(self, *words: object) -> subprocess.CompletedProcess:
        return subprocess.run([self.path, *map(str, words)], cwd=self.folder, capture_output=True, text=True, check=False)

    def make(self, *words: object) -> None:
        ran = self.run(*words)
        if ran.returncode != 0:
            raise SystemExit(f"circuit: {' '.join(map(str, words))} ended with status {ran.returncode}: {ran.stdout}")


def fits(program: Program, image: Path, values: Path) -> bool:
    """Whether the program takes these values for an image: it makes no instruction then."""
    return program.run("run", image, values, 0).returncode in (0, 5)


def example_runs(program: Program, most: int) -> Iterator[Run]:
    """Each example with each file of values beside it that fits, where it takes at most so many instructions."""
    for source in sorted((TOP / "examples").glob("*/*")):
        stem = f"{source.parent.name}-{source.name}"
        image, session = program.folder / f"{stem}.image", None
        match source.suffix:
            case ".mini" | ".gypsy":
                text = source
                if source.suffix == ".mini":
                    text = program.folder / f"{stem}.gypsy"
                    program.make("mini", source, text)
                program.make("build", text, STACK, STACK, image)
                session = [str(text)]
            case ".asm":
                program.make("asm", source, image)
            case ".piton":
                program.make("pbuild", source, image)
            case _:
                continue
        for values in sorted([*source.parent.glob("*.values"), TOP / "examples/piton/none.values"]):
            if fits(program, image, values) and program.run("run", image, values, most).returncode == 0:
                words = [*session, str(values), str(STACK), str(STACK)] if session else None
                yield Run(f"{source.name} {values.name}", image, values, words)


def generated_runs(program: Program, how_many: int, most: int) -> Iterator[Run]:
    """Sources of random_sources.py that take at most so many instructions and words."""
    seed = 0
    while how_many > 0:
        seed += 1
        case = random_sources.random_case(Random(seed)).run
        if case.instructions > most or case.control + case.temporary > 4000:
            continue
        how_many -= 1
        source, values, image = (program.folder / f"seed-{seed}.{ending}" for ending in ("gypsy", "values", "image"))
        source.write_text(case.source.text)
        items = (f"({v.name} {random_sources.Literal(v.type.kind, case.start[v.name])})" for v in case.source.main.formals)
        values.write_text(random_sources.listed(items))
        program.make("build", source, case.control, case.temporary, image)
        yield Run(f"seed {seed}", image, values, [str(source), str(values), str(case.control), str(case.temporary)])


def image_bytes(base: int, final: int, registers: list[int], flags: int, words: list[int]) -> bytes:
    """A file of version 1, without names, slots and condition word."""
    return b"FM91" + struct.pack(f">{24 + len(words) + 1}I", 1, base, len(words), final, *registers, flags, MASK, 0, 0, len(words), *words)


def random_runs(rng: Random, program: Program, how_many: int) -> Iterator[Run]:
    """Images of random instructions. Most come to an address outside, and some run on."""
    none = program.folder / "none.values"
    none.write_text("()")
    for number in range(how_many):
        size = rng.randint(50, 400)
        base = rng.choice([0, 1000, MASK - size])
        words = [random_instruction(rng, rng.randrange(16), rng.randrange(16), rng.choice([0, 0, 0, 1]), rng.choice([0, 0, 1, None]))
                 for _ in range(size)]
        registers = [random_address(rng, base, size) for _ in range(15)] + [base]
        image = program.folder / f"random-{number}.image"
        image.write_bytes(image_bytes(base, base + size // 2, registers, rng.getrandbits(4), words))
        yield Run(f"random image {number}", image, none, None, 200)


def machine_text(count: int, registers: list[int], flags: str) -> str:
    """What `show` says in a session of the processor."""
    return f"count {count}\n" + "".join(f"r{r} {word:08x}\n" for r, word in enumerate(registers)) + f"flags {flags}\n"


def listing_head(image: Image) -> Iterator[str]:
    """The first lines of `show IMG`, and its lines of words without what these are as instructions."""
    yield from [f"base {image.base:08x}", f"size {image.size}", f"final {image.final:08x}"]
    yield from (f"r{r} {word:08x}" for r, word in enumerate(image.registers))
    yield f"flags {flag_letters(image.flags)}"
    yield from [] if image.condition is None else [f"condition {image.condition:08x}"]
    yield from (f"name {name}" for name in image.names)
    yield from (f"slot {slot.name} {slot.kind} {slot.length} {slot.address:08x}" for slot in image.slots)
    yield from (f"{image.base + i:08x} {word:08x}" for i, word in enumerate(image.words))


def loading_difference(program: Program, run: Run, image: Image, memory: list[int]) -> str:
    """What isn't as `show` and the start of a session say."""
    listed = program.run("show", run.image).stdout.splitlines()
    for want, line in zip(listing_head(image), listed):
        if line != want and not (re.match(r"[0-9a-f]{8} ", line) and line.startswith(want + " ")):
            return f"show has {line!r}, and the board {want!r}"
    if run.session:
        script = program.folder / "start.script"
        script.write_text("show\nup\n")
        said = program.run("debug", "fm9001", *run.session, script).stdout
        start = machine_text(0, image.registers, flag_letters(image.flags))
        variables = reading(image, memory)
        if not said.startswith(start) or variables not in said.removeprefix(start) + "\n":
            return f"a session begins with {said!r}, and the board with {start + variables!r}"
    return ""


def run_difference(program: Program, run: Run, image: Image, memory: list[int], board: Simulated) -> str:
    """What the board did otherwise than the program and the machine."""
    machine = Machine(image.base, memory, image.registers, image.flags)
    count, fault = machine.run(run.budget, image.final)
    said = program.run("run", run.image, run.values, run.budget)
    if (said.returncode, said.stdout) != report(image, board):
        return f"run says {said.stdout!r}, and the board {report(image, board)[1]!r}"
    if (board.count, board.cycles, board.address) != (count, machine.cycles, fault.address if fault else None):
        return f"the machine has {count} instructions, {machine.cycles} cycles and the fault {fault}, and the board {board}"
    if machine.memory != board.memory:
        return f"memory differs at {next(i for i, word in enumerate(machine.memory) if word != board.memory[i]) + image.base:08x}"
    if not fault and (machine.registers, flag_letters(machine.flags)) != (board.registers, board.flags):
        return f"the machine's registers and flags are {machine.registers} {flag_letters(machine.flags)}, and the board's {board}"
    if run.session:
        script = program.folder / "end.script"
        script.write_text(f"step {run.budget}\nshow\n")
        text = program.run("debug", "fm9001", *run.session, script).stdout
        ended = " ended" if board.end == "finished" else ""
        if text != f"stepped {count}{ended}\n" + machine_text(count, board.registers, board.flags):
            return f"a session ends with {text!r}, and the board with {board}"
    return ""


def difference(simulated: list[str], program: Program, run: Run, seen: Counter) -> str:
    """What is otherwise on the board; how the run ended is counted."""
    image = read_image(run.image.read_bytes())
    memory = loaded(image, read_values(run.values.read_bytes(), image.slots))
    if found := loading_difference(program, run, image, memory):
        return found
    board = simulate(simulated, image, memory, run.budget, program.folder)
    seen[board.end] += 1
    seen["instructions"] += board.count
    seen["cycles"] += board.cycles
    return run_difference(program, run, image, memory, board)


# Wrong texts.

WIRE = re.compile(r"^assign (\w+) = (.*);$", re.M)


def wrong_texts(text: str) -> Iterator[tuple[str, str]]:
    """Each wire of the text inverted, with the wire's name, but for the ports, whose names the board knows."""
    for found in WIRE.finditer(text):
        if not found.group(1).startswith("bus_") and found.group(2) not in ("bus_read", "bus_outside"):
            yield found.group(1), f"{text[:found.start()]}assign {found.group(1)} = ~({found.group(2)});{text[found.end():]}"


# All of it.

def check_states(arguments: argparse.Namespace, folder: Path) -> Iterator[str]:
    """Verilator takes no value from outside for what the circuit itself sets, as steps.v gives it."""
    states = random_states(Random(1), 16 if arguments.all else 4)
    seen: Counter = Counter()
    wanted = [line_of(state, seen) for state in states]
    yield from (f"no state needs an address outside for {what}" for what in ("fetch", "A", "B", "result") if seen[what] < 10)
    yield from differing_states(compiled(arguments.simulator, HARDWARE / "steps.v", folder), states, wanted, folder)
    outside = ", ".join(f"{seen[what]} for {what}" for what in ("fetch", "A", "B", "result"))
    print(f"{len(states)} states in {arguments.simulator}, with addresses outside: {outside}")


def script_difference(program: Program, run: Run) -> str:
    """What hardware/run ends with or prints of a run otherwise than `run` does."""
    words = [sys.executable, str(HARDWARE / "run"), str(run.image), str(run.values), str(run.budget)]
    by_script = subprocess.run(words, capture_output=True, text=True, check=False)
    said = program.run("run", run.image, run.values, run.budget)
    if (by_script.returncode, by_script.stdout) != (said.returncode, said.stdout) or " cycles for " not in by_script.stderr:
        return f"hardware/run says {by_script.stdout!r} {by_script.stderr!r}, and run {said.stdout!r}"
    return ""


def wave_difference(run: Run, folder: Path) -> str:
    """What is otherwise where waves are stored under a long name with a line end in it."""
    wave = folder / ("long\n" * 40) / ("w" * 200)
    wave.parent.mkdir()
    words = [sys.executable, str(HARDWARE / "run"), str(run.image), str(run.values), "5", "--wave", str(wave)]
    ended = subprocess.run(words, capture_output=True, text=True, check=False)
    return "" if ended.returncode == 5 and wave.is_file() and wave.stat().st_size > 1000 else f"waves with a long name: {ended}"


def check_images(arguments: argparse.Namespace, folder: Path) -> Iterator[str]:
    simulated = compiled(arguments.simulator, HARDWARE / "bench.v", folder)
    program = Program(arguments.program.resolve(), folder)
    most = ICARUS_INSTRUCTIONS if arguments.simulator == "icarus" and not arguments.all else BUDGET
    seen: Counter = Counter()
    examples = list(example_runs(program, most))
    generated = generated_runs(program, 20, most // 3)
    runs = [*examples, *(replace(run, budget=27) for run in examples[:3]), *generated, *random_runs(Random(1), program, 100 if arguments.all else 20)]
    for run in runs:
        if found := difference(simulated, program, run, seen):
            yield f"{run.name}: {found}"
    if arguments.simulator == "icarus":
        yield from filter(None, (script_difference(program, run) for run in (examples[0], runs[len(examples)], runs[-1])))
        yield from filter(None, [wave_difference(examples[0], folder)])
    yield from (f"no run is {end}" for end in ("finished", "unfinished", "outside") if not seen[end])
    print(f"{len(runs)} images in {arguments.simulator}: {seen['finished']} finished, {seen['unfinished']} unfinished, "
          f"{seen['outside']} outside; {seen['instructions']} instructions, {seen['cycles']} cycles")


def check_netlist(arguments: argparse.Namespace, folder: Path) -> Iterator[str]:
    """The printed netlist on the examples that take few instructions."""
    simulated = compiled("icarus", HARDWARE / "bench.v", folder, NETLIST)
    program = Program(arguments.program.resolve(), folder)
    seen: Counter = Counter()
    for run in example_runs(program, NETLIST_INSTRUCTIONS * (30 if arguments.all else 1)):
        if found := difference(simulated, program, run, seen):
            yield f"the netlist on {run.name}: {found}"
    if not seen["finished"]:
        yield "no example takes so few instructions"
    print(f"{seen['finished']} images on the netlist in icarus: {seen['instructions']} instructions, {seen['cycles']} cycles")


def check_wrong_texts(arguments: argparse.Namespace, folder: Path) -> Iterator[str]:
    """Told by the states are all wires of the text, or every ninth one."""
    states = random_states(Random(2), 1)
    wanted = [line_of(state, Counter()) for state in states]
    wrong = list(wrong_texts(PROCESSOR.read_text()))[::1 if arguments.all else 9]
    for name, text in wrong:
        (folder / "wrong.v").write_text(text)
        program = compiled("icarus", HARDWARE / "steps.v", folder, folder / "wrong.v")
        if not any(True for _ in differing_states(program, states, wanted, folder)):
            yield f"no state tells that {name} is inverted"
    print(f"{len(wrong)} wrong texts, each with one wire inverted")


def main() -> int:
    parser = parser_of(__doc__)
    parser.add_argument("program", type=executable, help="cli_stack")
    parser.add_argument("--all", action="store_true", help="more of everything")
    parser.add_argument("--simulator", choices=["icarus", "verilator"], default="icarus", help="in which the circuit runs (%(default)s)")
    arguments = parser.parse_args()
    if packages := missing_packages(arguments.simulator):
        print(f"{arguments.simulator} isn't there: apt-get install {' '.join(packages)}")
        return 2
    findings = []
    with tempfile.TemporaryDirectory(prefix="circuit-") as room:
        parts = [check_states, check_images, check_netlist, check_wrong_texts] if arguments.simulator == "icarus" else [check_images]
        for part in parts:
            findings += part(arguments, Path(room))
    for finding in findings[:20]:
        print(finding)
    return 1 if findings else 0


if __name__ == "__main__":
    sys.exit(main())
