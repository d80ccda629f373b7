"""Simulations of the board of this folder, by Icarus Verilog or by Verilator."""
import re
import shutil
import subprocess
from dataclasses import dataclass
from pathlib import Path

from images import Image, reading

HERE = Path(__file__).resolve().parent
PROCESSOR = HERE / "fm9001.v"       # what the proved program prints: .ci/checks/circuit.sh compares it with crates/print_processor/stdout
NETLIST = HERE.parent / "crates/print_netlist/stdout"       # the same of gates alone, as another proved program prints it
PACKAGES = {"icarus": {"iverilog": "iverilog", "vvp": "iverilog"}, "verilator": {"verilator": "verilator", "g++": "g++", "make": "make"}}
PHASES = ("fetch", "fetched", "read_a", "got_a", "read_b", "got_b", "execute", "stored", "fault")
TRACE_HEAD = "cycle phase    address  given    outside stores data     r15      ir       a        b"
COUNT = re.compile(r"(finished|unfinished) (\d+)|outside ([0-9a-f]{8}) (\d+)")


class NotSimulated(Exception):
    """A simulation didn't come to its end; the text says why."""


@dataclass(frozen=True)
class Simulated:
    """How a run on the board ended: `finished`, `unfinished` or `outside` with its address, after how many instructions and cycles, and
    how the registers, the flags (as `c--z`) and the window then are."""
    end: str
    address: int | None
    count: int
    cycles: int
    registers: list[int]
    flags: str
    memory: list[int]
    trace: list[str]    # of each of the first cycles what is on the bus and in the registers, under `TRACE_HEAD`


def report(image: Image, run: Simulated) -> tuple[int, str]:
    """What `./stack run` ends with and prints of such a run."""
    if run.end == "finished":
        return 0, f"finished {run.count}\n{reading(image, run.memory)}"
    return (5, f"unfinished {run.count}\n") if run.end == "unfinished" else (6, f"outside {run.address:08x} after {run.count}\n")


def missing_packages(simulator: str) -> list[str]:
    """The Debian packages of the commands that a simulator needs and that aren't there."""
    return sorted({package for command, package in PACKAGES[simulator].items() if not shutil.which(command)})


def check_output(words: list[str], folder: Path) -> str:
    ran = subprocess.run(words, cwd=folder, capture_output=True, text=True, check=False)
    if ran.returncode != 0:
        raise NotSimulated(f"{Path(words[0]).name} ended with status {ran.returncode}:\n{ran.stdout[-2000:]}{ran.stderr[-2000:]}")
    return ran.stdout


def compiled(simulator: str, bench: Path, folder: Path, processor: Path = PROCESSOR) -> list[str]:
    """The words that simulate a bench, which is compiled with the board and the processor's text into a folder that is there."""
    shutil.copyfile(processor, folder / "fm9001.v")
    sources = [str(folder / "fm9001.v"), str(HERE / "board.v"), str(bench)]
    if simulator == "icarus":
        program = folder / f"{bench.stem}.vvp"
        check_output(["iverilog", "-g2005", "-s", bench.stem, "-o", str(program), *sources], folder)
        return ["vvp", "-n", str(program)]
    objects = folder / f"{bench.stem}.verilated"
    check_output(["verilator", "--binary", "--timing", "--trace", "-O3", "-Wno-fatal", "-Wno-lint", "-Wno-BLKANDNBLK", "--Mdir", str(objects),
                  "--top-module", bench.stem, *sources], folder)
    return [str(objects / f"V{bench.stem}")]


def hex_text(words: list[int]) -> str:
    """A text for $readmemh. With an address in front a simulator doesn't ask for more words than these."""
    return "@0\n" + "".join(f"{word:08x}\n" for word in words)


def write_words(path: Path, words: list[int]) -> None:
    path.write_text(hex_text(words))


def simulate(program: list[str], image: Image, memory: list[int], budget: int, folder: Path, wave: str | None = None,
             trace: int = 0) -> Simulated:
    """A run of an image with this window on the board, for at most so many instructions. `program` is what `compiled` gave of bench.v;
    the files of the run lie in the folder. `wave` is the name of one there in which all signals are stored, and `trace` how many cycles are told."""
    write_words(folder / "words.hex", memory)
    write_words(folder / "registers.hex", image.registers)
    numbers = {"base": image.base, "size": image.size, "final": image.final, "flags": image.flags, "budget": budget, "trace": trace}
    words = [f"+{name}={number}" for name, number in numbers.items()]
    text = check_output([*program, *words, *([f"+wave={wave}"] if wave else [])], folder)
    try:
        return simulated_in(text, (folder / "after.hex").read_text())
    except FileNotFoundError:
        raise NotSimulated(f"the bench left no memory, and printed\n{text[-2000:]}") from None


def simulated_in(text: str, after: str) -> Simulated:
    """What bench.v printed, and the file of memory that it left. A word that no instruction and no loading has set is x."""
    end = COUNT.search(text)
    flags, cycles = re.search(r"^flags (\S+)$", text, re.M), re.search(r"^cycles (\d+)$", text, re.M)
    registers = re.findall(r"^r\d+ ([0-9a-f]{8})$", text, re.M)
    if not end or not flags or not cycles or len(registers) != 16:
        raise NotSimulated(f"the bench printed\n{text[-2000:]}")
    memory = [int(word, 16) for word in re.sub(r"//.*|@\w+", "", after).split()]
    trace = [trace_line(*found) for found in re.findall(r"^cycle (\d+) (\d+) (.*)$", text, re.M)]
    address = int(end.group(3), 16) if end.group(3) else None
    return Simulated(end.group(1) or "outside", address, int(end.group(2) or end.group(4)), int(cycles.group(1)),
                     [int(word, 16) for word in registers], flags.group(1), memory, trace)


def trace_line(cycle: str, phase: str, rest: str) -> str:
    address, given, outside, stores, *words = rest.split()
    return f"{cycle:>5} {PHASES[int(phase)]:8} {address} {given} {outside:7} {stores:6} {' '.join(words)}"
