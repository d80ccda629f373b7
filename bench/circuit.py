#!/usr/bin/env python3
"""What Yosys and nextpnr make of the processor for an iCE40, and how fast Verilator is beside the emulator.

    python3 bench/circuit.py [PROGRAM]

The processor alone is synthesised, and the board with 2,048 words of memory, which is placed on an HX8K in the package ct256. With PROGRAM,
the built `cli_stack`, the loop of loop_image.py is run for so many rounds by `run` and by bench.v in Verilator, by turns, three times each.
A time is the user time of the whole process, the least of three.
"""
import os
import re
import shutil
import subprocess
import sys
import tempfile
from collections.abc import Iterator
from pathlib import Path

sys.dont_write_bytecode = True
HERE = Path(__file__).resolve().parent
HARDWARE = HERE.parent / "hardware"
sys.path.insert(0, str(HARDWARE))
from images import read_image
from measure import executable, parser_of
from simulation import PROCESSOR, compiled, missing_packages, write_words

PACKAGES = {"yosys": "yosys", "nextpnr-ice40": "nextpnr-ice40", "icetime": "fpga-icestorm"}
CELLS = ("SB_LUT4", "SB_CARRY", "SB_DFF", "SB_RAM40")
WORDS = 2048
ROUNDS = 250_000        # of four instructions
TURNS = 3


def run(folder: Path, *words: str) -> str:
    ran = subprocess.run(words, cwd=folder, capture_output=True, text=True, check=False)
    if ran.returncode != 0:
        raise SystemExit(f"{words[0]} ended with status {ran.returncode}: {ran.stdout[-1000:]}{ran.stderr[-1000:]}")
    return ran.stdout + ran.stderr


def cells(folder: Path, top: str) -> str:
    """The cells of a synthesised module, by their kinds; its netlist goes to TOP.json."""
    sources = f"fm9001.v {HARDWARE / 'board.v'} {HARDWARE / 'top.v'}" if top == "top" else "fm9001.v"
    text = run(folder, "yosys", "-p", f"read_verilog {sources}; synth_ice40 -top {top} -json {top}.json; tee -o {top}.stat stat")
    text = (folder / f"{top}.stat").read_text()
    counts = dict.fromkeys(CELLS, 0)
    for name, count in re.findall(r"^ +(SB_\w+) +(\d+)$", text, re.M):
        for kind in CELLS:
            counts[kind] += int(count) * name.startswith(kind)
    return ", ".join(f"{count} {kind}" for kind, count in counts.items())


def synthesis(folder: Path) -> Iterator[str]:
    shutil.copyfile(PROCESSOR, folder / "fm9001.v")
    write_words(folder / "words.hex", list(range(WORDS)))       # of nothing but zeros no memory would be left
    write_words(folder / "registers.hex", [0] * 16)
    yield f"the processor: {cells(folder, 'fm9001')}"
    yield f"the board with {WORDS} words: {cells(folder, 'top')}"
    placed = run(folder, "nextpnr-ice40", "--hx8k", "--package", "ct256", "--json", "top.json", "--asc", "top.asc", "--seed", "1")
    used = re.findall(r"ICESTORM_LC: +(\d+)/ *(\d+)", placed)[-1]
    yield f"nextpnr: {used[0]} of {used[1]} cells, {re.findall(r'Max frequency for clock .*?: ([0-9.]+) MHz', placed)[-1]} MHz"
    timed = run(folder, "icetime", "-d", "hx8k", "-t", "top.asc")
    yield f"icetime: {re.findall(r'Total path delay: (.*)', timed)[-1]}"


def user_time(words: list[str], folder: Path) -> float:
    process = subprocess.Popen(words, cwd=folder, stdout=subprocess.DEVNULL)
    _, _, usage = os.wait4(process.pid, 0)
    return usage.ru_utime


def speed(folder: Path, program: str) -> Iterator[str]:
    run(folder, sys.executable, str(HERE / "loop_image.py"), str(ROUNDS))
    (folder / "none.values").write_text("()")
    image = read_image((folder / "loop.image").read_bytes())
    write_words(folder / "words.hex", image.words)
    write_words(folder / "registers.hex", image.registers)
    simulated = [*compiled("verilator", HARDWARE / "bench.v", folder), f"+base={image.base}", f"+size={image.size}",
                 f"+final={image.final}", f"+flags={image.flags}", f"+budget={10**9}"]
    emulated = [program, "run", "loop.image", "none.values", str(10**9)]
    count, cycles = (int(re.search(rf"^{word} (\d+)$", run(folder, *simulated), re.M).group(1)) for word in ("finished", "cycles"))
    times = [(user_time(simulated, folder), user_time(emulated, folder)) for _ in range(TURNS)]
    by_verilator, by_emulator = (min(column) for column in zip(*times))
    yield (f"{count} instructions, {cycles} cycles: Verilator {by_verilator:.2f} s, {count / by_verilator / 1e6:.2f} million instructions a "
           f"second; run {by_emulator:.2f} s, {count / by_emulator / 1e6:.1f} million")


def main() -> int:
    parser = parser_of(__doc__)
    parser.add_argument("program", nargs="?", type=executable, help="cli_stack")
    program = parser.parse_args().program
    if missing := sorted({package for command, package in PACKAGES.items() if not shutil.which(command)}):
        print(f"missing: apt-get install {' '.join(missing)}")
        return 70
    with tempfile.TemporaryDirectory(prefix="circuit-") as room:
        for line in synthesis(Path(room)):
            print(line, flush=True)
        if program and not missing_packages("verilator"):
            for line in speed(Path(room), str(program)):
                print(line, flush=True)
    return 0


if __name__ == "__main__":
    sys.exit(main())
