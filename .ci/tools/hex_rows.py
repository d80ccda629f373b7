#!/usr/bin/env python3
"""Tries `hardware/run --hex`: what it stores of examples is what the program lists of their images, with the values in their slots. If Icarus Verilog is
there, the module condition_top is loaded with it, and shows the condition that the program prints.

    python3 .ci/tools/hex_rows.py PROGRAM

Prints a line for each difference, and how many images there were. The exit status is 1 where something differed.
"""
import re
import subprocess
import sys
import tempfile
from pathlib import Path

sys.dont_write_bytecode = True
TOP = Path(__file__).resolve().parents[2]
HARDWARE = TOP / "hardware"
sys.path.append(str(TOP / "tools"))

from arguments import parser_of  # noqa: E402
from arguments import program as executable  # noqa: E402

# A source, its values by name, the sizes of the stacks, and the number of the condition that ends the run: normal, routineerror, and the first one that
# an image names, which is spaceerror.
RUNS = [
    ("first/two.gypsy", {"x": [9], "y": [-3]}, 20, 20, 2),
    ("arrays/sum.gypsy", {"a": [3, 1, 4, 1, 5], "sum": [0]}, 20, 20, 2),
    ("arrays/sum.gypsy", {"a": [2147483647, 1, 0, 0, 0], "sum": [0]}, 20, 20, 1),
    ("calls/down.gypsy", {"n": [3]}, 23, 10, 3),
]
CYCLES = 200_000
BENCH = """module bench;
  reg clk = 0, reset = 1;
  wire [31:0] condition;
  wire ended, outside;
  integer cycles;
  condition_top #({parameters}) top (.clk(clk), .reset(reset), .condition(condition), .ended(ended), .outside(outside));
  initial begin
    #1 clk = 1; #1 clk = 0; reset = 0;
    for (cycles = 0; cycles < {cycles} && ended !== 1; cycles = cycles + 1) begin #1 clk = 1; #1 clk = 0; end
    $display("ended %b condition %0d", ended, condition);
    $finish;
  end
endmodule
"""


def written(values):
    """A text of values."""
    entry = {name: str(items[0]) if len(items) == 1 else f"({' '.join(map(str, items))})" for name, items in values.items()}
    return "(" + " ".join(f"({name} {text})" for name, text in entry.items()) + ")"


def listed(listing, values):
    """The words and the registers that a board begins with, by the program's listing of an image."""
    base, size = (int(re.search(rf"^{it} (\w+)$", listing, re.M).group(1), radix) for it, radix in (("base", 16), ("size", 10)))
    words = dict.fromkeys(range(size), 0) | {int(at, 16) - base: int(word, 16) for at, word in re.findall(r"^(\w{8}) (\w{8}) ", listing, re.M)}
    for name, at in re.findall(r"^slot (\S+) \S+ \d+ (\w{8})$", listing, re.M):
        words |= {int(at, 16) - j - base: item % 2**32 for j, item in enumerate(values[name])}
    return [words[it] for it in range(size)], [int(it, 16) for it in re.findall(r"^r\d+ (\w{8})$", listing, re.M)]


def loaded(path):
    """The words of a file for $readmemh."""
    head, *words = path.read_text().split()
    return [int(it, 16) for it in words] if head == "@0" else []


def difference(folder, listing, values):
    """The first file that isn't as it should be, or nothing."""
    for name, wanted in zip(("words.hex", "registers.hex"), listed(listing, values)):
        if loaded(folder / name) != wanted:
            return f"{name} isn't what the program lists"
    return ""


def shown(folder, printed):
    """What condition_top shows at the end, with the parameters that were printed."""
    parameters = ", ".join(f".{name}({value})" for name, value in (it.split() for it in printed.splitlines()))
    (folder / "bench.v").write_text(BENCH.format(parameters=parameters, cycles=CYCLES))
    sources = [HARDWARE / it for it in ("fm9001.v", "board.v", "top.v")]
    subprocess.run(["iverilog", "-g2005", "-s", "bench", "-o", "bench", *sources, "bench.v"], cwd=folder, check=True)
    return subprocess.run(["vvp", "-n", "bench"], cwd=folder, capture_output=True, text=True, check=True).stdout.strip().splitlines()[-1]


def findings(program, room, is_simulated):
    for number, (source, values, control, temporary, condition) in enumerate(RUNS):
        folder, name = room / str(number), f"{source} on {written(values)}"
        (room / "values").write_text(written(values))
        subprocess.run([program, "build", TOP / "examples" / source, str(control), str(temporary), "image"], cwd=room, stdout=subprocess.DEVNULL, check=True)
        listing = subprocess.run([program, "show", "image"], cwd=room, capture_output=True, text=True, check=True).stdout
        made = subprocess.run([HARDWARE / "run", "image", "values", "--hex", folder], cwd=room, capture_output=True, text=True, check=False)
        if made.returncode or made.stderr:
            yield f"{name}: status {made.returncode}, {made.stderr}"
            continue
        if found := difference(folder, listing, values):
            yield f"{name}: {found}"
        if not difference(folder, listing, values | {next(iter(values)): [8] * len(next(iter(values.values())))}):
            yield f"{name}: other values aren't told"
        if is_simulated and (seen := shown(folder, made.stdout)) != f"ended 1 condition {condition}":
            yield f"{name}: condition_top shows {seen}, wanted condition {condition}"


def main():
    parser = parser_of(__doc__)
    parser.add_argument("program", type=executable, help="cli_stack")
    program = parser.parse_args().program
    is_simulated = subprocess.run(["sh", "-c", "command -v iverilog vvp"], stdout=subprocess.DEVNULL, check=False).returncode == 0
    with tempfile.TemporaryDirectory(prefix="hex-") as room:
        found = list(findings(program, Path(room), is_simulated))
    print("\n".join([*found, f"{len(RUNS)} images as hexadecimal words" + ("" if is_simulated else "; not seen: condition_top, since there is no iverilog")]))
    return 1 if found else 0


if __name__ == "__main__":
    sys.exit(main())
