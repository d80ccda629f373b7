#!/usr/bin/env python3
"""Has Yosys prove that a netlist is the same circuit as the processor's Verilog text: one cycle, from any state and any inputs.

    python3 .ci/tools/same_circuit.py [NETLIST] [--printed] [--processor TEXT] [--all]

NETLIST is another text of the module fm9001, and --printed takes the one that print_netlist prints. Without either, Yosys synthesises the
processor's text to gates, and that is compared. In both, each bit that is kept becomes an input, what it has, and an output, what it takes.
A SAT solver then shows that no inputs make any two outputs differ. What is kept has the same name in both; a word of the register file may
be `file[3]` or `file_3`. What it begins with isn't compared. --all shows too that a wrong text, which has an `|` for a `^`, isn't the same.
The exit status is 1 where they differ, and 2 where Yosys is missing.
"""
import re
import shutil
import subprocess
import sys
import tempfile
from pathlib import Path

sys.dont_write_bytecode = True
sys.path.insert(0, str(Path(__file__).resolve().parents[2] / "hardware"))

sys.path.append(str(Path(__file__).resolve().parents[2] / "tools"))

from arguments import file, parser_of  # noqa: E402
from simulation import NETLIST, PROCESSOR  # noqa: E402

SECONDS = 1800
# Yosys would give the phases numbers of its own, and those couldn't be compared.
SYNTHESIS = """read_verilog given.v
setattr -set keep 1 {whole}
synth -flatten -nofsm -top fm9001
abc -g AND,OR,XOR,MUX
opt_clean
write_verilog -noattr netlist.v
"""
OPENED = """read_verilog {file}.v
setattr -set keep 1 {whole}
prep -flatten -top fm9001
memory_map
setattr -unset init w:*
opt -full
splitnets -format _
select -set kept {bits}
select -set others w:* @kept %d
rename -hide @others
opt_clean
dffunmap
simplemap
opt_clean
rename fm9001 {name}
expose -dff -evert-dff {name}
tee -o {name}.ports select -list {name}/i:* {name}/o:*
design -stash {name}
"""
COMPARED = """design -copy-from text -as text text
design -copy-from netlist -as netlist netlist
miter -equiv -flatten -make_outputs text netlist both
hierarchy -top both
opt -full
sat -verify -prove trigger 0 both
"""


class Failed(Exception):
    """Yosys stopped, or what is compared has other names."""


def yosys(folder: Path, script: str) -> str:
    (folder / "script.ys").write_text(script)
    ran = subprocess.run(["yosys", "-q", "-l", "log", "script.ys"], cwd=folder, capture_output=True, text=True, check=False, timeout=SECONDS)
    log = (folder / "log").read_text()
    if ran.returncode != 0 and "SAT proof finished" not in log:
        raise Failed(f"Yosys ended with status {ran.returncode}: {ran.stderr[-1000:] or log[-1000:]}")
    return log


def named(text: str) -> str:
    """A netlist's text with the words of the register file named as Yosys names them, and without what they begin with."""
    without = re.sub(r"^ *initial\b(?: begin\b.*?^ *end\b| [^;]*;)", "", text, flags=re.M | re.S)
    return re.sub(r"\bfile_(\d+)\b", r"\\file[\1] ", without)


def ports(folder: Path, name: str) -> set[str]:
    return {line.split("/", 1)[1] for line in (folder / f"{name}.ports").read_text().split()}


def registers(text: str) -> tuple[list[str], list[str]]:
    """The registers of the processor's text, and each bit that is kept, as Yosys splits them."""
    whole, bits = [], []
    for width, name, words in re.findall(r"^reg \[(\d+):0\] (\w+)(?: \[0:(\d+)\])?;$", text, re.M):
        names = [f"{name}[{word}]" for word in range(int(words) + 1)] if words else [name]
        whole += [] if words else [name]
        bits += [f"{it}_{bit}" if width != "0" else it for it in names for bit in range(int(width) + 1)]
    return whole, bits


def selection(names: list[str]) -> str:
    """These wires in a script of Yosys, where a bracket would begin a set of letters."""
    return " ".join(f"w:{name}" for name in names).replace("[", "?").replace("]", "?")


def is_same(processor: Path, netlist: Path | None, folder: Path) -> tuple[bool, int]:
    """Whether both are the same circuit, and how many bits are kept."""
    shutil.copyfile(processor, folder / "given.v")
    (folder / "registers.hex").write_text("00000000\n" * 16)
    whole, bits = registers(processor.read_text())
    if netlist:
        (folder / "netlist.v").write_text(named(netlist.read_text()))
    else:
        yosys(folder, SYNTHESIS.format(whole=selection(whole)))
    kept = {"whole": selection(whole), "bits": selection(bits)}
    opened = OPENED.format(file="given", name="text", **kept) + OPENED.format(file="netlist", name="netlist", **kept)
    try:
        log = yosys(folder, opened + COMPARED)
    except Failed as fault:
        if (folder / "netlist.ports").is_file() and (strange := ports(folder, "text") ^ ports(folder, "netlist")):
            raise Failed(f"only one of both has {', '.join(sorted(strange)[:10])}") from fault
        raise
    if missing := {f"{bit}.d" for bit in bits} - ports(folder, "text"):
        raise Failed(f"Yosys has dropped {', '.join(sorted(missing)[:10])}")
    return "no model found: SUCCESS!" in log, len(bits)


def wrong_text(processor: Path, folder: Path) -> Path:
    """The text with the first exclusive or of two wires as an or."""
    text, count = re.subn(r"^(assign \w+ = \w+) \^ (\w+);$", r"\1 | \2;", processor.read_text(), count=1, flags=re.M)
    if count != 1:
        raise Failed("the text has no exclusive or of two wires")
    (folder / "wrong.v").write_text(text)
    return folder / "wrong.v"


def main() -> int:
    parser = parser_of(__doc__)
    parser.add_argument("netlist", type=file, nargs="?", help="a netlist of the processor in place of Yosys' own")
    parser.add_argument("--printed", action="store_true", help="the netlist that print_netlist prints")
    parser.add_argument("--processor", type=file, default=PROCESSOR, help="another text of the circuit")
    parser.add_argument("--all", action="store_true", help="show too that a wrong text isn't the same")
    arguments = parser.parse_args()
    netlist = NETLIST if arguments.printed else arguments.netlist
    if not shutil.which("yosys"):
        print("yosys isn't there: apt-get install yosys")
        return 2
    with tempfile.TemporaryDirectory(prefix="same-") as room:
        try:
            same, kept = is_same(arguments.processor, netlist, Path(room))
            if arguments.all and is_same(arguments.processor, wrong_text(arguments.processor, Path(room)), Path(room))[0]:
                raise Failed("a wrong text is told to be the same")
        except (Failed, OSError, subprocess.TimeoutExpired) as fault:
            print(f"not compared: {fault}")
            return 1
    what = "the printed netlist" if arguments.printed else netlist.name if netlist else "Yosys' netlist"
    print(f"{what} and the text are {'the same circuit' if same else 'different'}: {kept} bits are kept")
    return 0 if same else 1


if __name__ == "__main__":
    sys.exit(main())
