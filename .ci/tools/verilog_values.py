#!/usr/bin/env python3
"""Compares what expressions of Verilog mean by the definition of `verilog_meaning` with what Icarus Verilog gives them.

    python3 .ci/tools/verilog_values.py [--all]

Random expressions of the definition's forms are written as it writes them, each is assigned to a name of some width, and Icarus' value of that name
has to be the one that is assigned here. `written`, `size` and `value` are `written`, `size` and `value_of` of crates/verilog_meaning/specs, line
by line; nothing compares them with those. So the numbers without a width stand only where something else of the expression has one: alone
they have a sign in Verilog. The exit status is 1 where a value differs, and 2 where Icarus is missing.
"""
import random
import shutil
import subprocess
import sys
import tempfile
from pathlib import Path

sys.path.append(str(Path(__file__).resolve().parents[2] / "tools"))

from arguments import parser_of  # noqa: E402

# The operators of two operands, with how tightly they bind.
OPERATORS = {"sum": ("+", 7), "equal": ("==", 6), "and": ("&", 5), "xor": ("^", 4), "or": ("|", 3), "both": ("&&", 2)}
BINDINGS = {name: binding for name, (_, binding) in OPERATORS.items()} | {"not": 8, "inverse": 8, "choice": 1}
WIDTHS = {"a": 1, "b": 4, "c": 8, "d": 32, "e": 33, "number": 4, "file": 32}
NAMES = [name for name in WIDTHS if name != "file"]
SECONDS = 600


def operand(least, e):
    return f"({written(e)})" if BINDINGS.get(e[0], 9) < least else written(e)


def written(e):
    """The text of an expression."""
    kind, *parts = e
    match kind:
        case "number":
            return f"{parts[0]}'d{parts[1]}"
        case "integer" | "named":
            return str(parts[0])
        case "part":
            return f"{parts[0]}[{parts[1]}:{parts[2]}]"
        case "word":
            return f"{parts[0]}[{written(parts[1])}]"
        case "join":
            return f"{{{written(parts[0])}, {written(parts[1])}}}"
        case "inverse":
            return "~" + operand(9, parts[0])
        case "not":
            return "!" + operand(9, parts[0])
        case "choice":
            return f"{operand(2, parts[0])} ? {operand(2, parts[1])} : {operand(1, parts[2])}"
    mark, binding = OPERATORS[kind]
    return f"{operand(binding, parts[0])} {mark} {operand(binding + 1, parts[1])}"


def size(e):
    """The width of an expression by itself."""
    kind, *parts = e
    match kind:
        case "number":
            return parts[0]
        case "integer":
            return 32
        case "named" | "word":
            return WIDTHS[parts[0]]
        case "part":
            return parts[1] + 1 - parts[2]
        case "join":
            return size(parts[0]) + size(parts[1])
        case "inverse":
            return size(parts[0])
        case "not" | "equal" | "both":
            return 1
        case "choice":
            return max(size(parts[1]), size(parts[2]))
    return max(size(parts[0]), size(parts[1]))


def value(now, n, e):
    """The value of an expression where its context has n bits."""
    kind, *parts = e
    alone = [value(now, size(part), part) for part in parts if isinstance(part, tuple)]
    match kind:
        case "number":
            return parts[1] % 2 ** parts[0]
        case "integer":
            return parts[0] % 2**32
        case "named":
            return now[parts[0]]
        case "part":
            return now[parts[0]] // 2 ** parts[2] % 2 ** (parts[1] + 1 - parts[2])
        case "word":
            return now[parts[0]][alone[0]]
        case "join":
            return alone[0] * 2 ** size(parts[1]) + alone[1]
        case "not":
            return int(alone[0] == 0)
        case "both":
            return int(alone[0] != 0 and alone[1] != 0)
        case "choice":
            return value(now, n, parts[2] if alone[0] == 0 else parts[1])
        case "equal":
            wider = max(size(parts[0]), size(parts[1]))
            return int(value(now, wider, parts[0]) == value(now, wider, parts[1]))
    given = [value(now, n, part) for part in parts]
    match kind:
        case "inverse":
            return 2**n - 1 - given[0]
        case "sum":
            return (given[0] + given[1]) % 2**n
        case "and":
            return given[0] & given[1]
        case "xor":
            return given[0] ^ given[1]
    return given[0] | given[1]


def assigned(now, width, e):
    """What a name of this width is assigned."""
    return value(now, max(width, size(e)), e) % 2**width


def has_sign(e):
    """Whether nothing but numbers without a width stands in an expression, where its sign comes from."""
    kind, *parts = e
    if kind in ("sum", "and", "xor", "or", "inverse", "choice"):
        return all(map(has_sign, parts[kind == "choice" :]))
    return kind == "integer"


def lacks_width(e):
    """Whether the width of an expression comes from a number without one: such a one can't be joined."""
    kind, *parts = e
    if kind in ("sum", "and", "xor", "or", "inverse", "choice"):
        return any(map(lacks_width, parts[kind == "choice" :]))
    return kind == "integer"


def is_taken(e):
    """Whether the definition says of an expression what it is."""
    parts = [part for part in e[1:] if isinstance(part, tuple)]
    return all(map(is_taken, parts)) and not (e[0] == "join" and any(map(lacks_width, parts))) and (e[0] == "integer" or not has_sign(e))


def leaf(draw):
    kind = draw.choice(["number", "named", "named", "part", "part", "integer"])
    if kind == "number":
        width = draw.choice([1, 2, 4, 8, 32, 33])
        return kind, width, draw.randrange(2**width)
    if kind == "integer":
        return kind, draw.choice([0, 0, 1, 5])
    name = draw.choice(NAMES)
    if kind == "named":
        return kind, name
    low = draw.randrange(WIDTHS[name])
    return kind, name, draw.randrange(low, WIDTHS[name]), low


def tree(draw, depth):
    """A random expression, which may be one that isn't taken."""
    if depth == 0 or draw.random() < 0.15:
        return leaf(draw)
    kind = draw.choice(["word", "join", "inverse", "not", "choice", "choice", *OPERATORS])
    if kind == "word":
        return kind, "file", ("named", "number")
    count = {"inverse": 1, "not": 1, "choice": 3}.get(kind, 2)
    return kind, *(tree(draw, depth - 1) for _ in range(count))


def expressions(draw, count):
    found = []
    while len(found) < count:
        e = tree(draw, 4)
        if e[0] != "integer" and is_taken(e):
            found.append((draw.choice([1, 2, 4, 8, 32, 33, 40]), e))
    return found


def text(now, made):
    """A module that prints what each name is assigned, a line each."""
    lines = ["module values;", "reg [31:0] file [0:15];"]
    lines += [f"wire [{WIDTHS[name] - 1}:0] {name} = {WIDTHS[name]}'d{now[name]};" for name in NAMES]
    lines += [f"wire [{width - 1}:0] x{i};\nassign x{i} = {written(e)};" for i, (width, e) in enumerate(made)]
    lines += ["initial begin", *(f"  file[{r}] = 32'd{word};" for r, word in enumerate(now["file"])), "  #1;"]
    return "\n".join([*lines, *(f'  $display("%0d", x{i});' for i in range(len(made))), "end", "endmodule", ""])


def icarus(source):
    """What a module prints, word by word; nothing where Icarus refuses it, which says why."""
    with tempfile.TemporaryDirectory(prefix="stack-verilog-") as room:
        (Path(room) / "values.v").write_text(source)
        if subprocess.run(["iverilog", "-g2005", "-o", "values", "values.v"], cwd=room, check=False, timeout=SECONDS).returncode:
            return []
        ran = subprocess.run(["vvp", "-n", "values"], cwd=room, capture_output=True, text=True, check=True, timeout=SECONDS)
    return ran.stdout.split()


def main():
    parser = parser_of(__doc__)
    parser.add_argument("--all", action="store_true", help="20,000 expressions in place of 1,000")
    rounds = 20 if parser.parse_args().all else 1
    if not shutil.which("iverilog"):
        print("iverilog isn't there: apt-get install iverilog")
        return 2
    for seed in range(rounds):
        draw = random.Random(seed)
        now = {name: draw.randrange(2 ** WIDTHS[name]) for name in NAMES} | {"file": [draw.randrange(2**32) for _ in range(16)]}
        made = expressions(draw, 1000)
        told = icarus(text(now, made))
        if len(told) != len(made):
            print(f"Icarus gave {len(told)} values of {len(made)}")
            return 1
        for (width, e), given in zip(made, told, strict=True):
            wanted = assigned(now, width, e)
            if given != str(wanted):
                print(f"{written(e)}, assigned to {width} bits: {given} in Icarus, and {wanted} by the definition")
                return 1
    print(f"{1000 * rounds:,} expressions have the value in Icarus that the definition gives them")
    return 0


if __name__ == "__main__":
    sys.exit(main())
