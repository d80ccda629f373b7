#!/usr/bin/env python3
"""Random products: what the program makes of `mg-integer-multiply`, beside what Python's integers say.

A source has 66 products, each of variables of its own and in a handler of its own, so that one that doesn't fit leaves its variable as it was.
`go` has to print each product, and the sum of their instructions. Half of the factors are edges, or next to one.
"""
import subprocess
import sys
import tempfile
from pathlib import Path
from random import Random

sys.path.append(str(Path(__file__).resolve().parents[2] / "tools"))

from arguments import drawn_of  # noqa: E402

LEAST, GREATEST = -2**31, 2**31 - 1
EDGES = [edge + by for edge in (LEAST, -2**16, -46341, 0, 46341, 2**16, GREATEST) for by in (-1, 0, 1) if LEAST <= edge + by <= GREATEST]
EACH = 66                   # products of a source: three variables each, and main has 200 at most
FITS, FAULT = 2599, 2593    # instructions of the procedure
CALL_FITS, CALL_FAULT = 2, 5    # of the handler: its jump; and its way in, the arm and its end
END = 5                     # of main


def factor(rng: Random) -> int:
    return rng.choice(EDGES) if rng.random() < 0.5 else rng.choice([rng.randint(LEAST, GREATEST), rng.randint(-2**17, 2**17)])


def source_of(count: int) -> str:
    formals = " ".join(f"(d{it} integer) (x{it} integer) (y{it} integer)" for it in range(count))
    product = "(begin (mg-integer-multiply d{0} x{0} y{0}) (routineerror) (no-op))"
    return f"(program main (proc main ({formals}) () () () (seq {' '.join(product.format(it) for it in range(count))})))"


def wanted(factors: list[tuple[int, int]]) -> str:
    count, lines = END, ""
    for number, (x, y) in enumerate(factors):
        fits = LEAST <= x * y <= GREATEST
        count += FITS + CALL_FITS if fits else FAULT + CALL_FAULT
        lines += f"d{number} = {x * y if fits else number}\nx{number} = {x}\ny{number} = {y}\n"
    return f"finished {count}\ncondition normal\n{lines}"


def printed(program: str, factors: list[tuple[int, int]]) -> str:
    values = "".join(f"(d{it} {it}) (x{it} {x}) (y{it} {y})" for it, (x, y) in enumerate(factors))
    with tempfile.TemporaryDirectory() as folder:
        Path(folder, "s").write_text(source_of(len(factors)))
        Path(folder, "v").write_text(f"({values})")
        ran = subprocess.run([program, *"go s v 1000 1000 1000000 i".split()], cwd=folder, capture_output=True, text=True, check=False)
    return ran.stdout


def main() -> int:
    words = drawn_of(__doc__, 2000)
    program, how_many = str(words.program), words.how_many
    rng, left, failed = Random(words.seed), how_many, 0
    while left > 0:
        factors = [(factor(rng), factor(rng)) for _ in range(min(EACH, left))]
        left -= len(factors)
        if printed(program, factors) != wanted(factors):
            failed += 1
            print(f"products of {factors} aren't what they should be", flush=True)
    print(f"{how_many} products, {failed} sources of them differ")
    return 1 if failed else 0


if __name__ == "__main__":
    sys.exit(main())
