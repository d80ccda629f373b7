#!/usr/bin/env python3
"""Prints the map of the proofs: each crate's lemma modules, what they say, and which functions' clauses they serve.

The proof of a function `f` of `src/a.rt` is in `proofs/a/f/`. A lemma module is `proofs/M.antt`; "serves" names the functions whose proofs
cite it, and in italics the lemma modules that do. The map is printed and not kept; form.py refuses a module that serves nothing.
"""
import re
import subprocess
from collections import defaultdict
from pathlib import Path

from arguments import parser_of
from imports import apart

CITED = re.compile(r"(?:Rattle\.(\w+)\.proofs\.|crate::proofs::)([A-Z]\w*)")


def tracked(*patterns):
    out = subprocess.run(["git", "ls-files", *patterns], capture_output=True, text=True, check=True).stdout
    return [Path(line) for line in out.splitlines() if Path(line).is_file()]


def citers():
    serves = defaultdict(set)
    for path in tracked("crates/*/proofs/*.antt", "crates/*/proofs/**/*.antt"):
        crate = path.parts[1]
        for found in CITED.finditer(apart(path.read_text())):
            key = found.group(1) or crate, found.group(2)
            if len(path.parts) == 4:
                if path.name != "Lib.antt" and key != (crate, path.stem):
                    serves[key].add((crate, path.stem, True))
            else:
                serves[key].add((crate, "::".join(part.lstrip("+") for part in path.parts[3:-1]), False))
    for path in tracked("crates/*/src/*.rt", "crates/*/src/**/*.rt"):
        crate, module = path.parts[1], "::".join(path.with_suffix("").parts[3:])
        lines = path.read_text().splitlines()
        for index, line in enumerate(lines):
            for found in CITED.finditer(line if "using(" in line or "crate::proofs" in line else ""):
                name = next((m.group(1) for later in lines[index:] if (m := re.search(r"\bfn (\w+)", later))), "")
                serves[crate, found.group(2)].add((crate, f"{module}::{name}", False))
    return serves


def header(path):
    words = []
    for line in path.read_text().splitlines():
        if not line.startswith("--"):
            break
        words.append(line[2:].strip())
    return " ".join(words).replace("|", "\\|")


def modules():
    """The lemma modules of each crate."""
    crates = defaultdict(list)
    for path in tracked("crates/*/proofs/*.antt"):
        if len(path.parts) == 4 and path.name != "Lib.antt":
            crates[path.parts[1]].append(path)
    return crates


def main():
    crates = modules()
    parser = parser_of(__doc__)
    parser.add_argument("crates", metavar="CRATE", nargs="*", help="a crate whose lemma modules are printed (those of all)")
    words = parser.parse_args()
    for crate in words.crates:
        if crate not in crates:
            parser.error(f"{crate} is no crate with lemma modules")
    serves = citers()
    for crate in words.crates or sorted(crates):
        print(f"## {crate}\n")
        print("| Module | What it says | Serves |")
        print("|---|---|---|")
        for path in sorted(crates[crate]):
            names = []
            for owner, name, is_module in sorted(serves[crate, path.stem], key=lambda s: (s[2], s)):
                full = name if owner == crate else f"{owner}: {name}"
                names.append(f"*{full}*" if is_module else f"`{full}`")
            print(f"| `{path.stem}` | {header(path)} | {', '.join(names)} |")
        print()


if __name__ == "__main__":
    main()
