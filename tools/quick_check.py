#!/usr/bin/env python3
"""Checks one crate, or some of its functions, by the prover itself: the crates below come as the libraries of another clone, or as sources.

    python3 tools/quick_check.py [--libraries CLONE] [--source NAME ..] CRATE [FLAG ..]

CLONE is a clone in which `rt ci` was run: it leaves each crate's library in `crates/NAME/out/rlib`. A crate below that has none there, or
that is named by `--source`, is read as this checkout has it, and trusted; without `--libraries` all are. So a crate is checked while those
below it are still being proved, and a check begins at once. FLAG is one of `rattle check`, as `--only PATH` or `--allow-holes`; with
`--only`, functions of a crate that is read as source are checked too where the named one calls them, and each such check takes gigabytes.
It is no gate: only `rt ci` decides.
"""
import os
import shutil
import sys
import tempfile
from pathlib import Path

from arguments import folder, parser_of

TOP = Path(__file__).resolve().parents[1]


def uses():
    """Each crate of the repository with the crates that it stands on."""
    lines = (line.split("#")[0].strip() for line in (TOP / "crates.txt").read_text().splitlines())
    named = (line.split(":") for line in lines if line)
    return {name.split()[0]: rest.split() for name, rest in named}


def below(name, deps):
    """The repository's crates below one, each after those that it stands on."""
    found = {}
    for dep in deps[name]:
        if dep in deps:
            found |= dict.fromkeys([*below(dep, deps), dep])
    return list(found)


def arguments(name, deps, libraries, sources):
    """The words by which the prover finds the crate, and those below it."""
    kit = Path(shutil.which("rt")).resolve().parents[1]
    root = "src/main.rt" if (TOP / "crates" / name / "src/main.rt").exists() else "src/lib.rt"
    library = {it: libraries / "crates" / it / "out/rlib" / f"{it}.rlib" for it in below(name, deps) if libraries}
    read = [it for it in below(name, deps) if it in sources or not library.get(it, TOP / "none").exists()]
    own = ["std", *(it for it in deps[name] if it not in deps)]
    more = {"core", *(it for crate in read for it in deps[crate] if it not in deps)} - set(own)
    words = ["--crate-name", name, root]
    for it in [*own, *sorted(more)]:
        words += ["--extern", f"{it}={kit}/rlibs/{it}.rlib"]
    words += ["-L", f"dependency={kit}/rlibs"]
    for it in below(name, deps):
        if it in read:
            names = dict.fromkeys(["core", "std", *sorted(deps[it], key=lambda dep: dep in deps)])
            words += ["--lib", f"{it}:{','.join(names)}={TOP}/crates/{it}/src/lib.rt"]
        else:
            words += ["--extern", f"{it}={library[it]}", "-L", f"dependency={library[it].parent}"]
    return kit, [*words, "--antt-project", f"{kit}/rattle/logic/antt-project.json", "--logic-built", f"{kit}/logic_built", "--jobs", "1"]


def main():
    parser = parser_of(__doc__)
    parser.add_argument("--libraries", type=folder, metavar="CLONE", help="a clone in which `rt ci` was run")
    parser.add_argument("--source", action="append", default=[], metavar="NAME", help="a crate below that is read as source")
    parser.add_argument("crate", choices=sorted(uses()), metavar="CRATE", help="a crate of crates.txt; what follows goes to `rattle check`")
    chosen, flags = parser.parse_known_args()
    kit, words = arguments(chosen.crate, uses(), chosen.libraries, chosen.source)
    kept = Path(tempfile.gettempdir(), f"quick_check-{TOP.name}-{chosen.crate}")
    kept.mkdir(exist_ok=True)
    os.chdir(TOP / "crates" / chosen.crate)
    os.execv(kit / "bin/rattle", ["rattle", "check", *words, "--incremental", str(kept), *flags])


if __name__ == "__main__":
    sys.exit(main())
