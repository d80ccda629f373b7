#!/usr/bin/env python3
"""Proves the crates of this clone, those below first, as many side by side as there are processors, and keeps their libraries.

    python3 tools/crate_by_crate.py [--lanes N] [CRATE ..]

A kit whose `rt ci` takes no names proves all from nothing each time, and `rt lib` locks the crates below, so that two crates wait for each other. This
calls the prover as the gate does, one process for a crate, and leaves each library in `crates/NAME/out/rlib`, where `quick_check.py --libraries` finds it. A
crate is proved again only if its files have changed, or those of a crate below it. With names it proves these and what they stand on. The longest chain of
crates goes first, by the minutes of docs/PROOFS.md. What the prover said of a crate is in `crates/NAME/out/prover.txt`.

It tries neither tests nor edits, and it is no gate: only `rt ci` decides. Its status is 1 if a crate wasn't proved.
"""
import hashlib
import os
import re
import shutil
import subprocess
import sys
import time
from functools import cache
from pathlib import Path

from arguments import parser_of
from quick_check import TOP, arguments, below, uses

PAUSE = 1
MINUTES = re.compile(r"^\| `(\w+)` \| ([\d.]+)", re.M)


class Crates:
    """The crates of this clone, with what of them is proved."""

    def __init__(self, names):
        self.deps = uses()
        self.wanted = dict.fromkeys(it for name in names or self.deps for it in [*below(name, self.deps), name])
        self.minutes = {name: float(it) for name, it in MINUTES.findall((TOP / "docs/PROOFS.md").read_text())}
        self.failed = set()

    @cache
    def sum_of(self, name):
        """What a crate's proof is of: its files, and those of all crates below it."""
        seen = hashlib.sha256(" ".join(self.deps[name]).encode())
        for path in sorted(it for part in ("src", "specs", "proofs") for it in (TOP / "crates" / name / part).rglob("*.*")):
            seen.update(f"{path.relative_to(TOP)}\n".encode() + path.read_bytes())
        for dep in self.deps[name]:
            seen.update((self.sum_of(dep) if dep in self.deps else dep).encode())
        return seen.hexdigest()

    def mark(self, name):
        """The file that tells what was proved of a crate."""
        return TOP / "crates" / name / "out/rlib/proved"

    def is_proved(self, name):
        return self.mark(name).is_file() and self.mark(name).read_text() == self.sum_of(name)

    @cache
    def chain(self, name):
        """The minutes from a crate's proof to the end of the longest chain above it."""
        return self.minutes.get(name, 1) + max((self.chain(it) for it in self.wanted if name in self.deps[it]), default=0)

    def next_one(self, running):
        """The crate to begin with: all below it are proved, and the chain above it is the longest."""
        free = [it for it in self.wanted if it not in running and it not in self.failed and not self.is_proved(it)]
        ready = [it for it in free if all(dep not in self.deps or self.is_proved(dep) for dep in self.deps[it])]
        return max(ready, key=self.chain, default=None)


def begun(name, deps):
    """The prover's process for a crate."""
    kit, words = arguments(name, deps, TOP, [])
    out = TOP / "crates" / name / "out"
    shutil.rmtree(out / "rlib", ignore_errors=True)
    (out / "rlib").mkdir(parents=True)
    is_program = (TOP / "crates" / name / "src/main.rt").exists()
    how = ["check", *words] if is_program else ["build", *words, "--statements", "-o", str(out / "rlib" / f"{name}.rlib")]
    with open(out / "prover.txt", "w") as said:
        return subprocess.Popen([kit / "bin/rattle", *how], cwd=TOP / "crates" / name, stdout=said, stderr=subprocess.STDOUT)


def main():
    parser = parser_of(__doc__)
    parser.add_argument("--lanes", type=int, default=os.cpu_count(), help="how many crates go on at a time (%(default)s)")
    parser.add_argument("crates", nargs="*", metavar="CRATE", help="all, if none is named")
    chosen = parser.parse_args()
    crates = Crates(chosen.crates)
    running = {}
    while True:
        for name, (process, since) in list(running.items()):
            if process.poll() is None:
                continue
            del running[name]
            if process.returncode == 0:
                crates.mark(name).write_text(crates.sum_of(name))
            else:
                crates.failed.add(name)
            print(f"{name}: {'NOT proved' if process.returncode else 'proved'}, {(time.time() - since) / 60:.1f} min", flush=True)
        while len(running) < chosen.lanes and (name := crates.next_one(running)):
            running[name] = begun(name, crates.deps), time.time()
        if not running:
            break
        time.sleep(PAUSE)
    left = [it for it in crates.wanted if not crates.is_proved(it)]
    print(f"{len(crates.wanted) - len(left)} of {len(crates.wanted)} crates are proved" + (f", not {', '.join(left)}" if left else ""))
    return 1 if left else 0


if __name__ == "__main__":
    sys.exit(main())
