#!/usr/bin/env python3
"""Runs a command of the kit, and prints what the prover took for each crate: processor minutes and the most memory of one process, and the chain
of crates by which the whole took so long.

With `--beside` it looks at what a process that runs already does, until it is stopped; so `.ci/run` has it beside the kit.

It looks at the prover's processes among the command's descendants a few times a second. One that lives shorter than that isn't seen. What
else runs on the machine isn't counted, but makes the rest take longer. The table has a row for each crate, the dearest first, and the sums;
then come the time by the clock, and the most memory that was in use at once. Stopped by a signal, it prints what it has seen so far.

A second table says of each crate's proof, tests and edits, in minutes by the clock, when they began and ended, which of those that they wait for
ended last, and how long they waited afterwards for a processor or for memory. A proof and tests wait for the proofs of the libraries that the
prover's words name, and edits for their crate's proof and tests. The third table is the chain that ended last, backwards by what each waited for;
below it stand for how long so many went on at a time, and the chain that takes the most processor time, which more processors don't shorten.
"""
import argparse
import os
import signal
import subprocess
import sys
import time
from dataclasses import dataclass, field

from arguments import parser_of

TICKS = os.sysconf("SC_CLK_TCK")
PAGE = os.sysconf("SC_PAGE_SIZE")
PAUSE = 0.3
PARTS = ("proof", "tests", "edits")


@dataclass
class Process:
    """A process of the prover: its crate and part, the libraries that it names, when it began and was seen last, and what it took."""

    crate: str
    part: str
    libraries: set
    begun: float
    ended: float = 0.0
    seconds: float = 0.0
    memory: int = 0


@dataclass
class Piece:
    """A crate's proof, its tests or its edits: the libraries below, when its first process began and its last one ended, and what all took."""

    crate: str
    part: str
    libraries: set
    begun: float
    ended: float
    seconds: float

    def awaited(self, pieces):
        """The pieces that have to end before this one begins."""
        keys = [(self.crate, "proof"), (self.crate, "tests")] if self.part == "edits" else [(it, "proof") for it in sorted(self.libraries)]
        return [pieces[it] for it in keys if it in pieces]

    def last_awaited(self, pieces):
        """The one of these that ended last, or none."""
        return max(self.awaited(pieces), key=lambda it: it.ended, default=None)


@dataclass
class Seen:
    """The prover's processes below one process so far, by number and time of start, and the most memory that they held at once."""

    above: int
    processes: dict = field(default_factory=dict)
    memory: int = 0

    def look(self):
        held = 0
        for pid in descendants(self.above):
            try:
                held += self.look_at(pid)
            except (OSError, ValueError, IndexError):
                pass  # it ended meanwhile
        self.memory = max(self.memory, held)

    def look_at(self, pid):
        """Notes a process where it is the prover's, and returns its memory in bytes."""
        with open(f"/proc/{pid}/cmdline", encoding="utf-8", errors="replace") as it:
            words = it.read().split("\0")
        if not words[0].endswith("bin/rattle") or "--crate-name" not in words:
            return 0
        with open(f"/proc/{pid}/stat", encoding="utf-8") as it:
            fields = fields_of(it.read())
        user, system, start, pages = (int(fields[at]) for at in (11, 12, 19, 21))
        key = pid, start
        if key not in self.processes:
            crate, part = words[words.index("--crate-name") + 1], part_of(words, os.readlink(f"/proc/{pid}/cwd"))
            self.processes[key] = Process(crate, part, libraries_in(words), start_of_system() + start / TICKS)
        process = self.processes[key]
        process.ended = time.time()
        process.seconds = (user + system) / TICKS
        process.memory = max(process.memory, pages * PAGE)
        return pages * PAGE

    def table(self):
        """The rows of the table: crate, minutes of each part, their sum, and gigabytes."""
        rows = {}
        for it in self.processes.values():
            row = rows.setdefault(it.crate, dict.fromkeys((*PARTS, "memory"), 0.0))
            row[it.part] += it.seconds / 60
            row["memory"] = max(row["memory"], it.memory / 2**30)
        whole = [(crate, *(row[it] for it in PARTS), sum(row[it] for it in PARTS), row["memory"]) for crate, row in rows.items()]
        return sorted(whole, key=lambda row: -row[4])


    def pieces(self):
        """Each crate's proof, tests and edits, in the order in which they began."""
        pieces = {}
        for it in sorted(self.processes.values(), key=lambda it: it.begun):
            piece = pieces.setdefault((it.crate, it.part), Piece(it.crate, it.part, it.libraries, it.begun, it.ended, 0.0))
            piece.ended = max(piece.ended, it.ended)
            piece.seconds += it.seconds
        return pieces


def last_chain(pieces):
    """The pieces that the end waited for, each for the one before it."""
    chain = [max(pieces.values(), key=lambda it: it.ended)]
    while before := chain[0].last_awaited(pieces):
        chain.insert(0, before)
    return chain


def dearest_chain(pieces):
    """The pieces of which each waits for the one before it and that take the most processor time together."""
    chains = {}
    for key, piece in sorted(pieces.items(), key=lambda it: it[1].ended):
        before = max((chains.get((it.crate, it.part), []) for it in piece.awaited(pieces)), key=seconds_of, default=[])
        chains[key] = [*before, piece]
    return max(chains.values(), key=seconds_of)


def seconds_at_once(pieces):
    """For how many seconds so many pieces went on at a time, by their number."""
    changes = sorted([(it.begun, 1) for it in pieces.values()] + [(it.ended, -1) for it in pieces.values()])
    held, count = {}, 0
    for (moment, change), (after, _) in zip(changes, changes[1:]):
        count += change
        held[count] = held.get(count, 0.0) + after - moment
    return {number: seconds for number, seconds in sorted(held.items()) if number}


def seconds_of(chain):
    return sum(it.seconds for it in chain)


def libraries_in(words):
    """The names of the libraries that a process of the prover is handed."""
    return {after.partition("=")[0] for word, after in zip(words, words[1:]) if word == "--extern"}


def start_of_system():
    """When the system started, as the times of processes are told from it."""
    with open("/proc/uptime", encoding="utf-8") as it:
        return time.time() - float(it.read().split()[0])


def fields_of(stat):
    """The fields of a process's line in /proc that follow its name."""
    return stat.rsplit(")", 1)[1].split()


def descendants(above):
    """The numbers of the processes that a process started, or that these started."""
    children = {}
    for pid in filter(str.isdigit, os.listdir("/proc")):
        try:
            with open(f"/proc/{pid}/stat", encoding="utf-8") as it:
                children.setdefault(int(fields_of(it.read())[1]), []).append(int(pid))
        except (OSError, ValueError, IndexError):
            pass  # it ended meanwhile
    found = list(children.get(above, ()))
    for pid in found:
        found.extend(children.get(pid, ()))
    return found


def part_of(words, folder):
    """What a process does: it tries an edit, or proves the tests, or the crate."""
    if "rt-edit-" in folder:
        return "edits"
    return "tests" if "--test" in words else "proof"


def stop(*_):
    raise KeyboardInterrupt


def watch(seen, is_going):
    """Looks as long as there is something to see, or until it is stopped; returns whether it was stopped."""
    signal.signal(signal.SIGTERM, stop)
    try:
        while is_going():
            seen.look()
            time.sleep(PAUSE)
    except KeyboardInterrupt:
        return True
    return False


def print_table(seen, begun):
    rows = seen.table()
    print("| Crate | Proof | Tests | Edits | Together | Gigabytes |\n|---|---|---|---|---|---|")
    for crate, *minutes, memory in rows:
        print(f"| `{crate}` | " + " | ".join(f"{it:.1f}" for it in minutes) + f" | {memory:.1f} |")
    print("| all | " + " | ".join(f"{sum(row[at] for row in rows):.0f}" for at in (1, 2, 3, 4)) + " | |")
    print(f"{(time.time() - begun) / 60:.0f} minutes by the clock, at most {seen.memory / 2**30:.1f} GB at once", flush=True)


def print_pieces(pieces, shown, begun):
    """A row for each of these pieces: its times from the beginning on, and what it waited for."""
    print("| Crate | Part | Began | Ended | By the clock | Processor | After | Waited then |\n|---|---|---|---|---|---|---|---|")
    for it in shown:
        before = it.last_awaited(pieces)
        name = "" if before is None else f"`{before.crate}`" + f", {before.part}" * (before.part != "proof")
        waited = it.begun - (begun if before is None else before.ended)
        minutes = " | ".join(f"{seconds / 60:.1f}" for seconds in (it.begun - begun, it.ended - begun, it.ended - it.begun, it.seconds))
        print(f"| `{it.crate}` | {it.part} | {minutes} | {name} | {max(waited, 0) / 60:.1f} |")


def print_chains(seen, begun):
    """When each piece began and ended, the chain that ended last, and the dearest."""
    pieces = seen.pieces()
    if not pieces:
        return
    begun = min(begun, *(it.begun for it in pieces.values()))
    print()
    print_pieces(pieces, pieces.values(), begun)
    chain, dearest = last_chain(pieces), dearest_chain(pieces)
    print("\nThe chain that ended last:\n")
    print_pieces(pieces, chain, begun)
    whole, held = chain[-1].ended - begun, sum(it.ended - it.begun for it in chain)
    print(f"{whole / 60:.1f} minutes by the clock, {held / 60:.1f} in these, which took {seconds_of(chain) / 60:.1f} of processors")
    print("At a time: " + ", ".join(f"{number} for {seconds / 60:.1f} minutes" for number, seconds in seconds_at_once(pieces).items()))
    names = ", ".join(f"`{it.crate}`" + f" {it.part}" * (it.part != "proof") for it in dearest)
    print(f"The dearest chain takes {seconds_of(dearest) / 60:.1f} processor minutes: {names}", flush=True)


def main():
    parser = parser_of(__doc__)
    parser.add_argument("--beside", type=int, metavar="PROCESS", help="look at what this process does, until this script is stopped")
    parser.add_argument("command", nargs=argparse.REMAINDER, help="a command of the kit with its words")
    words, begun = parser.parse_args(), time.time()
    if (words.beside is None) != bool(words.command):
        parser.error("wanted is a command, or --beside with a process")
    if words.beside is not None:
        seen = Seen(words.beside)
        watch(seen, lambda: os.path.exists(f"/proc/{words.beside}"))
        print_table(seen, begun)
        print_chains(seen, begun)
        return 0
    command = words.command
    running, seen = subprocess.Popen(command), Seen(os.getpid())
    if watch(seen, lambda: running.poll() is None):
        running.terminate()
    print_table(seen, begun)
    print_chains(seen, begun)
    return 1 if running.poll() is None else running.returncode


if __name__ == "__main__":
    sys.exit(main())
