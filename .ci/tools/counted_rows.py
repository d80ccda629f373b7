#!/usr/bin/env python3
"""Runs the rows of the folder conformance with each allocation counted: none is refused, and no run ends by out of memory.

So what a command does where every allocation is granted isn't cut short for want of memory. The exit status is 1 where a row fails, a run had an
allocation refused or ended with status 14, or its allocations weren't counted.
"""
import importlib.machinery
import importlib.util
import os
import sys
import tempfile
from dataclasses import dataclass
from pathlib import Path

sys.path.append(str(Path(__file__).resolve().parents[2] / "tools"))

from arguments import file, parser_of  # noqa: E402
from arguments import program as executable  # noqa: E402

TOP = Path(__file__).resolve().parents[2]
NO_MEMORY = 14


@dataclass
class Counts:
    """What a run asked of the heap: its status, its calls, those that were refused, the bytes that they asked for together and at most in one call,
    and the bytes that were held at most."""

    status: int
    calls: int
    refused: int
    asked: int
    largest: int
    most_held: int


def counts_in(path):
    """The counts of all runs, by the lines that counting_allocations.c wrote."""
    return [Counts(*map(int, line.split())) for line in path.read_text().splitlines()]


def conformance():
    """The script conformance/run, as a module."""
    loader = importlib.machinery.SourceFileLoader("conformance", str(TOP / "conformance/run"))
    module = importlib.util.module_from_spec(importlib.util.spec_from_loader("conformance", loader))
    loader.exec_module(module)
    return module


def wrong_in(counts, runs):
    """What is wrong with the runs, in a line each."""
    refused = sum(it.refused > 0 for it in counts)
    short = sum(it.status == NO_MEMORY and not it.refused for it in counts)
    silent = sum(not it.calls for it in counts)
    found = [
        (refused, f"{refused} runs had an allocation refused"),
        (short, f"{short} runs end with status {NO_MEMORY}, and no allocation was refused"),
        (silent, f"of {silent} runs no allocation was counted"),
        (len(counts) != runs, f"{len(counts)} runs were counted, and there are {runs}"),
    ]
    return [f"counted rows: {line}" for holds, line in found if holds]


def main():
    parser = parser_of(__doc__)
    parser.add_argument("program", type=executable, help="cli_stack")
    parser.add_argument("counting", type=file, help="counting_allocations.c, compiled as a library that is loaded before the C library")
    parser.add_argument("--before", type=file, action="append", default=[], help="a library that is loaded before that one")
    parser.add_argument("--behind", type=file, action="append", default=[], help="a library that is loaded after it")
    parser.add_argument("--rows", action="append", default=[], help="the name of a file of rows; without it all are run")
    words, run = parser.parse_args(), conformance()
    with tempfile.TemporaryDirectory() as folder:
        path = Path(folder, "counts")
        os.environ |= {"COUNTS": str(path), "LD_PRELOAD": " ".join(map(str, [*words.before, words.counting, *words.behind]))}
        _, runs, failed = run.run_all(words.program, run.files_of_rows(words.rows))
        del os.environ["LD_PRELOAD"]
        counts = counts_in(path)
    wrong = wrong_in(counts, runs)
    calls, held = sum(it.calls for it in counts), max((it.most_held for it in counts), default=0)
    print("\n".join([*wrong, f"counted rows: {len(counts)} runs, {calls:,} allocations, at most {held:,} bytes held"]))
    return bool(failed or wrong)


if __name__ == "__main__":
    sys.exit(main())
