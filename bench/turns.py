#!/usr/bin/env python3
"""Times eight tasks of a long loop that take turns, beside the same eight runs alone.

The source is the first long run of conformance/made/large.py. For each length of a turn, and for `go` eight times: the instructions, the rounds,
and the least time of some trials, the processes' own and the system's.
"""
import os
import re
import subprocess
import sys
import tempfile
from pathlib import Path

sys.dont_write_bytecode = True
CONFORMANCE = Path(__file__).resolve().parents[1] / "conformance"
sys.path[:0] = [str(CONFORMANCE), str(CONFORMANCE / "made")]
import large
from measure import program_parser

TRIALS = 3
TASKS = 8
BUDGET = 10**9


def taken(program, lines, folder):
    """What the commands print, and the least time of some trials of all of them."""
    trials = []
    for _ in range(TRIALS):
        seconds, printed = 0, ""
        for words in lines:
            process = subprocess.Popen([program, *words.split()], cwd=folder, stdout=subprocess.PIPE)
            printed += process.stdout.read().decode()
            _, _, usage = os.wait4(process.pid, 0)
            seconds += usage.ru_utime + usage.ru_stime
        trials.append((seconds, printed))
    return min(trials)


def main():
    program = program_parser(__doc__).parse_args().program
    _, _, _, source, values, _ = large.RUNS[0]
    runs = [("alone", [f"go s v 100 100 {BUDGET} i"] * TASKS)]
    runs += [(f"{turn:,}", [f"turns {turn} {BUDGET} 100 100" + " s v" * TASKS]) for turn in (1, 10, 1_000, 1_000_000)]
    print("| Turn | Instructions | Rounds | Time |\n|---|---|---|---|")
    with tempfile.TemporaryDirectory() as folder:
        Path(folder, "s").write_text(source)
        Path(folder, "v").write_text(values)
        for name, lines in runs:
            seconds, printed = taken(program, lines, folder)
            instructions = sum(int(it) for it in re.findall(r"finished (\d+)", printed))
            rounds = max((int(it) for it in re.findall(r"round (\d+)", printed)), default=0)
            print(f"| {name} | {instructions:,} | {rounds:,} | {seconds:.2f} s |", flush=True)


if __name__ == "__main__":
    main()
