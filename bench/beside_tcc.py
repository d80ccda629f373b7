#!/usr/bin/env python3
"""Times the largest source beside tcc: writes the source and a C file that does the same into a folder, and prints what `build`, `check` and
`tcc -c` take, turn by turn, the first two with large pages too. `tcc` has to be on the PATH."""

import os
import pathlib
import statistics
import subprocess

from measure import program_parser
from programs import c_of, largest_source

LARGE_PAGES = {"GLIBC_TUNABLES": "glibc.malloc.hugetlb=1"}


def taken(words, more):
    """Seconds, seconds of the system, page faults and megabytes of a run."""
    process = subprocess.Popen(words, stdout=subprocess.DEVNULL, stderr=subprocess.DEVNULL, env=os.environ | more)
    _, status, usage = os.wait4(process.pid, 0)
    if status:
        sys.exit(f"{words} ended with {os.waitstatus_to_exitcode(status)}")
    return usage.ru_utime + usage.ru_stime, usage.ru_stime, usage.ru_minflt, usage.ru_maxrss / 1024


def main():
    parser = program_parser(__doc__)
    parser.add_argument("folder", type=pathlib.Path, help="where the files are written")
    parser.add_argument("turns", type=int, nargs="?", default=70, help="how many (%(default)s)")
    words = parser.parse_args()
    program, turns = words.program, words.turns
    os.chdir(words.folder)
    pathlib.Path("program.gypsy").write_text(largest_source(1 << 20))
    pathlib.Path("program.c").write_text(c_of(1 << 20))
    build, check = [program, "build", "program.gypsy", "64", "64", "program.image"], [program, "check", "program.gypsy"]
    commands = {
        "build": (build, {}),
        "build, large pages": (build, LARGE_PAGES),
        "check": (check, {}),
        "check, large pages": (check, LARGE_PAGES),
        "tcc": (["tcc", "-c", "-o", "program.o", "program.c"], {}),
    }
    runs = {name: [] for name in commands}
    for _ in range(turns):
        for name, (words, more) in commands.items():
            runs[name].append(taken(words, more))
    times = {name: [run[0] for run in those] for name, those in runs.items()}
    best, median = min(times["tcc"]), statistics.median(times["tcc"])
    for name, those in runs.items():
        least, middle = min(times[name]), statistics.median(times[name])
        system = statistics.median(run[1] for run in those)
        print(
            f"{name}: {least:.4f} s at best, {least / best:.2f} of tcc; {middle:.4f} s as median, {middle / median:.2f} of tcc, "
            f"{system:.4f} s of it the system's; {those[0][2]} page faults, {max(run[3] for run in those):.0f} MB"
        )


if __name__ == "__main__":
    main()
