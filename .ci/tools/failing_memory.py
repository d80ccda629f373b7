#!/usr/bin/env python3
"""Lets each allocation of each command fail in turn, up to the first number that no allocation has.

Either a command ends as it
does with ample memory, or its status is 14, what it printed is a prefix of the text, and the file that it writes is as before or holds its
bytes; so it is where no such file was there before, and where one was.
"""
import multiprocessing
import os
import subprocess
import sys
import tempfile
from pathlib import Path

sys.path.append(str(Path(__file__).resolve().parents[2] / "tools"))

from arguments import file, parser_of  # noqa: E402
from arguments import program as executable  # noqa: E402
from tried import trials  # noqa: E402

NO_MEMORY = 14
# A count that no allocation has, or a program that passes over most failures, would show nothing.
LEAST = 20


class Sweep:
    """One command in a folder of its own, where the file that it stores holds some bytes before each run, or isn't there."""

    def __init__(self, program, failing, trial, before):
        self.program, self.failing, self.trial, self.before = program, failing, trial, before
        self.made = Path(trial.stored or "nothing is stored")
        self.short, self.wrong = 0, []

    def run(self, number=None):
        """The status, the text and the stored file of a run where the allocation of this number fails, and whether it came."""
        for path in (self.made, Path("came")):
            path.unlink(missing_ok=True)
        if self.before is not None:
            self.made.write_bytes(self.before)
        how = dict(os.environ)
        if number is not None:
            how |= {"FAILING": str(number), "CAME": "came", "LD_PRELOAD": self.failing}
        ran = subprocess.run([self.program, *self.trial.words], env=how, stdout=subprocess.PIPE, check=False)
        made = self.made.read_bytes() if self.made.exists() else None
        return ran.returncode, ran.stdout, made, Path("came").exists()

    def judge(self, whole, number):
        """Notes what is wrong with the end where the allocation of this number fails, and tells whether it came."""
        status, text, made, came = self.run(number)
        is_short = status == NO_MEMORY and whole[1].startswith(text) and made in (self.before, whole[2])
        if (status, text, made) != whole and not (came and is_short):
            self.wrong.append(f"{self.trial.line}, allocation {number}: status {status}, printed {text!r:.80}")
        self.short += status == NO_MEMORY
        return came

    def sweep(self):
        whole = self.run()[:3]
        if whole[0] != 0:
            self.wrong.append(f"{self.trial.line}: status {whole[0]}")
        number = 1
        while self.judge(whole, number):
            number += 1
        if self.short < LEAST:
            self.wrong.append(f"{self.trial.line}: only {self.short} allocations end it")
        return number - 1, self.wrong


def sweep(job):
    program, failing, trial, before = job
    with tempfile.TemporaryDirectory() as own:
        trial.prepare(program, own)
        os.chdir(own)
        found = Sweep(program, failing, trial, before).sweep()
        os.chdir("/")
    return found


def main():
    parser = parser_of(__doc__)
    parser.add_argument("program", type=executable, help="cli_stack")
    parser.add_argument("failing", type=file, help="failing_allocations.c, compiled as a library that is loaded before the C library")
    words = parser.parse_args()
    program, failing = str(words.program), str(words.failing)
    jobs = [(program, failing, trial, before) for trial in trials() for before in ([None, b"before"] if trial.stored else [None])]
    with multiprocessing.Pool(len(os.sched_getaffinity(0))) as pool:
        found = pool.map(sweep, jobs, chunksize=1)
    wrong = [line for _, lines in found for line in lines]
    print("\n".join(wrong[:20]))
    print(f"memory: {sum(count for count, _ in found)} allocations fail, {len(wrong)} wrong ends")
    return bool(wrong)


if __name__ == "__main__":
    sys.exit(main())
