"""Tries the program that is there on what needs no proof, and says how many trials passed and failed: `./stack test`.

    testing.py PROGRAM WHICH [PART]

WHICH says which program that is, and PART takes one part alone. All parts together have five minutes; a trial that isn't over by then has failed. The
scripts of .ci/tools are the gate's, and a release hasn't them: it tries the rows alone, and says so. The exit status is 0 exactly if nothing failed.
"""
import argparse
import os
import re
import signal
import subprocess
import sys
import tempfile
import time
from collections import namedtuple
from pathlib import Path

import ends

TOP = Path(__file__).resolve().parent.parent
SECONDS = 300
# How long a trial has to remove its files when it is told to end.
GRACE = 5
# So many lines are printed of what a trial found wrong.
MOST_LINES = 20
TRIED = os.environ.get("STACK_TRIED") == "1"

# What is tried, the words that try it, from the top of the repository, and the line in which it says how many there were, unless it is one, and perhaps
# how many failed. Where it doesn't count what failed by the same measure, this is the line of a trial in which nothing did.
Trial = namedtuple("Trial", "what words counts")
Running = namedtuple("Running", "trial process said")


def tool(name, program, *more):
    return [sys.executable, f".ci/tools/{name}.py", program, *more]


def documents():
    """The documents that show commands with what they print."""
    pages = (it for it in [*TOP.glob("*.md"), *TOP.glob("*/**/*.md")] if not it.is_relative_to(TOP / "crates"))
    return [str(it) for it in sorted(pages) if "\n```console\n" in it.read_text()]


def parts(program):
    """The trials of each part. Those of one part run beside one another."""
    # A program that looks at its own use of memory takes more of it and is slow: too slow for all damaged files, and for the long rows.
    rows = [it.name for it in sorted(TOP.glob("conformance/*.rows")) + sorted(TOP.glob("conformance/made/*.py")) if it.name != "large.py"] if TRIED else []
    damage = ["--share", "--sanitized"] if TRIED else []
    return {
        "rows": [Trial("rows of conformance", [sys.executable, "conformance/run", program, *rows], r" *(\d+) rows, (\d+) failed")],
        "examples": [Trial("commands that documents show", tool("transcripts", str(TOP / "stack"), *documents()), r" *(\d+) commands of transcripts, (\d+) failed")],
        "random": [
            Trial("random sources", tool("random_sources", program, "1", "60"), r"(60) sources agree"),
            Trial("random sources by quick", tool("random_quick", program, "1", "60"), r"(60) sources agree"),
            Trial("random products", tool("random_products", program, "2000"), r"(\d+) products, 0 sources"),
            Trial("random infix programs", tool("random_infix", program, "1", "60"), r"(\d+) random infix programs, .*: 0 wrong"),
            Trial("text of a million random words", tool("random_words", program), r"1000000 random words, "),
            Trial("random programs for the processor", tool("random_programs", program), r"(\d+) random programs, "),
        ],
        "damage": [Trial("runs on damaged files", tool("damage", program, *damage), r"damage: (\d+) runs, (\d+) of them wrong")],
    }


def is_here(trial):
    return (TOP / trial.words[1]).exists()


def started(trial, room):
    """A trial that runs, in a process group of its own, so that it can be ended with all that it started."""
    said = tempfile.TemporaryFile(dir=room)
    environment = os.environ | {"STACK_EXPLAIN": "0", "PYTHONDONTWRITEBYTECODE": "1", "TMPDIR": room}
    streams = {"stdin": subprocess.DEVNULL, "stdout": said, "stderr": subprocess.STDOUT}
    return Running(trial, subprocess.Popen(trial.words, cwd=TOP, env=environment, start_new_session=True, **streams), said)


def end(running):
    """Ends a trial that still runs: by what has it remove its files, and else at once."""
    for number in (signal.SIGINT, signal.SIGKILL):
        try:
            os.killpg(running.process.pid, number)
            running.process.wait(GRACE)
        except ProcessLookupError:
            return
        except subprocess.TimeoutExpired:
            pass


def counted(running, is_over):
    """How many passed and failed of a trial, by what it said and how it ended, and what is printed of it. What can't be counted has failed once."""
    running.said.seek(0)
    what, counts, status = running.trial.what, running.trial.counts, running.process.returncode
    lines = running.said.read().decode("utf-8", "replace").splitlines()
    found = [it for it in (re.match(counts, line) for line in lines) if it]
    lines = [it for it in lines if not re.match(rf"{counts}| *\d+ rows: [\w.]+$", it) and it.strip()][:MOST_LINES]
    if not is_over:
        return 0, 1, [*lines, f"        {what}: not over in time"]
    if not found:
        return 0, 1, [*lines, f"        {what}: failed, with status {status}"]
    numbers = [int(it) for it in found[-1].groups()]
    count, failed = numbers + [1, 0][len(numbers):]
    failed = max(failed, int(status != 0))
    return count - failed, failed, [*lines, f"{count:7,} {what}, {failed:,} failed"]


def show_progress(text):
    """Says how far things are: on a terminal in a line that the next one replaces."""
    if sys.stderr.isatty():
        sys.stderr.write_as_it_is(f"\r\033[K{text}")


def try_part(name, place, trials, room, began):
    """Runs the trials of a part beside one another, prints what each found, and returns how many passed and failed."""
    passed = failed = 0
    running = []
    try:
        running = [started(it, room) for it in trials]
        left = list(running)
        while left and time.monotonic() < began + SECONDS:
            show_progress(f"stack: part {place}, {name}, {time.monotonic() - began:.0f} seconds so far")
            time.sleep(0.2)
            left = [it for it in left if it.process.poll() is None]
        show_progress("")
        for it in running:
            good, bad, lines = counted(it, it not in left)
            print("\n".join(lines), flush=True)
            passed, failed = passed + good, failed + bad
    finally:
        for it in running:
            end(it)
            it.said.close()
    return passed, failed


def main(program, which, part):
    chosen = {name: trials for name, trials in parts(program).items() if part in (None, name)}
    here = {name: [it for it in trials if is_here(it)] for name, trials in chosen.items()}
    missing = [name for name, trials in here.items() if len(trials) < len(chosen[name])]
    began, passed, failed = time.monotonic(), 0, 0
    with tempfile.TemporaryDirectory(prefix="stack-test-") as room:
        for place, (name, trials) in enumerate(here.items(), 1):
            if trials and time.monotonic() > began + SECONDS:
                print(f"        {name}: not begun in time")
                failed += 1
            elif trials:
                if not sys.stderr.isatty():
                    ends.tell(f"part {place} of {len(here)}, {name}, after {time.monotonic() - began:.0f} seconds")
                good, bad = try_part(name, f"{place} of {len(here)}", trials, room, began)
                passed, failed = passed + good, failed + bad
    if missing:
        print(f"not tried here, since only the repository has what tries it: {', '.join(missing)}")
    print(f"{which}: {passed:,} passed, {failed:,} failed, in {time.monotonic() - began:.0f} seconds")
    return 1 if failed or not passed else 0


if __name__ == "__main__":
    parser = argparse.ArgumentParser(description="Tries the program that is there on what needs no proof.")
    parser.add_argument("program")
    parser.add_argument("which")
    parser.add_argument("part", nargs="?", choices=["rows", "examples", "random", "damage"])
    words = parser.parse_args()
    ends.end(lambda: main(words.program, words.which, words.part))
