#!/usr/bin/env python3
"""Lets calls of devices fail: how a command ends, what was printed by then, and the bytes that are stored.

Prints a line for each row that fails, and how many
rows there were. The exit status is 1 where one failed.
"""
import errno
import os
import signal
import subprocess
import sys
import tempfile
from dataclasses import dataclass
from pathlib import Path

sys.path.append(str(Path(__file__).resolve().parents[2] / "tools"))

from arguments import file, parser_of  # noqa: E402
from arguments import program as executable  # noqa: E402
from tried import trials  # noqa: E402

TOP = Path(__file__).resolve().parents[2]
NEVER = None

# How many bytes the image of the source has.
WHOLE = 3622

GO, BUILD = "go s v 7 3 28 i", "build s 7 3 i"
FAULT = "shelf fault i\n"

# The call of the shelf or of the sink that fails, from 0, and how many bytes it gives or keeps; the status, what is printed, and how many bytes
# of the file are stored.
RUNS = [
    (GO, (0, 0), NEVER, 10, "shelf fault s\n", 0),
    (GO, (0, 3), NEVER, 10, "shelf fault s\n", 0),
    (GO, (0, 99_999), NEVER, 10, "shelf fault s\n", 0),
    (GO, (1, 3), NEVER, 10, "shelf fault v\n", 0),
    (GO, (2, 5), NEVER, 10, FAULT, 0),
    (GO, (2, 99_999), NEVER, 10, FAULT, 0),
    (GO, (3, 5), NEVER, 0, "finished 28\ncondition normal\nx = 7\n", WHOLE),
    (GO, NEVER, (0, 0), 11, "", WHOLE),
    (GO, NEVER, (0, 4), 11, "fini", WHOLE),
    (GO, NEVER, (1, 4), 11, "finished 28\ncond", WHOLE),
    (GO, NEVER, (2, 99), 11, "finished 28\ncondition normal\nx = 7\n", WHOLE),
    (GO, (2, 0), (0, 5), 11, "shelf", 0),
    (BUILD, (1, 5), NEVER, 10, FAULT, 0),
]

# The call of the system that fails while a new file takes the place of an old one, with which error, and the status: where the system refuses, the
# file is written in place.
CALLS = [
    (f"{call}:{error}", status)
    for call in ("fchmod", "fsync", "rename")
    for error, status in ((errno.EIO, 10), (errno.ENOSPC, 10), (errno.EPERM, 0), (errno.EACCES, 0), (errno.EBUSY, 0), (errno.EROFS, 0))
]
OLD = b"old"

# The call at which the program is ended by a signal, and how much of the new file is there by then, under a name of its own.
ENDS = {"fchmod": 0, "write": WHOLE // 2, "fsync": WHOLE, "rename": WHOLE}
PART = "partly-stored-1"

FILES = {"s": (TOP / "examples/first/seven.gypsy").read_bytes(), "v": b"((x 0))"}


@dataclass
class Ending:
    """How a command ended: its status, what it printed, and the files of its folder."""

    status: int
    printed: str
    files: dict


class Rows:
    """Runs rows, and notes those that fail."""

    def __init__(self, program, failing):
        self.program, self.failing_library = str(Path(program).resolve()), str(Path(failing).resolve())
        self.count = self.failed = 0

    def run(self, words, files, file_call=NEVER, line_call=NEVER, system_call=NEVER, link=None, how=()):
        """Runs a command over these files, where one call of a device may fail; `link` is a symbolic link to the first of them, `how` what else the
        library is told."""
        how = dict(os.environ) | ({name: "1" for name in how} | {"LD_PRELOAD": self.failing_library} if how else {})
        if system_call is not NEVER:
            how |= {"FAILING_CALL": system_call, "LD_PRELOAD": self.failing_library}
        for variable, call in (("FAILING_FILE", file_call), ("FAILING_LINE", line_call)):
            if call is not NEVER:
                how |= {variable: f"{call[0]}:{call[1]}", "LD_PRELOAD": self.failing_library}
        with tempfile.TemporaryDirectory() as folder:
            for name, content in files.items():
                Path(folder, name).parent.mkdir(parents=True, exist_ok=True)
                Path(folder, name).write_bytes(content)
            if link:
                Path(folder, link).symlink_to(next(iter(files)))
            ran = subprocess.run([self.program, *words.split()], cwd=folder, env=how, stdout=subprocess.PIPE, check=False)
            left = {str(it.relative_to(folder)): it.read_bytes() for it in Path(folder).rglob("*") if it.is_file()}
        return Ending(ran.returncode, ran.stdout.decode(), left)

    def note(self, holds, row, ending):
        self.count += 1
        if not holds:
            self.failed += 1
            print(f"failing devices: {row!r:.300}")
            print(f"    status {ending.status}, printed {ending.printed!r:.300}, files {sorted(ending.files)}")

    def single(self):
        whole = self.run(BUILD, FILES)
        image = whole.files.get("i", b"")
        self.note(len(image) == WHOLE, "the whole image", whole)
        for row in RUNS:
            words, file_call, line_call, status, printed, stored = row
            ending = self.run(words, FILES, file_call, line_call)
            is_first = ending.files.get("i", b"") == image[:stored]
            self.note((ending.status, ending.printed) == (status, printed) and is_first, row, ending)
            stalled = self.run(words, FILES, file_call, line_call, how=["STALLING"])
            self.note(stalled == ending, (row, "a write that takes nothing"), stalled)

    def replacing(self):
        """An old file stays where a call fails while a new one is made, or the program ends there, which leaves a part beside it; what is written in
        place has a prefix; and no other file is left."""
        whole = self.run(BUILD, FILES)
        old = FILES | {"i": OLD}
        for row, status in CALLS:
            ending = self.run(BUILD, old, system_call=row)
            self.note(ending == (Ending(10, FAULT, old) if status else whole), row, ending)
        for call, size in ENDS.items():
            ending = self.run(BUILD, old, system_call=f"{call}:kill")
            self.note(ending == Ending(-signal.SIGKILL, "", old | {PART: whole.files["i"][:size]}), ("killed", call), ending)
        for kept in 0, 5, 99_999:
            ending = self.run(BUILD, old, (1, kept))
            self.note(ending == Ending(10, FAULT, old), ("an old file", kept), ending)
            linked = {"o": OLD} | FILES
            ending = self.run(BUILD, linked, (1, kept), link="i")
            first = whole.files["i"][:kept]
            self.note(ending == Ending(10, FAULT, FILES | {"o": first, "i": first}), ("a link", kept), ending)

    def in_turn(self, trial):
        """Each call of a device fails in turn, and keeps three bytes, of which nothing is left; the first call that isn't there changes nothing, nor do
        calls that are interrupted and move one byte each."""
        with tempfile.TemporaryDirectory() as folder:
            trial.prepare(self.program, folder)
            there = {name: Path(folder, name).read_bytes() for name in trial.reads}
        words, names = trial.line, [*trial.reads, *([trial.stored] if trial.stored else [])]
        whole = self.run(words, there)
        self.note(whole.status == 0, words, whole)
        lines = whole.printed.splitlines(keepends=True)
        for call, name in enumerate(names):
            ending = self.run(words, there, file_call=(call, 3))
            left = {it: content for it, content in whole.files.items() if it in there}
            self.note(ending == Ending(10, f"shelf fault {name}\n", left), (words, name), ending)
        for call, line in enumerate(lines):
            ending = self.run(words, there, line_call=(call, 3))
            self.note(ending == Ending(11, "".join(lines[:call]) + line[:3], whole.files), (words, line), ending)
        ending = self.run(words, there, (len(names), 3), (len(lines), 3))
        self.note(ending == whole, (words, "none"), ending)
        ending = self.run(words, there, how=["SLOW"])
        self.note(ending == whole, (words, "byte by byte"), ending)


def main():
    parser = parser_of(__doc__)
    parser.add_argument("program", type=executable, help="cli_stack")
    parser.add_argument("failing", type=file, help="failing_devices.c, compiled as a library that is loaded before the C library")
    words = parser.parse_args()
    rows = Rows(str(words.program), str(words.failing))
    rows.single()
    rows.replacing()
    for trial in trials():
        rows.in_turn(trial)
    print(f"{rows.count:5} rows: failing devices, {rows.failed} failed")
    return rows.failed != 0


if __name__ == "__main__":
    sys.exit(main())
