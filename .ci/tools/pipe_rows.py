#!/usr/bin/env python3
"""Tries sessions that are asked line by line, over pipes and on a terminal: the answer to a line has come before the next line is written.

    python3 .ci/tools/pipe_rows.py PROGRAM [--stack STACK] [--wait SECONDS]

Tried are also: a line that comes in two pieces, a line that ends a session whose input stays open, a reader that leaves, an input that can't be read, and a
file named `-`. STACK is the script `stack`, by which the same is asked as a person would. Prints a line for each row that fails, and how many rows there
were. The exit status is 1 where one failed.
"""
import os
import pty
import select
import subprocess
import sys
import tempfile
import time
from pathlib import Path

sys.path.append(str(Path(__file__).resolve().parents[2] / "tools"))

from arguments import parser_of  # noqa: E402
from arguments import program as executable  # noqa: E402

TOP = Path(__file__).resolve().parents[2]
# So long nothing may come.
QUIET = 0.2
# What each level says to lines, in a run that assigns 7 to x.
TALKS = {
    "gypsy": [("show", "at 48 depth 1\ncondition normal\nx = 9\n"), ("", ""), ("step 1", "stepped 1\n"), ("step 5", "stepped 1 ended\n")],
    "piton": [("attach cost", "attached cost\n"), ("until main 3 100", "arrived 7\n"), ("tally cost", "cost 23\n"), ("step 9", "stepped 2 ended\n")],
    "fm9001": [("until 68 100", "arrived 20\n"), ("words 4294967295 1", "ffffffff outside\n"), ("step 28", "stepped 8 ended\n"), ("up", "condition normal\nx = 7\n")],
}


class Talk:
    """A session whose lines are written one by one. An answer and an end are awaited for so many seconds."""

    seconds = 0

    def __init__(self, program, folder, words, script="-", **how):
        streams = {"stdin": subprocess.PIPE, "stdout": subprocess.PIPE, "stderr": subprocess.DEVNULL, "cwd": folder} | how
        self.running = subprocess.Popen([program, "debug", *words.split(), script], bufsize=0, **streams)
        self.given = self.running.stdin and self.running.stdin.fileno()
        self.printed = self.running.stdout and self.running.stdout.fileno()

    def write(self, text):
        try:
            os.write(self.given, text.encode())
        except BrokenPipeError:
            pass

    def read(self, size, seconds=None):
        """What comes of so many bytes until nothing comes any more, or for so long."""
        came, late = b"", time.monotonic() + (seconds or self.seconds)
        while len(came) < size and select.select([self.printed], [], [], max(0, late - time.monotonic()))[0]:
            more = os.read(self.printed, size - len(came))
            if not more:
                break
            came += more
        return came.decode().replace("\r\n", "\n")

    def is_quiet(self):
        return not select.select([self.printed], [], [], QUIET)[0]

    def wait(self):
        """The status, without an end of the input, or that it doesn't end."""
        try:
            return self.running.wait(self.seconds)
        except subprocess.TimeoutExpired:
            return "hangs"

    def end(self):
        """What was printed beside what was read, and the status; or that it doesn't end."""
        try:
            rest, _ = self.running.communicate(timeout=self.seconds)
            return (rest or b"").decode(), self.running.returncode
        except subprocess.TimeoutExpired:
            return "hangs", None
        finally:
            self.running.kill()


class Rows:
    """Runs rows, and notes those that fail."""

    def __init__(self, folder):
        self.folder, self.count, self.failed = folder, 0, 0
        (folder / "s").write_bytes((TOP / "examples/first/seven.gypsy").read_bytes())
        (folder / "v").write_text("((x 9))")
        (folder / "-").write_text("jump\n")

    def note(self, holds, row, seen):
        self.count += 1
        if not holds:
            self.failed += 1
            print(f"pipe: {row}: {seen!r:.300}", flush=True)

    def in_turn(self, program, level, **how):
        """Each answer has come before the next line is written, and nothing else has."""
        talk = Talk(program, self.folder, f"{level} s v 7 3", **how)
        for line, answer in TALKS[level]:
            talk.write(line + "\n")
            came = talk.read(len(answer))
            self.note(came == answer and talk.is_quiet(), (program.name, level, line), came)
            if came != answer:
                break
        ended = talk.end()
        self.note(ended == ("", 0), (program.name, level, "the end of the input"), ended)

    def of_pieces(self, program):
        """A line that comes in pieces is answered once it is whole, and the last one needs no line feed."""
        talk = Talk(program, self.folder, "gypsy s v 7 3")
        talk.write("step")
        self.note(talk.is_quiet(), "half a line", "")
        talk.write(" 1\nup\nstep 1")
        came = talk.read(len("stepped 1\ntop\n"))
        self.note(came == "stepped 1\ntop\n" and talk.is_quiet(), "a line and a half", came)
        ended = talk.end()
        self.note(ended == ("stepped 1 ended\n", 0), "a last line without a line feed", ended)

    def of_ends(self, program):
        """A line that breaks a rule ends a session whose input stays open, and so does a reader that leaves."""
        talk = Talk(program, self.folder, "gypsy s v 7 3")
        talk.write("up\njump\n")
        came = talk.read(100), talk.wait()
        self.note(came == ("top\nscript D1 at line 2\n", 13), "an input that stays open", came)
        talk.end()
        talk = Talk(program, self.folder, "gypsy s v 7 3")
        talk.write("up\n")
        came = talk.read(len("top\n"))
        talk.running.stdout.close()
        talk.running.stdout = None
        talk.write("up\n")
        ended = talk.end()
        self.note((came, ended) == ("top\n", ("", 11)), "a reader that leaves", (came, ended))

    def of_files(self, program):
        """An input that can't be read is told as `-`; a file of that name is read as ./- alone."""
        folder = os.open(self.folder, os.O_RDONLY)
        ended = Talk(program, self.folder, "gypsy s v 7 3", stdin=folder).end()
        os.close(folder)
        self.note(ended == ("shelf fault -\n", 10), "an input that can't be read", ended)
        ended = Talk(program, self.folder, "gypsy s v 7 3", stdin=subprocess.DEVNULL).end()
        self.note(ended == ("", 0), "no input", ended)
        ended = Talk(program, self.folder, "gypsy s v 7 3", script="./-").end()
        self.note(ended == ("script D1 at line 1\n", 13), "a file named -", ended)

    def on_terminal(self, program, quiet):
        """On a terminal a line is answered once it is typed, nothing is told while nobody types for so long, and an end of file is the end."""
        main, other = pty.openpty()
        talk = Talk(program, self.folder, "gypsy s v 7 3", stdin=other, stdout=other, stderr=other, start_new_session=True)
        os.close(other)
        talk.given = talk.printed = main
        for line, answer in TALKS["gypsy"]:
            if answer:
                talk.write(line + "\n")
                wanted = f"{line}\n{answer}"
                came = talk.read(len(wanted) + wanted.count("\n"))
                self.note(came == wanted, (program.name, "a terminal", line), came)
        came = talk.read(1, quiet)
        self.note(came == "", (program.name, "a terminal", "nobody types"), came)
        talk.write("\x04")
        ended = talk.end()
        self.note(ended[1] == 0, (program.name, "a terminal", "an end of file"), ended)
        os.close(main)


def main():
    parser = parser_of(__doc__)
    parser.add_argument("program", type=executable, help="cli_stack")
    parser.add_argument("--stack", type=executable, help="the script `stack`")
    parser.add_argument("--wait", type=int, default=20, help="how many seconds an answer or an end is awaited (%(default)s)")
    words = parser.parse_args()
    Talk.seconds = words.wait
    with tempfile.TemporaryDirectory() as room:
        rows = Rows(Path(room))
        for level in TALKS:
            rows.in_turn(words.program, level)
        rows.of_pieces(words.program)
        rows.of_ends(words.program)
        rows.of_files(words.program)
        rows.on_terminal(words.program, QUIET)
        if words.stack:
            for explains in "0", "1":
                rows.in_turn(words.stack, "gypsy", env=os.environ | {"STACK_EXPLAIN": explains})
            # After two seconds it tells of other commands that they run.
            rows.on_terminal(words.stack, 3)
    print(f"{rows.count:5} rows: sessions line by line, {rows.failed} failed")
    return rows.failed != 0


if __name__ == "__main__":
    sys.exit(main())
