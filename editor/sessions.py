"""Sessions that are asked line by line: docs/program/debug.md.

A session answers a line before it reads the next one, and stands where the lines so far have led. Behind lines it is told `step 0`, which leads nowhere: when
that is answered, their answers are whole.
"""
import os
import re
import select
import subprocess
import time
from collections import deque

import beside
from program import Refused

MOVED = re.compile(r"(stepped|arrived) (\d+)( ended)?")
LAST, MOVING = "step 0", ("step ", "until ")
# How often it is looked whether somebody asks to stop, and how long the answer that is waited for may still take then, in seconds.
LOOK, GRACE = 0.1, 0.5
# So many bytes are written or read at a time at most.
CHUNK = 65536


class Interrupted(Exception):
    """Somebody asked to stop in the middle of a question."""


class Session:
    """A session of a run at a level."""

    def __init__(self, run, level):
        self.run, self.given, self.come, self.rest, self.last = run, b"", deque(), b"", ""
        line = [run.path, "debug", level, "s", "v", *map(str, run.program.sizes), "-"]
        streams = {"stdin": subprocess.PIPE, "stdout": subprocess.PIPE, "stderr": subprocess.DEVNULL}
        self.process = subprocess.Popen(line, cwd=run.folder, bufsize=0, **streams)
        run.program.asked += 1

    def __enter__(self):
        return self

    def __exit__(self, *_):
        self.close()

    def close(self):
        self.process.kill()
        self.process.stdin.close()
        self.process.stdout.close()
        self.process.wait()

    def ask(self, *lines):
        """What is answered to lines. Raises Refused if the session ends, since one of them is refused or the program was ended, and Interrupted if somebody
        asks to stop."""
        self.given, self.last = "".join(f"{it}\n" for it in (*lines, LAST)).encode(), ""
        left, said = 1 + sum(it.startswith(MOVING) for it in lines), []
        while left:
            said.append(self.next_line())
            left -= MOVED.fullmatch(said[-1]) is not None
        return said[:-1]

    def next_line(self):
        while not self.come:
            self.wait()
            read = self.process.stdout.read(CHUNK)
            if not read:
                status = self.process.wait()
                raise Refused(status, self.last if status > 0 and self.last else beside.ended(status))
            *whole, self.rest = (self.rest + read).split(b"\n")
            self.come.extend(whole)
        self.last = self.come.popleft().decode(errors="replace")
        return self.last

    def wait(self):
        """Waits until something can be read, and gives the lines meanwhile."""
        since = None
        while True:
            can_read, can_write, _ = select.select([self.process.stdout], [self.process.stdin] if self.given else [], [], LOOK)
            if can_read:
                return
            if can_write:
                self.give()
            elif self.run.stop.is_set():
                since = since or time.monotonic()
                if time.monotonic() - since > GRACE:
                    raise Interrupted

    def give(self):
        """Gives as much as is taken at once, so that nobody waits for who waits."""
        try:
            self.given = self.given[os.write(self.process.stdin.fileno(), self.given[:select.PIPE_BUF]):]
        except BrokenPipeError:
            # Why it has ended is told by its last line.
            self.given = b""


class Standing:
    """Where a session stands. It goes on from there; if it has ended, or has passed a moment, another one is begun, since a run is the same each time."""

    def __init__(self, run, level):
        self.run, self.level, self.session = run, level, None
        # How many steps have led there, and how many instructions they cost; and what is asked behind each step to know that.
        self.steps = self.count = 0
        self.costs = () if level == "fm9001" else ("tally cost",)

    def ask(self, *lines):
        try:
            return self.session.ask(*lines)
        except (Refused, Interrupted, OSError):
            self.leave()
            raise

    def leave(self):
        """Ends the session."""
        if self.session:
            self.session.close()
        self.session = None

    def before(self, steps):
        """Has a session stand after so many steps or fewer."""
        if self.session and self.steps <= steps:
            return
        self.leave()
        self.session, self.steps, self.count = Session(self.run, self.level), 0, 0
        if self.costs:
            self.ask("attach cost")

    def stand(self, steps):
        """Has a session stand after so many steps, or at the end."""
        self.before(steps)
        if self.steps < steps:
            self.advance(f"step {steps - self.steps}")

    def advance(self, line):
        """Goes on by a line. Whether the run has arrived somewhere is returned."""
        said = self.ask(line, *self.costs)
        self.take(said)
        return said[0].startswith("arrived")

    def take(self, said):
        """Notes where a line has led, by its answer and that to `tally`. What else was said there is returned."""
        self.steps += int(MOVED.fullmatch(said[0])[2])
        self.count = int(said[1].split()[1]) if self.costs else self.steps
        return said[1 + len(self.costs):]
