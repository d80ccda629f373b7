"""A debugger for a terminal: the source, its Piton, the words, the variables and both stacks of a run, which goes on and back.

    terminal.py PROGRAM SRC [NAME=VALUE ..]                  values 0 and false for the others, sizes as `need` has them
    terminal.py PROGRAM LEVEL SRC VALS CTRL TEMP

`./stack debug` starts it on a terminal if it is given no script. Its foot has the keys.
"""
import curses
import os
import select
import sys
import threading

import beside
from ends import FAILED, end, tell
from explain import lines_of
from moments import LEVELS, Run
from panes import NEXT, Pane
from positions import Text
from program import Refused
from seeking import Target
from sessions import Interrupted
from trying import Ended
from views import View

KEYS = "s step  n over  o out  b back  c go on  r back to  1 2 3 level  ↑↓ line  Enter break  w watch  g go to  q quit"
DONE = {
    "ended": "the end of the run", "start": "the beginning of the run", "breakpoint": "a breakpoint", "data breakpoint": "a variable changed",
    "pause": "stopped",
}


class Debugger:
    """A run on a screen."""

    def __init__(self, screen, run, level):
        self.screen, self.run, self.walk, self.marks, self.watches, self.note, self.cursor = screen, run, View(run), {}, [], "", None
        self.piton = Text(run.pit)
        self.source_lines, self.piton_lines = (it.decode("utf-8", "replace").split("\n") for it in (run.shown_text.data, run.pit))
        self.addresses = sorted(run.image.words)
        self.word_lines = [f"{it:08x} {run.image.words[it].number:08x} {run.code.shown_word(it)}" for it in self.addresses]
        self.walk.look_at(level)
        show_cursor(False)
        if curses.has_colors():
            curses.use_default_colors()
            curses.init_pair(NEXT, curses.COLOR_YELLOW, -1)
        if beside.is_unproved():
            self.note = beside.UNPROVED

    def serve(self):
        """Draws, and takes keys, until one leaves."""
        while True:
            self.draw()
            key = self.key()
            if key in ("q", "\x1b"):
                return
            self.note = ""
            try:
                self.act(key)
            except (Refused, OSError) as fault:
                self.note = said_of(fault)

    def key(self):
        """The next key. While the window gets another size none comes."""
        try:
            return self.screen.get_wch()
        except curses.error:
            if not sys.stdin.isatty():
                raise
            return curses.KEY_RESIZE

    # ---- Keys ----

    def act(self, key):
        walk, gypsy, unit = self.walk, self.walk.level == "gypsy", self.run.spot if self.run.tied else None
        if key in ("1", "2", "3"):
            walk.look_at(LEVELS[int(key) - 1])
        elif gypsy and unit and key in ("s", "b"):
            self.move(lambda: (walk.step_line if key == "s" else walk.back_line)(unit))
        elif key == "s":
            self.move(walk.step)
        elif key == "n":
            self.move(lambda: walk.over(self.targets(), line_of=unit) if gypsy else walk.over_call(self.targets()))
        elif key == "o":
            self.move(lambda: walk.over(self.targets(), out=True) if gypsy else walk.out_of_program(self.targets()))
        elif key == "b":
            self.move(lambda: walk.step(-1))
        elif key == "c":
            self.move(lambda: walk.go_watching(self.watches, self.targets()) if self.watches else walk.go(self.targets()))
        elif key == "r":
            self.move(lambda: walk.back_watching(self.watches, self.targets()) if self.watches else walk.back(self.targets()))
        elif key == "w":
            self.watch()
        elif key == "g":
            self.go_to()
        elif key in (curses.KEY_UP, curses.KEY_DOWN):
            last = len(self.source_lines) - 1
            self.cursor = min(max((self.here() if self.cursor is None else self.cursor) + (1 if key == curses.KEY_DOWN else -1), 0), last)
        elif key in ("\n", " ", curses.KEY_ENTER):
            self.mark(self.here() if self.cursor is None else self.cursor)
        elif key in (curses.KEY_RESIZE, "\x0c"):
            self.screen.clear()

    def move(self, act):
        """Goes on or back; any key stops what takes long."""
        self.cursor, self.run.stop, answers = None, threading.Event(), []
        worker = threading.Thread(target=lambda: answers.append(self.try_out(act)))
        worker.start()
        worker.join(0.5)
        while worker.is_alive():
            self.status("goes on; any key stops it")
            self.screen.refresh()
            if select.select([sys.stdin], [], [], 0.3)[0]:
                self.key()
                self.status("stops")
                self.screen.refresh()
                self.run.stop.set()
                worker.join()
        self.run.stop.clear()
        self.note = answers[0]

    @staticmethod
    def try_out(act):
        try:
            return DONE.get(act().reason, "")
        except Interrupted:
            return "stopped"
        except Exception as fault:
            return said_of(fault)

    def asked(self, text):
        """Asks for a word."""
        curses.echo()
        show_cursor(True)
        self.status(text)
        self.screen.move(self.screen.getmaxyx()[0] - 2, len(text))
        given = self.screen.getstr().decode(errors="replace").strip()
        curses.noecho()
        show_cursor(False)
        return given

    def watch(self):
        """Asks for a variable of the active procedure: where it changes the run stops, or stops no more."""
        found = self.walk.activations()
        name = self.asked("a variable to watch, or not any more: ")
        if not found or name not in dict(found[0].variables):
            self.note = f"{name} is no variable here"
            return
        key = (found[0].procedure.removesuffix(", ended"), name)
        self.watches = [it for it in self.watches if it != key] if key in self.watches else [*self.watches, key]
        self.note = "watched: " + (", ".join(f"{name} of {of}" for of, name in self.watches) or "nothing")

    def go_to(self):
        """Asks after how many steps of this level."""
        given = self.asked(f"steps of {self.walk.level}: ")
        if given.isascii() and given.isdigit():
            self.move(lambda: self.walk.at(self.walk.level, int(given)))

    def mark(self, line):
        """Sets a breakpoint at the first statement from a line on, or takes it away."""
        place = next(iter(self.run.stops_of(line)), None)
        if place is None:
            self.note = "no statement stands here or behind"
        elif place in self.marks:
            del self.marks[place]
        else:
            self.marks[place] = Target("gypsy", place)

    def targets(self):
        return list(self.marks.values())

    # ---- What is seen ----

    def here(self):
        """The line of the source at which the run stands, or its first."""
        found = self.walk.activations()
        return self.run.line(found[0].place) if found else 0

    def status(self, text):
        height, width = self.screen.getmaxyx()
        Pane(self.screen, height - 2, 0, 2, width).put(0, text[:width - 1].ljust(width - 1), curses.A_BOLD)

    def draw(self):
        self.screen.erase()
        height, width = self.screen.getmaxyx()
        tall, left = max(3, (height - 2) * 3 // 5), width * 2 // 5
        middle = (width - left) // 2
        found, instruction, address = self.walk.activations(), self.walk.instruction(), self.walk.address()
        marks = {self.run.line(it) for it in self.marks}
        Pane(self.screen, 0, 0, tall, left).draw(f"1 {self.run.source.name}", self.source_lines, self.here(), self.cursor, marks)
        at = self.piton.line_of(instruction.place) if instruction else None
        Pane(self.screen, 0, left, tall, middle).draw(f"2 Piton{f': {instruction.program}' if instruction else ''}", self.piton_lines, at)
        row = self.addresses.index(address) if address in self.run.image.words else None
        Pane(self.screen, 0, left + middle, tall, width - left - middle).draw("3 FM9001", self.word_lines, row)
        rest = height - 2 - tall
        Pane(self.screen, tall, 0, rest, left).draw("variables, by activations", list(self.variable_lines(found)))
        Pane(self.screen, tall, left, rest, middle).draw("frame and stack", [f" {it}" for it in self.walk.piton()[1:]])
        memory = self.walk.memory() if address is not None else None
        words = memory.registers if memory else []
        registers = [f" r{number:<2} {word:08x}  r{number + 8:<2} {words[number + 8]:08x}" for number, word in enumerate(words[:8])]
        title = f"registers  {memory.flags}" if memory else "far into the run: 3 shows the processor"
        Pane(self.screen, tall, left + middle, rest, width - left - middle).draw(title, registers)
        counts = (f"[{it} {self.walk.counted(it)}]" if it == self.walk.level else f"{it} {self.walk.counted(it)}" for it in LEVELS)
        condition = self.walk.condition()
        self.status(f" {'  '.join(counts)}  {f'condition {condition}  ' if condition else ''}{self.note}")
        Pane(self.screen, height - 2, 0, 2, width).put(1, KEYS[:width - 1], curses.A_DIM)
        self.screen.refresh()

    def variable_lines(self, found):
        for it in found:
            yield f"{it.procedure}, line {self.run.line(it.place) + 1}"
            yield from (f"   {name} = {value}" for name, value in it.variables)


def show_cursor(is_shown):
    """Shows or hides the cursor, on a terminal that can."""
    try:
        curses.curs_set(int(is_shown))
    except curses.error:
        pass


def said_of(fault):
    """What is said of a fault, on one line."""
    if isinstance(fault, OSError):
        return f"{fault.filename or 'the program'}: {fault.strerror}"
    return str(fault) or type(fault).__name__


def run_of(program, words):
    """The run of a command line, and its level."""
    if words[0] in LEVELS:
        level, source, values, *sizes = words
        return Run(program, source, values, (), *(int(it) if it.isdecimal() else it for it in sizes)), level
    return Run(program, words[0], None, words[1:]), "gypsy"


def refused_status(refused, source):
    """Says what was refused, and what docs/program/errors.md says of it."""
    print(refused.text)
    for line in lines_of(refused.status, refused.text, ["check", source]):
        print(line, file=sys.stderr)
    return refused.status


def main(program, *words):
    os.environ.setdefault("ESCDELAY", "25")
    source = words[1] if words[0] in LEVELS else words[0]
    try:
        run, level = run_of(program, words)
    except Refused as refused:
        return refused_status(refused, source)
    except Ended as fault:
        print(said_of(fault), file=sys.stderr)
        return fault.status
    try:
        curses.wrapper(lambda screen: Debugger(screen, run, level).serve())
    except (Refused, Interrupted, OSError, curses.error) as fault:
        tell(said_of(fault))
        return FAILED
    finally:
        run.close()
    return 0


if __name__ == "__main__":
    end(lambda: main(*sys.argv[1:]))
