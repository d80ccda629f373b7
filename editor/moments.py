"""A run of a source at three levels, as the program's own sessions show it: docs/program/debug.md."""
import threading
from collections import OrderedDict
from pathlib import Path

import beside  # noqa: F401
import trying
from frames import waiting
from generated import Code
from infix_sources import InfixSource, own
from places import Source
from positions import Text
from printed import moment_of
from program import Program, Refused, is_infix
from sessions import Session, Standing
from tracks import Track
from trees import tree_of

LEVELS = ("gypsy", "piton", "fm9001")
KEPT = 5000
# The size of a stack if `need` tells none.
SIZE = 1000


class Run:
    """A source with its values and sizes, over the program. What is wrong with one of them is raised as what the program refuses."""

    def __init__(self, program, source, values=None, given=(), control=None, temporary=None):
        self.source, self.stop, self.kept = Path(source), threading.Event(), OrderedDict()
        content = self.source.read_bytes()
        self.infix = content if is_infix(content) else None
        self.program = Program(program, source, None, control, temporary).__enter__()
        self.folder, self.path = self.program.folder, self.program.path
        if self.infix is not None:
            self.program.ask("mini", "s", "lowered")
            (self.folder / "lowered").rename(self.folder / "s")
        self.program.ask("check", "s")
        text = Path(values).read_bytes() if values else trying.values_of(content.decode(errors="replace"), given).encode()
        (self.folder / "v").write_bytes(text)
        if control is None or temporary is None:
            self.program.sizes = self.sizes()
        self.data = (self.folder / "s").read_bytes()
        self.program.ask("pit", "s", *self.program.sizes, "p")
        self.program.ask("build", "s", *self.program.sizes, "i")
        self.pit, self.shown = (self.folder / "p").read_bytes(), self.program.ask("show", "i")
        self.code, self.text = Code(self.pit, self.shown), Source(self.data)
        self.image, self.places = self.code.image, self.code.image.places()
        # Of an infix program its own text is shown, with its statements in place of those that they were lowered to.
        self.tied = InfixSource(self.infix.decode("latin-1"), self.data) if self.infix else None
        self.shown_text = Text(self.infix or self.data)
        self.tracks = {level: Track(self, level) for level in LEVELS}
        # It stands where somebody looks, and the session of the level may be ahead of that.
        self.looking = Standing(self, "gypsy")
        # The values are judged by the first session.
        self.start = self.moment("gypsy", 0)

    def close(self):
        self.stop.set()
        for it in self.tracks.values():
            it.close()
        self.looking.leave()
        self.program.__exit__()

    def sizes(self):
        """The sizes that are enough for any values, or some."""
        try:
            return tuple(int(it) for it in self.program.ask("need", "s", "c").split()[1::2])
        except Refused as refused:
            if refused.status == 17:
                return SIZE, SIZE
            raise

    # ---- Questions ----

    def keep(self, key, make):
        """What was asked once isn't asked again."""
        if key not in self.kept:
            self.kept[key] = make()
            if len(self.kept) > KEPT:
                self.kept.popitem(last=False)
        self.kept.move_to_end(key)
        return self.kept[key]

    def moment(self, level, steps):
        """The moment after so many steps, or at the end."""
        return self.tracks[level].moment(steps)

    def trace_moment(self, steps):
        """What `show` says of the source after so many steps."""
        return moment_of("\n".join(self.moment("gypsy", steps).shown))

    def words(self, count, first, size):
        """So many words of memory from an address on, after a count of instructions; None for one outside the window."""
        return self.keep(("words", count, first, size), lambda: self.tracks["fm9001"].words(count, first, size))

    def waiting(self, steps):
        """The procedures that wait for a call after so many steps of the source, each with its variables; the newest first."""
        return self.keep(("waiting", steps), lambda: self.ask_waiting(steps))

    def ask_waiting(self, steps):
        self.looking.stand(steps)
        return waiting(self.looking.ask("show all"))

    def said(self, level, steps, text):
        """What is answered to lines of a script after so many steps, which lead nowhere for anybody else."""
        with Session(self, level) as aside:
            aside.ask(f"step {steps}")
            return "\n".join(aside.ask(*text.split("\n")))

    # ---- Places ----

    def spot(self, place):
        """The place in the text that is shown: of an infix program it is where its statement begins."""
        if self.tied is None:
            return place
        one = self.tied.statement_at(place)
        return one.place if one else 0

    def line(self, place):
        return self.shown_text.line_of(self.spot(place))

    def stops_of(self, line):
        """The places at which a run may stand from a line on: those of the first line that has any, in their order."""
        found = [it for it in self.places if it not in self.text.heads and (not self.tied or it in self.tied.ties) and self.line(it) >= line]
        first = min(map(self.line, found), default=None)
        return sorted((it for it in found if self.line(it) == first), key=lambda it: (self.spot(it), it))

    def main_place(self):
        """The place of the procedure that is run, which is also that of its end."""
        main = tree_of(self.data).item(1).text
        return next(place for place, name in self.text.heads.items() if name == main)

    def variables_of(self, moment):
        """The variables of a moment that are the program's: without the temporaries of a lowered source."""
        return list((own(moment.variables) if self.tied else moment.variables).items())

    # ---- From level to level ----

    def count_of(self, level, steps):
        """How many instructions so many steps cost."""
        return steps if level == "fm9001" else self.moment(level, steps).count

    def steps_at(self, level, count):
        """The most steps of a level that cost no more than a count of instructions."""
        return self.tracks[level].steps_at(count)
