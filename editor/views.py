"""What is seen where somebody stands in a run: places, activations, Piton's frame, registers and counts, for the adapter and for the terminal."""
import re

from frames import Activation, Memory, calls
from going import Walk, stepped
from seeking import DEPTH, Target

# So many instructions are made in no time. If a level is farther behind than that, it takes a while to find out where the run stands at it.
NEAR = {"gypsy": 1_000_000, "piton": 1_000_000, "fm9001": 10_000_000}


class View(Walk):
    """A walk, with what is seen on it."""

    def is_near(self, level):
        """Whether it takes no time to look at the run at a level."""
        return level == self.level or self.run.tracks[level].distance(self.moment.count) <= NEAR[level]

    def counted(self, level):
        """How many steps of a level lead here, as far as that takes no time."""
        if level == "fm9001":
            return str(self.moment.count)
        return str(self.steps(level)) if self.is_near(level) else "?"

    def memory(self):
        return Memory(self.run, self.moment.count)

    def address(self):
        """Where the program counter stands, or None if it takes long to find out."""
        return self.memory().registers[15] if self.is_near("fm9001") else None

    def condition(self):
        """The condition that is on its way out, or nothing if there is none or it isn't known."""
        if not self.is_near("gypsy"):
            return ""
        condition = self.run.trace_moment(self.steps("gypsy")).condition
        return "" if condition == "normal" and not self.moment.ended else condition

    def piton(self):
        """What `show` says at the level of Piton, or nothing if that takes long."""
        return self.run.moment("piton", self.steps("piton")).shown if self.is_near("piton") else ()

    def instruction(self):
        """The instruction of Piton that comes next or is being done, or None at the end."""
        shown = self.piton()
        if not shown:
            return self.run.code.instruction_at(self.address()) if self.is_near("fm9001") else None
        at = re.match(r"at (\S+) (\d+) frames", shown[0])
        return self.run.code.programs[at[1]][int(at[2])] if at else None

    def activations(self):
        """The activations at the last moment of the source, the newest first."""
        return self.run.keep(("activations", self.level, self.moment.count), self.ask_activations)

    def ask_activations(self):
        if not self.is_near("gypsy"):
            return self.statement_alone()
        steps = self.steps("gypsy")
        made, moment = self.run.trace_moment(steps), self.run.moment("gypsy", steps)
        if made.place is None:
            main = self.run.main_place()
            return [Activation(f"{self.run.text.heads[main]}, ended", main, self.run.variables_of(made))]
        first = Activation(self.run.text.procedure(made.place), made.place, self.run.variables_of(made))
        waiting = self.run.waiting(steps) if self.is_near("fm9001") else []
        places = calls(self.run, moment.count) if waiting else []
        return [first, *(Activation(name, place, variables) for (name, variables), place in zip(waiting, places, strict=True))]

    def statement_alone(self):
        """Far into a run that is looked at below the source: the statement whose code it stands in, and what `up` says of its variables."""
        place = self.run.code.place_at(self.address()) if self.is_near("fm9001") else None
        said = [tuple(it.split(" = ", 1)) for it in self.moment.said if " = " in it]
        return [] if place is None else [Activation(self.run.text.procedure(place), place, said)]

    # ---- Steps below the source ----

    def over_call(self, targets):
        """Behind the call that an instruction of Piton is; elsewhere one step."""
        here = self.instruction() if self.level == "piton" else None
        if here is None or not here.text.startswith(("(call ", "(pop-call")):
            return self.step()
        return self.leave_frames(self.frames(), targets)

    def out_of_program(self, targets):
        """Out of a program at a lower level."""
        return self.leave_frames(self.frames() - 1, targets)

    def frames(self):
        """How many frames Piton has."""
        found = re.search(r" frames (\d+)$", self.run.moment("piton", self.steps("piton")).shown[0])
        return int(found[1]) if found else 0

    def leave_frames(self, many, targets):
        """On to where at most so many frames are left, at the level that is looked at."""
        level, behind = self.level, Target("piton", f"{DEPTH}{many}")
        stop = self.go([behind, *targets] if many > 0 else targets)
        if stop.target is not behind:
            return stop
        self.look_at(level)
        return stepped(stop)._replace(moment=self.moment)
