"""Going on and back in a run: steps, breakpoints, calls and returns, at each of the three levels."""
import time
from collections import defaultdict, namedtuple

from seeking import DEPTH, Target, hit
from sessions import Interrupted
from tracks import Track
from watching import Watching, reached, traced

# Where a run came to: a moment, why it stopped there, and the target that it is at, if it is at one.
Stop = namedtuple("Stop", "moment reason target", defaults=(None,))

# So many steps are made by one question at first, and twice as many by the next one if it takes less time than this, in seconds; then somebody who asks to
# stop is heard soon, and the session stays. Where targets of several levels are looked for, each goes on by so many instructions at a time.
PACE, QUICK, ROUND = 1000, 0.1, 500_000
# So many steps are looked through at first if a run goes back, by what was told and for a target, and how many times as many next.
FEW, WINDOW, MORE = 16, 256, 8


class Walk(Watching):
    """Where somebody stands in a run."""

    def __init__(self, run):
        self.run, self.moment = run, run.start

    @property
    def level(self):
        return self.moment.level

    def at(self, level, steps, reason="step", target=None):
        """Stands there."""
        before = self.moment
        self.moment = self.run.moment(level, max(steps, 0))
        if self.moment.ended and (before.level, before.steps) != (level, self.moment.steps):
            reason = "ended"
        return Stop(self.moment, reason, target)

    def look_at(self, level):
        """The same moment at another level, or the last one of that level before it."""
        return self.at(level, self.steps(level))

    def steps(self, level):
        """How many steps of a level lead here."""
        return self.moment.steps if level == self.level else self.run.steps_at(level, self.moment.count)

    # ---- Steps ----

    def step(self, many=1):
        """So many steps of the level, back if the number is less than 0."""
        return self.at(self.level, self.moment.steps + many)

    def step_line(self, line_of):
        """To where another line of the source, or another activation, comes next."""
        here = self.line_at(self.run.trace_moment(self.moment.steps), line_of)
        for steps, it in self.ahead(self.moment.steps):
            if self.line_at(it, line_of) != here:
                return self.at("gypsy", steps)
        return self.at("gypsy", self.moment.steps)

    def back_line(self, line_of):
        """Back to where what stands before began to be done."""
        high, window, before = self.moment.steps, FEW, None
        while high > 0:
            low = max(0, high - window)
            for it in reversed(self.run.tracks["gypsy"].between(low, high)):
                line = self.line_at(traced(it), line_of)
                if before not in (None, line):
                    return self.at("gypsy", it.steps + 1)
                before = line
            high, window = low, window * MORE
        return self.at("gypsy", 0)

    @staticmethod
    def line_at(moment, line_of):
        """The line of a moment of the source, with its activation; None at the end."""
        return None if moment.place is None else (moment.depth, line_of(moment.place))

    def over(self, stops=(), out=False, line_of=None):
        """To where the activation goes on behind the calls of what comes next; with `out`, to where the one goes on that called it. `stops` are targets
        on the way. With `line_of` to another line."""
        before = self.run.trace_moment(self.moment.steps)
        depth, here = before.depth - out, line_of and self.line_at(before, line_of)
        if depth == 0:
            return self.go(stops)
        behind = Target("gypsy", f"{DEPTH}{depth}")
        while True:
            stop = self.go([behind, *stops])
            if stop.target is not behind:
                return stop
            made = self.run.trace_moment(stop.moment.steps)
            if not here or self.line_at(made, line_of) != here:
                return stepped(stop)
            target = reached(stops, made)
            if target:
                return stop._replace(target=target)

    # ---- Going on until something ----

    def go(self, targets):
        """On to the first target after here, or to the end."""
        of_level = defaultdict(list, {self.level: []})
        for it in targets:
            of_level[it.level].append(it)
        try:
            found = self.go_alone(targets) if len(of_level) == 1 else self.go_beside(of_level)
        except Interrupted:
            self.run.stop.clear()
            self.at(self.level, max(self.moment.steps, self.run.tracks[self.level].steps))
            raise
        self.moment, target = found
        return Stop(self.moment, "breakpoint", target) if target else Stop(self.moment, "ended")

    def go_alone(self, targets):
        """The first moment at one of some targets of the level, with that, or the last one."""
        moment, target, many = self.moment, None, PACE
        while not target and not moment.ended:
            began = time.monotonic()
            moment, target = self.run.tracks[self.level].seek(moment.steps, targets, many)
            if self.run.stop.is_set() and not target:
                raise Interrupted
            many = 2 * many if time.monotonic() - began < QUICK else max(many // 2, 1)
        return moment, target

    def go_beside(self, of_level):
        """The same of targets of several levels, each of which is searched up to the same count of instructions, over and over."""
        come, count = {level: self.run.moment(level, self.steps(level)) for level in of_level}, self.moment.count
        while True:
            count += ROUND
            found = []
            for level, targets in of_level.items():
                moment, target = self.run.tracks[level].search(come[level].steps, targets, count)
                come[level] = moment
                if target:
                    found.append((moment.count, moment, target))
                    count = min(count, moment.count)
            if found:
                return min(found, key=lambda it: it[0])[1:]
            if come[self.level].ended:
                return come[self.level], None
            if self.run.stop.is_set():
                raise Interrupted

    # ---- Going back ----

    def back(self, targets):
        """Back to the last target before here, or to the beginning."""
        best, of_level = None, defaultdict(list)
        for it in targets:
            of_level[it.level].append(it)
        for level, some in of_level.items():
            steps = self.steps(level)
            if level != self.level and self.run.count_of(level, steps) < self.moment.count:
                steps += 1
            found = self.last_hit(level, some, steps)
            if found and (best is None or found[0].count > best[0].count):
                best = found
        if best is None:
            return self.at(self.level, 0, "start")
        self.moment = best[0]
        return Stop(best[0], "breakpoint", best[1])

    def last_hit(self, level, targets, steps):
        """The last moment, of fewer steps than these, at one of some targets of a level, with that; None if there is none."""
        high, window = steps, WINDOW
        while high > 0:
            low = max(0, high - window)
            found = self.last_within(level, targets, low, high)
            if found:
                return found
            high, window = low, window * MORE
        return None

    def last_within(self, level, targets, low, high):
        """The same of the moments from so many steps on and of fewer than others. They are those of a session aside."""
        aside, found = Track(self.run, level), None
        try:
            moment = aside.moment(low)
            target = hit(targets, level, moment.shown)
            while True:
                found = (moment, target) if target else found
                if moment.steps + 1 >= high or moment.ended:
                    return found
                moment, target = aside.seek(moment.steps, targets, high - 1 - moment.steps)
        finally:
            aside.close()


def stepped(stop):
    """A stop that is the end of a step."""
    return stop._replace(reason="step", target=None)
