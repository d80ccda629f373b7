"""Going on and back to where a variable has another value than before."""
from printed import moment_of
from sessions import Interrupted


def traced(moment):
    """A moment of the source, read."""
    return moment_of("\n".join(moment.shown))


def shown_of(moment):
    """A moment of the source as `show` prints it, but for its first line."""
    return ["", f"condition {moment.condition}", *(f"{name} = {value}" for name, value in moment.variables.items())]


def reached(targets, moment):
    """The target of the source that a run stands at, at a moment, or None."""
    here = (it for it in targets if it.level == "gypsy" and it.place == moment.place)
    return next((it for it in here if not it.holds or it.holds(shown_of(moment))), None)


class Watching:
    """A part of `Walk`, for variables that are watched. Each is named by its procedure and itself."""

    def ahead(self, steps):
        """The moments of the source behind so many steps, each with its number of steps, as far as somebody goes through them."""
        return ((it.steps, traced(it)) for it in self.run.tracks["gypsy"].behind(steps))

    def changes(self, watches, first, stops=()):
        """After which steps, from a number on, a variable has another value than when its activation was active last, and after which a run stands at a
        stop; each with the reason, and the stop."""
        seen, begin = {}, self.run.trace_moment(first)
        for depth, (procedure, variables) in zip(range(begin.depth - 1, 0, -1), self.run.waiting(first)):
            seen |= {(depth, name): value for name, value in variables if (procedure, name) in watches}
        self.note(begin, watches, seen)
        steps = first
        try:
            for steps, it in self.ahead(first):
                if it.place is None:
                    yield steps, "ended", None
                    return
                if self.note(it, watches, seen):
                    yield steps, "data breakpoint", None
                target = reached(stops, it)
                if target:
                    yield steps, "breakpoint", target
        except Interrupted:
            self.run.stop.clear()
            self.at("gypsy", steps)
            raise

    def note(self, moment, watches, seen):
        """Notes the values of the active procedure, and answers whether one is another than before."""
        if moment.place is None:
            return False
        changed, procedure = False, self.run.text.procedure(moment.place)
        for key in [it for it in seen if it[0] > moment.depth]:
            del seen[key]
        for name in (name for of, name in watches if of == procedure and name in moment.variables):
            changed |= seen.setdefault((moment.depth, name), moment.variables[name]) != moment.variables[name]
            seen[moment.depth, name] = moment.variables[name]
        return changed

    def go_watching(self, watches, stops):
        """On to where a variable has another value, or to a stop."""
        steps, reason, target = next(self.changes(watches, self.steps("gypsy"), stops))
        return self.at("gypsy", steps)._replace(reason=reason, target=target)

    def back_watching(self, watches, stops):
        """Back to the last such place before here, or to the beginning."""
        here, found = self.steps("gypsy"), (0, "start", None)
        for it in self.changes(watches, 0, stops):
            if it[0] >= here:
                break
            found = it
        return self.at("gypsy", found[0])._replace(reason=found[1], target=found[2])
