"""Going on in a run at one level until it stands at a target."""
import re
from collections import namedtuple
from itertools import islice

from sessions import Interrupted, Standing

# A place at which a run stops: its level, what `until` calls it, and what has to hold there of what `show` says, if anything.
Target = namedtuple("Target", "level place holds", defaults=(None,))
# What `until` calls a place with at most so many activations or frames.
DEPTH = "depth<="
# So many bytes of a line of 256 are left for places, between `until` and a number of steps.
ROOM = 256 - len("until ") - len(f" {2 ** 40}")
# Where a count of instructions is looked for, as many steps are made at once as would cost a quarter of those that are left, if these are so many.
LEAP, SHARE = 64, 4


def stands_at(level, place, shown):
    """Whether a moment is at what `until` calls a place, by what `show` says of it."""
    if level == "fm9001":
        return int(shown[16].split()[1], 16) == place
    found = re.fullmatch(r"at (.+) (?:depth|frames) (\d+)", shown[0])
    if not found:
        return False
    place = str(place)
    return int(found[2]) <= int(place.removeprefix(DEPTH)) if place.startswith(DEPTH) else found[1] == place


def hit(targets, level, shown):
    """The first of some targets at which a moment is, or None."""
    return next((it for it in targets if stands_at(level, it.place, shown) and (not it.holds or it.holds(shown))), None)


def joined(places):
    """Places as `until` takes several of them, as many together as a line has room for. A program that is called `or` has its own line."""
    lines = []
    for it in map(str, dict.fromkeys(places)):
        is_apart = not lines or any(place.startswith("or ") for place in (it, lines[-1]))
        if is_apart or len(lines[-1]) + len(f" or {it}") > ROOM:
            lines.append(it)
        else:
            lines[-1] += f" or {it}"
    return lines


class Scout(Standing):
    """Looks ahead for the places of one line, by a session of its own."""

    def __init__(self, run, level, places):
        super().__init__(run, level)
        # From how many steps on it has looked, and whether it stands at a place; None before it has looked there.
        self.places, self.since, self.is_there = places, 0, None

    def first_at(self, steps, end):
        """After how many steps, from some on and up to others, the run is first at a place; None if it isn't."""
        if self.session is None or not self.since <= steps <= self.steps:
            self.stand(steps)
            self.since, self.is_there = steps, None
        if self.is_there is None or not self.is_there and self.steps < end:
            self.is_there = self.advance(f"until {self.places} {max(end - self.steps, 0)}")
        return self.steps if self.is_there and self.steps <= end else None


class Seeking:
    """A part of a track."""

    def seek(self, steps, targets, most):
        """The first moment behind so many steps that is at a target, with that; or, if none of so many moments is at one, the last of these and None."""
        end = steps + most
        # What was told is looked through first.
        while steps < end and steps + 1 in self.told:
            steps += 1
            moment = self.told[steps]
            found = hit(targets, self.level, moment.shown)
            if found or moment.ended or steps == end:
                return moment, found
        self.stand(steps + 1)
        places = joined(it.place for it in targets)
        while True:
            has_arrived = self.arrive(places, end)
            moment = self.moment(self.steps)
            found = hit(targets, self.level, moment.shown) if has_arrived else None
            if found or not has_arrived or self.steps >= end or moment.ended:
                return moment, found
            if self.run.stop.is_set():
                raise Interrupted
            self.advance("step 1")

    def arrive(self, places, end):
        """Goes on to the first of some places, or to so many steps. Whether the run has arrived is returned. If the places need more lines than one, it is
        found by other sessions, which are kept open too, where those of the further lines are reached."""
        first, *others = places or [None]
        for it in set(self.scouts) - set(others):
            self.scouts.pop(it).leave()
        for it in others:
            self.scouts.setdefault(it, Scout(self.run, self.level, it))
        found = [self.scouts[it].first_at(self.steps, end) for it in others]
        bound = min((it for it in found if it is not None), default=None)
        left = (end if bound is None else bound) - self.steps
        return self.advance(f"until {first} {left}" if first else f"step {left}") or self.steps == bound

    def search(self, steps, targets, count):
        """The same of the moments that cost no more than a count of instructions."""
        if self.level == "fm9001":
            return self.seek(steps, targets, count - steps) if count > steps else (self.moment(steps), None)
        moment, high = self.moment(steps), None
        while not self.is_last(moment, count):
            many = self.leap(moment, count, high)
            if many >= LEAP:
                made, found = self.seek(moment.steps, targets, many)
                if made.count > count:
                    high = made.steps
                elif found:
                    return made, found
                else:
                    moment = made
                continue
            for it in islice(self.behind(moment.steps), LEAP):
                if it.count > count:
                    return moment, None
                moment, found = it, hit(targets, self.level, it.shown)
                if found:
                    return moment, found
        return moment, None

    @staticmethod
    def leap(low, count, high):
        """How many steps behind a moment will hardly cost as much as is left up to a count of instructions. After `high` steps it was passed."""
        many = (count - low.count) * low.steps // (SHARE * max(low.count, 1))
        return many if high is None else min(many, (high - low.steps) // 2)
