"""A run at one level: its moments, as a session that is kept open tells them. What was told is kept, and what is kept no more is told anew."""
import re
from bisect import bisect_right, insort
from collections import namedtuple
from itertools import islice, takewhile

from seeking import LEAP, Seeking
from sessions import MOVED, Interrupted, Standing

# A moment of a run: how many steps of its level led to it and how many instructions they cost, whether the run is over, and what `show` and `up` say of it.
Moment = namedtuple("Moment", "level steps count ended shown said")

# The most words that one line asks for.
LINE = 4096
# So many moments are kept, with so many characters; and so many are asked for at a time at least and at most, with about so many characters.
KEPT, MOST, FEW, MANY, PORTION = 5000, 50_000_000, 16, 500, 200_000


class Track(Standing, Seeking):
    """A level of a run."""

    def __init__(self, run, level):
        super().__init__(run, level)
        # The moments that are kept, by how many steps led to them; these numbers in their order; and how many characters are kept.
        self.told, self.order, self.weight, self.end = {}, [], 0, None
        # Those that look ahead for places, by these.
        self.scouts = {}
        # What is asked of a moment: what it shows, and below the source what is said of that.
        self.shows = ("show",) if level == "gypsy" else ("show", "up")

    def close(self):
        """Ends all sessions."""
        for it in (self, *self.scouts.values()):
            it.leave()

    # ---- Moments ----

    def moment(self, steps):
        """The moment after so many steps, or at the end."""
        steps = min(steps, self.end.steps) if self.end else steps
        if steps not in self.told:
            self.before(steps)
            self.tell(steps - self.steps)
            steps = self.steps
        return self.told[steps]

    def tell(self, steps, times=1):
        """Makes so many steps, so many times, and keeps the moment after each."""
        answered = self.ask(*[f"step {steps}", *self.costs, *self.shows] * times)
        starts = [number for number, it in enumerate(answered) if MOVED.fullmatch(it)]
        for start, end in zip(starts, [*starts[1:], len(answered)]):
            lines = self.take(answered[start:end])
            cut = self.length_of_show(lines)
            shown, said = tuple(lines[:cut]), tuple(lines[cut:])
            self.keep(Moment(self.level, self.steps, self.count, self.is_end(shown), shown, said))

    def length_of_show(self, lines):
        """How many lines `show` has, behind which those of `up` stand."""
        if self.level != "piton":
            return 18 if self.level == "fm9001" else len(lines)
        return next(number for number, it in enumerate(lines) if re.match(r"stack( \(|$)", it)) + 1

    def is_end(self, shown):
        """Whether the run stands at its end."""
        if self.level == "fm9001":
            return int(shown[16].split()[1], 16) == self.run.image.final
        return shown[0] in ("ended", "halted")

    def keep(self, moment):
        """Keeps a moment. Of more than there is room for the first one of all stays, and those go that were told first."""
        if moment.ended:
            self.end = moment
        if moment.steps in self.told:
            return
        self.told[moment.steps] = moment
        insort(self.order, moment.steps)
        self.weight += sum(map(len, moment.shown))
        while len(self.order) > KEPT or self.weight > MOST and len(self.order) > 2:
            oldest = next(it for it in self.told if it > 0)
            self.weight -= sum(map(len, self.told.pop(oldest).shown))
            self.order.remove(oldest)

    def behind(self, steps):
        """The moments behind so many steps, as far as somebody goes through them."""
        many, moment = FEW, self.moment(steps)
        while not moment.ended:
            if moment.steps + 1 not in self.told:
                self.stand(moment.steps)
                self.tell(1, max(1, min(many, PORTION // (1 + sum(map(len, moment.shown))))))
                many = min(2 * many, MANY)
            moment = self.moment(moment.steps + 1)
            yield moment
            if self.run.stop.is_set():
                raise Interrupted

    def between(self, low, high):
        """The moments from so many steps on and of fewer than others."""
        if all(it in self.told for it in range(low, high)):
            return [self.told[it] for it in range(low, high)]
        return [self.moment(low), *takewhile(lambda it: it.steps < high, self.behind(low))]

    def words(self, steps, first, size):
        """So many words of the processor's memory from an address on; None for one outside the window."""
        self.stand(steps)
        said = self.ask(*(f"words {it} {min(LINE, first + size - it)}" for it in range(first, first + size, LINE)))
        return [None if word == "outside" else int(word, 16) for _, word in map(str.split, said)]

    # ---- Moments by their cost ----

    def distance(self, count):
        """How many instructions have to be made to know what is at a count of them."""
        low = self.known(count)
        if low and (low.count == count or self.is_last(low, count)):
            return 0
        return count - self.count if self.session and self.count <= count else count

    def known(self, count):
        """The last moment that is kept of those that cost no more than a count of instructions."""
        number = bisect_right(self.order, count, key=lambda it: self.told[it].count)
        return self.told[self.order[number - 1]] if number else None

    def is_last(self, moment, count):
        """Whether it is known that the next moment costs more than a count of instructions, or that there is none."""
        following = self.told.get(moment.steps + 1)
        return moment.ended or (following is not None and following.count > count)

    def steps_at(self, count):
        """The most steps that cost no more than a count of instructions."""
        if self.level == "fm9001":
            return count
        self.moment(0)
        high = None
        while True:
            if self.session and self.count <= count:
                self.moment(self.steps)
            low = self.known(count)
            if self.is_last(low, count):
                return low.steps
            many = self.leap(low, count, high)
            if many >= LEAP:
                made = self.moment(low.steps + many)
                high = made.steps if made.count > count else high
                continue
            for it in islice(self.behind(low.steps), LEAP):
                if it.count > count:
                    return it.steps - 1
