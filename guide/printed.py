"""What sessions print of moments, read: docs/program/debug.md."""
import re
from collections import namedtuple

STEPPED = re.compile(r"^stepped \d+(?: ended)?\n", re.M)

# A moment of a source's run. At the end `place` is None, and the variables are main's formals.
Moment = namedtuple("Moment", "place depth condition variables")


def shows_of(said):
    """What is shown in front of the first step, and behind each."""
    return STEPPED.split(said)


def moment_of(block):
    """The moment that `show` prints."""
    first, condition, *variables = block.splitlines()
    at = re.fullmatch(r"at (\d+) depth (\d+)", first)
    place, depth = (int(at[1]), int(at[2])) if at else (None, 0)
    return Moment(place, depth, condition.removeprefix("condition "), dict(it.split(" = ", 1) for it in variables))
