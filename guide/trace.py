"""Prints a run of a source step by step, as the proved program tells it: line and column, the statement, and what it changed.

    trace.py PROGRAM SOURCE VALUES CTRL TEMP [STEPS]

A statement is set in by the activations that wait under it. Behind it stand the variables of the active procedure that have another value than before
and, where another procedure became active, its name and all of its variables; and the condition, where it isn't normal. Of an infix program a step is one of
its statements, and behind a while and an if stands what its condition is. At most STEPS steps are printed, 200 if left out, 20,000 at most.
"""
import argparse
import sys
from pathlib import Path

from ends import end
from infix_sources import InfixSource, own
from places import WIDTH, Source
from printed import STEPPED, moment_of
from program import Program, Refused, carried_out, lower, number

STEPS, MOST_STEPS = 200, 20000
# No statement of the infix language becomes more steps: 40 operators with their operands, and what leads to its blocks and back.
MOST_LOWERED = 100

def moments_of(program, steps):
    """The moments of a run, up to its end or to so many steps, each as soon as it is printed."""
    script = "show\n" + "step 1\nshow\n" * steps
    with program.started("debug", "gypsy", "s", "v", *program.sizes, "/dev/stdin", script=script) as session:
        block = []
        for line in session.stdout:
            text = line.decode("utf-8", "replace")
            if not STEPPED.match(text):
                block.append(text)
                continue
            yield moment_of("".join(block))
            block = []
        if session.wait():
            raise Refused(session.returncode, "".join(block).strip())
        yield moment_of("".join(block))


def changes(source, before, after):
    """What a step changed, in words."""
    known = {} if after.depth != before.depth else before.variables
    if after.place is not None and after.depth != before.depth:
        yield f"in {source.procedure(after.place)}:"
    if after.place is not None:
        yield from (f"{name} = {value}" for name, value in after.variables.items() if known.get(name) != value)
    if after.condition != "normal" and after.place is not None:
        yield f"condition {after.condition}"


def line_of(count, where, statement, behind):
    return f"{count:5}  {where:>7}  {statement:{WIDTH}}  {'  '.join(behind)}".rstrip()


def source_steps(source, moments, most):
    """A line for each step of a source, and then how the run stands."""
    before, count = next(moments), 0
    for after in moments:
        count += 1
        statement = "  " * (before.depth - 1) + source.statement(before.place)
        yield line_of(count, source.where(before.place), statement, changes(source, before, after))
        before = after
        if after.place is None or count == most:
            break
    yield ended_line(before, count, before.variables)


def infix_changes(one, before, after):
    """What a statement of an infix program changed, in words; of a while and an if, what its condition is."""
    if one.kind != ":=" and after.condition == "normal":
        yield after.variables["b$00"]
    elif after.place is not None:
        yield from (f"{name} = {value}" for name, value in own(after.variables).items() if before.variables[name] != value)
    if after.condition != "normal":
        yield f"condition {after.condition}"


def infix_steps(source, moments, most):
    """A line for each statement of an infix program, and then how the run stands. A statement's steps follow one another, from the first that computes
    something to the last; in between are steps that only lead into blocks and out of them."""
    begun = one = last = None
    count = 0
    for moment in moments:
        tie = source.tie(moment.place) if moment.place is not None else None
        is_new = tie is None or tie.statement is not one or (tie.is_computing and moment.place <= last)
        if one is not None and is_new:
            count += 1
            yield line_of(count, source.where(one), "  " * one.depth + source.statement(one), infix_changes(one, begun, moment))
            one = None
        if moment.place is None or count == most:
            break
        if tie and tie.is_computing and one is None:
            begun, one = moment, tie.statement
        last = moment.place if tie and tie.is_computing else last
    yield ended_line(moment, count, own(moment.variables))


def ended_line(moment, count, variables):
    state = "  ".join([f"condition {moment.condition}", *(f"{name} = {value}" for name, value in variables.items())])
    return f"{'ended' if moment.place is None else 'not ended'} after {count} steps: {state}"


def print_trace(words, _):
    """Asks, and prints a line for each step."""
    with Program(words.program, words.source, words.values, words.control, words.temporary) as program:
        infix, most = lower(program), min(words.steps, MOST_STEPS)
        program.ask("check", "s")
        lowered = (program.folder / "s").read_bytes()
        if infix is None:
            lines = source_steps(Source(lowered), moments_of(program, most), most)
        else:
            lines = infix_steps(InfixSource(infix, lowered), moments_of(program, min(most * MOST_LOWERED, MOST_STEPS)), most)
        for line in lines:
            print(line)


def words_of_line():
    parser = argparse.ArgumentParser(prog="./stack trace", description="Prints a run of a source step by step.")
    parser.add_argument("program", help=argparse.SUPPRESS)
    for name in ("source", "values"):
        parser.add_argument(name, metavar=name.upper(), type=Path)
    for name, metavar in (("control", "CTRL"), ("temporary", "TEMP")):
        parser.add_argument(name, metavar=metavar, type=number)
    parser.add_argument("steps", metavar="STEPS", type=number, nargs="?", default=STEPS)
    return parser


if __name__ == "__main__":
    end(lambda: carried_out(words_of_line(), print_trace, sys.argv[1:]))
