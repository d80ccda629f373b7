#!/usr/bin/env python3
"""Random sources of Micro-Gypsy: what the program says of them, beside what an evaluator of its own says.

Each seed makes a source that breaks no static rule, values for main's formals, and sizes of the two stacks. The evaluator goes by
the pages docs/languages/gypsy.md and docs/proved/meaning.md, statement by statement, and makes no code. `check`, `mean`, `go`, `run`, `pit`, `prun` and `debug` have
to print what follows from it; a seed where one of them doesn't is told in a line. Sources that run too long are thrown away.
"""
import subprocess
import sys
import tempfile
from collections.abc import Callable, Iterable, Iterator
from dataclasses import dataclass, field
from functools import cached_property
from pathlib import Path
from random import Random

sys.path.append(str(Path(__file__).resolve().parents[2] / "tools"))

from arguments import seeds_of  # noqa: E402

LEAST, GREATEST = -2**31, 2**31 - 1
MOST_WORDS = 65536      # of a stack
MOST_STEPS = 2000       # of the step machine: a source that takes more is thrown away
MOST_DEPTH = 60         # of calls, likewise
SECONDS = 60            # that a command may take
NORMAL, LEAVE, ROUTINEERROR, SPACEERROR = "normal", "leave", "routineerror", "spaceerror"
COPY, ASSIGN, INDEX = "mg-simple-variable-assignment", "mg-simple-constant-assignment", "mg-index-array"
ADD, SUBTRACT, LESS_OR_EQUAL, EQUAL = "mg-integer-add", "mg-integer-subtract", "mg-integer-le", "mg-simple-constant-eq"
sys.setrecursionlimit(10000)        # a call takes a few levels for each list round it


# The language.

@dataclass(frozen=True)
class Type:
    kind: str
    length: int = 0     # 0 for a simple type

    def __str__(self) -> str:
        return f"(array {self.kind} {self.length})" if self.length else self.kind


INTEGER, BOOLEAN = Type("integer"), Type("boolean")
Value = int | tuple[int, ...]       # a Boolean is 1 or 0, a character its code


def listed(items: Iterable) -> str:
    return f"({' '.join(map(str, items))})"


@dataclass(frozen=True)
class Literal:
    kind: str
    value: Value

    def __str__(self) -> str:
        if isinstance(self.value, tuple):
            return listed(Literal(self.kind, item) for item in self.value)
        if self.kind == "boolean":
            return "true" if self.value else "false"
        return f"#{self.value}" if self.kind == "character" else str(self.value)


@dataclass
class Variable:
    name: str
    type: Type
    value: Value        # what a local begins with; zeros for a formal


@dataclass
class Statement:
    """A statement by its first word and its other items: names, literals, lists of names, and statements."""
    word: str
    items: tuple
    place: int = 0      # in bytes of the source

    def write(self, start: int) -> str:
        """The text at a place of the source; the places of the statement and of its parts are noted."""
        self.place = start
        text = f"({self.word}"
        for item in self.items:
            text += " "
            if isinstance(item, Statement):
                text += item.write(start + len(text))
            else:
                text += listed(item) if isinstance(item, list) else str(item)
        return text + ")"

    def rows(self) -> list["Row"]:
        """The rows of the predefined calls in it."""
        parts = [row for item in self.items if isinstance(item, Statement) for row in item.rows()]
        return parts + ([ROWS[self.word]] if self.word in ROWS else [])

    def calls(self) -> bool:
        """Whether a procedure of the source is called in it."""
        return self.word == "call" or any(item.calls() for item in self.items if isinstance(item, Statement))


def make(word: str, *items) -> Statement:
    return Statement(word, items)


def assign(variable: str, number: int) -> Statement:
    return make(ASSIGN, variable, Literal("integer", number))


def words_of(variables: list[Variable]) -> int:
    return sum(v.type.length or 1 for v in variables)


@dataclass
class Procedure:
    name: str
    formals: list[Variable]
    conditions: list[str]
    local_conditions: list[str]
    rank: int           # calls go to procedures of a greater rank, or of the same rank by fuel
    fuel: str = ""      # a formal that grows smaller with each recursive call
    locals: list[Variable] = field(default_factory=list)
    body: Statement = field(default_factory=lambda: make("no-op"))
    place: int = 0

    @property
    def variables(self) -> list[Variable]:
        return self.formals + self.locals

    @cached_property
    def most(self) -> tuple[int, int]:
        """The most words of the control stack that its predefined calls take, and of the temporary stack that these and the guards
        of its other calls do."""
        rows = self.body.rows()
        return max([0] + [row.frame for row in rows]), max([2 if self.body.calls() else 1] + [row.temporary for row in rows])

    def write(self, start: int) -> str:
        self.place = start
        formals = listed(f"({v.name} {v.type})" for v in self.formals)
        local_ones = listed(f"({v.name} {v.type} {Literal(v.type.kind, v.value)})" for v in self.locals)
        head = f"(proc {self.name} {formals} {listed(self.conditions)} {local_ones} {listed(self.local_conditions)} "
        return head + self.body.write(start + len(head)) + ")"


class Source:
    def __init__(self, main: Procedure, procedures: list[Procedure]):
        self.main, self.procedures = main, {procedure.name: procedure for procedure in procedures}
        self.text = f"(program {main.name}"
        for procedure in procedures:
            self.text += "\n"
            self.text += procedure.write(len(self.text))
        self.text += ")\n"


def fitting(number: int) -> int | None:
    return number if LEAST <= number <= GREATEST else None


@dataclass(frozen=True)
class Row:
    """A predefined procedure. Of its arguments `s` is a simple variable and `v` a literal of the kind that the call is about, `a`
    an array of that kind, `b` and `i` are Boolean and integer variables. The effect is what becomes of the first argument, or None
    where the procedure fails. The costs are instructions and steps of Piton: normally, of a fault, and of an index beyond."""
    arguments: str
    effect: Callable[..., Value | None]
    costs: list[tuple[int, int]]
    temporary: int      # words of the temporary stack
    frame: int          # and of the control stack


ROWS = {
    COPY: Row("ss", lambda d, x: x, [(28, 8)], 2, 4),
    ASSIGN: Row("sv", lambda d, v: v, [(23, 7)], 2, 4),
    "mg-simple-variable-eq": Row("bss", lambda b, x, y: int(x == y), [(42, 12)], 3, 5),
    EQUAL: Row("bsv", lambda b, x, v: int(x == v), [(37, 11)], 3, 5),
    LESS_OR_EQUAL: Row("bii", lambda b, x, y: int(x <= y), [(44, 13)], 3, 5),
    "mg-integer-unary-minus": Row("ii", lambda d, x: fitting(-x), [(47, 17), (37, 14)], 2, 4),
    ADD: Row("iii", lambda d, x, y: fitting(x + y), [(60, 19), (54, 18)], 3, 6),
    SUBTRACT: Row("iii", lambda d, x, y: fitting(x - y), [(60, 19), (54, 18)], 3, 6),
    "mg-boolean-or": Row("bbb", lambda b, x, y: x | y, [(39, 12)], 3, 5),
    "mg-boolean-and": Row("bbb", lambda b, x, y: x & y, [(39, 12)], 3, 5),
    "mg-boolean-not": Row("bb", lambda b, x: 1 - x, [(29, 9)], 2, 4),
    INDEX: Row("sai", lambda d, a, i: a[i] if 0 <= i < len(a) else None, [(69, 24), (42, 15), (55, 19)], 4, 7),
    "mg-array-element-assignment": Row("ais", lambda a, i, x: a[:i] + (x,) + a[i + 1:] if 0 <= i < len(a) else None,
                                       [(69, 24), (42, 15), (55, 19)], 4, 7),
    "mg-integer-multiply": Row("iii", lambda d, x, y: fitting(x * y), [(2599, 927), (2593, 926)], 3, 10),
}


# What a source means.

class Stopped(Exception):
    """The run doesn't go on: how it ends."""


@dataclass
class Activation:
    procedure: Procedure
    frame: dict[str, Value]
    control: int        # words in use of the control stack, with this activation's
    temporary: int


class Run:
    """A run of a source on values of main's formals, with so many words of both stacks. `end` says how it ends: `done`, `gave up`, or
    `size` where main itself needs more words."""

    def __init__(self, source: Source, values: list[Value], control: int, temporary: int):
        main = source.main
        self.source, self.control, self.temporary = source, control, temporary
        self.start = {v.name: v.value for v in main.variables} | {v.name: value for v, value in zip(main.formals, values)}
        self.stack = [Activation(main, dict(self.start), 2 + len(main.variables), words_of(main.variables))]
        self.need_control, self.need_temporary = self.stack[0].control + main.most[0], self.stack[0].temporary + main.most[1]
        self.steps = self.instructions = self.piton_steps = 0
        self.places: list[int] = []     # of the items of all steps
        self.deepest = 1                # activations
        self.condition, self.end = NORMAL, "size"
        if control < self.need_control or temporary < self.need_temporary:
            return
        try:
            self.condition = self.leave(main, self.run(main.body), [(5, 2), (4, 1), (7, 3)])
            self.end = "done"
        except Stopped as stopped:
            self.end = str(stopped)

    @property
    def frame(self) -> dict[str, Value]:
        return self.stack[-1].frame

    def pay(self, cost: tuple[int, int]):
        self.instructions += cost[0]
        self.piton_steps += cost[1]

    def step(self, place: int, cost: tuple[int, int]):
        """A step of the step machine, of the item at a place."""
        if self.steps == MOST_STEPS or len(self.stack) > MOST_DEPTH:
            raise Stopped("gave up")
        self.steps += 1
        self.places.append(place)
        self.deepest = max(self.deepest, len(self.stack))
        self.pay(cost)

    def step_if_normal(self, condition: str, place: int, cost: tuple[int, int]) -> str:
        if condition == NORMAL:
            self.step(place, cost)
        return condition

    def run(self, statement: Statement) -> str:
        """The condition that a statement gives; it changes the variables of the active procedure."""
        place = statement.place
        match (statement.word, *statement.items):
            case ["no-op"]:
                return self.step_if_normal(NORMAL, place, (1, 1))
            case ["signal", condition]:
                self.step(place, (4, 3))
                return condition
            case ["seq", *parts]:
                for part in parts:
                    if (condition := self.run(part)) != NORMAL:
                        return condition
                return NORMAL
            case ["if", test, yes, no]:
                part, cost, join = (yes, (8, 3), (2, 2)) if self.frame[test] else (no, (9, 4), (1, 1))
                self.step(place, cost)
                return self.step_if_normal(self.run(part), place, join)
            case ["loop", body]:
                self.step(place, (1, 1))
                while (condition := self.run(body)) == NORMAL:
                    self.step(place, (1, 1))        # back
                    self.step(place, (1, 1))
                if condition != LEAVE:
                    return condition
                self.pay((3, 2))
                return NORMAL
            case ["begin", body, caught, arm]:
                condition = self.run(body)
                if condition not in caught:
                    return self.step_if_normal(condition, place, (2, 2))
                self.pay((3, 2))
                return self.step_if_normal(self.run(arm), place, (1, 1))
            case ["call", callee, actuals, conditions]:
                return self.call(place, self.source.procedures[callee], actuals, conditions)
            case [name, *arguments]:
                return self.predefined(place, ROWS[name], arguments)

    def call(self, place: int, callee: Procedure, actuals: list[str], conditions: list[str]) -> str:
        caller, pushed, variables = self.stack[-1], words_of(callee.locals), len(callee.variables)
        frame = {v.name: v.value for v in callee.locals}
        frame.update((formal.name, caller.frame[actual]) for formal, actual in zip(callee.formals, actuals))
        called = Activation(callee, frame, caller.control + 2 + variables, caller.temporary + pushed)
        control, temporary = called.control + callee.most[0], called.temporary + max(variables, callee.most[1])
        if temporary > self.temporary or control > self.control:
            self.step(place, (15, 7) if temporary > self.temporary else (26, 11))
            return SPACEERROR
        self.need_control, self.need_temporary = max(self.need_control, control), max(self.need_temporary, temporary)
        self.step(place, (pushed + 4 * variables + 26, pushed + variables + 9))
        self.stack.append(called)
        condition = self.leave(callee, self.run(callee.body), [(12, 6), (14, 7), (17, 9)])
        self.stack.pop()
        caller.frame.update((actual, frame[formal.name]) for formal, actual in zip(callee.formals, actuals))
        return dict(zip(callee.conditions, conditions)).get(condition, condition)

    def leave(self, procedure: Procedure, condition: str, costs: list[tuple[int, int]]) -> str:
        """The step that ends a procedure: normally, with a formal condition or spaceerror, or with another one, which becomes
        routineerror."""
        if condition not in [NORMAL, SPACEERROR] + procedure.conditions:
            self.step(procedure.place, costs[2])
            return ROUTINEERROR
        self.step(procedure.place, costs[condition != NORMAL])
        return condition

    def predefined(self, place: int, row: Row, arguments: list[str | Literal]) -> str:
        values = [a.value if isinstance(a, Literal) else self.frame[a] for a in arguments]
        value = row.effect(*values)
        if value is None:
            beyond = "a" in row.arguments and values[row.arguments.index("i")] >= 0
            self.step(place, row.costs[2 if beyond else 1])
            return ROUTINEERROR
        self.frame[arguments[0]] = value
        return self.step_if_normal(NORMAL, place, row.costs[0])


# Random sources.

NAMES = ("x y i n b a c p q r t f d L0 L1 c-c X x1 y_ z* z$ normal leave routineerror spaceerror if loop call proc program integer "
         "boolean array no-op signal main " + "k" * 64).split()
UNDECLARED = [NORMAL, LEAVE, ROUTINEERROR, SPACEERROR]        # no condition is declared by these names
EDGES = [LEAST, LEAST + 1, -1, 0, 1, 2, GREATEST - 1, GREATEST]


def fresh(rng: Random, used: list[str]) -> str:
    """A name that isn't used yet."""
    return rng.choice([name for name in NAMES if name not in used] or [f"v{len(used)}"])


def random_kind(rng: Random) -> str:
    return rng.choices(["integer", "boolean", "character"], [5, 3, 2])[0]


def random_value(rng: Random, type: Type) -> Value:
    if type.length:
        return tuple(random_value(rng, Type(type.kind)) for _ in range(type.length))
    if type.kind == "integer":
        return rng.choice([rng.choice(EDGES), rng.randint(-1, 5), rng.randint(LEAST, GREATEST)])
    return rng.choice([0, 1] if type.kind == "boolean" else [0, 1, 65, 126, 127])


class Author:
    """Writes the body of a procedure. It declares locals where it needs them."""

    def __init__(self, rng: Random, procedure: Procedure, callees: list[Procedure], arrays: list[Type]):
        self.rng, self.procedure, self.callees, self.arrays = rng, procedure, callees, arrays
        self.predefs = rng.sample(list(ROWS), rng.choice([1, 3, len(ROWS)]))    # few, so that each may be the one that needs most
        self.kept: list[str] = []       # variables that nothing may change now, so that a loop or a recursion ends
        self.loops = 0                  # round the place

    def chance(self, probability: float) -> bool:
        return self.rng.random() < probability

    def pick(self, type: Type, barred: list[str]) -> str:
        """A variable of a type that isn't barred: a new local where there is none, and now and then in any case."""
        found = [v.name for v in self.procedure.variables if v.type == type and v.name not in barred]
        if found and self.chance(0.95):
            return self.rng.choice(found)
        name = fresh(self.rng, [v.name for v in self.procedure.variables])
        self.procedure.locals.append(Variable(name, type, random_value(self.rng, type)))
        return name

    def raised(self) -> list[str]:
        """The conditions that may be signalled wherever one stands."""
        return [ROUTINEERROR] + self.procedure.conditions + self.procedure.local_conditions

    def handled(self) -> list[str]:
        """The conditions that may be handled."""
        return self.raised() + [SPACEERROR]

    def signalled(self) -> str:
        return self.rng.choice(self.raised() + [LEAVE, LEAVE] * (self.loops > 0))

    def body(self, size: int) -> Statement:
        fuel = self.procedure.fuel
        if not fuel:
            return self.statement(size)
        one, test = self.pick(INTEGER, [fuel]), self.pick(BOOLEAN, [])
        self.kept = [fuel, one]
        less = make("seq", make(SUBTRACT, fuel, fuel, one), *self.rng.sample([self.statement(size), self.call(size)], 2))
        return make("seq", assign(one, 1), make(LESS_OR_EQUAL, test, fuel, one), make("if", test, self.statement(1), less))

    def statement(self, size: int) -> Statement:
        """A statement of about so many leaves."""
        if size > 1:
            shapes = [self.sequence, self.branch, self.handler, self.loop, self.call]
            return self.rng.choices(shapes, [4, 3, 3, 3, 6])[0](size)
        if self.chance(0.88):
            return self.predefined()
        return make("no-op") if self.chance(0.3) else make("signal", self.signalled())

    def sequence(self, size: int) -> Statement:
        parts = self.rng.randint(2, 4)
        return make("seq", *(self.statement(size // parts) for _ in range(parts)))

    def branch(self, size: int) -> Statement:
        test = self.pick(BOOLEAN, self.kept)
        branch = make("if", test, self.statement(size // 2), self.statement(size // 2))
        compare = make(EQUAL, test, self.pick(INTEGER, []), Literal("integer", self.rng.choice(EDGES)))
        if self.chance(0.5):
            compare = make(LESS_OR_EQUAL, test, self.pick(INTEGER, []), self.pick(INTEGER, []))
        return branch if self.chance(0.3) else make("seq", compare, branch)

    def handler(self, size: int) -> Statement:
        caught = self.rng.sample(self.handled(), self.rng.randint(1, len(self.handled())))
        return make("begin", self.statement(size - size // 3), caught, self.statement(size // 3))

    def loop(self, size: int) -> Statement:
        kept = self.kept
        self.loops += 1
        loop = self.rng.choices([self.counted_loop, self.failing_loop, self.single_loop], [4, 3, 3])[0](size)
        self.loops -= 1
        self.kept = kept
        return loop

    def counter(self) -> tuple[str, str]:
        """Two integers that nothing else changes in this loop: one that counts, and the 1 that it counts by."""
        one = self.pick(INTEGER, self.kept)
        counter = self.pick(INTEGER, self.kept + [one])
        self.kept = self.kept + [counter, one]
        return counter, one

    def counted_loop(self, size: int) -> Statement:
        """A loop that `leave` ends after some rounds."""
        (counter, one), test = self.counter(), self.pick(BOOLEAN, self.kept)
        first = self.rng.choice([LEAST, -1, 0, 0, GREATEST - 4])
        is_last = make(EQUAL, test, counter, Literal("integer", first + self.rng.randint(0, 4)))
        leave = make("if", test, make("signal", LEAVE), self.statement(1))
        parts = self.rng.sample([self.statement(size - 1), make(ADD, counter, counter, one)], 2)
        return make("seq", assign(one, 1), assign(counter, first), make("loop", make("seq", is_last, leave, *parts)))

    def failing_loop(self, size: int) -> Statement:
        """A loop that ends where an index leaves its array, or where a number is doubled too often."""
        (counter, one), array = self.counter(), self.rng.choice(self.arrays)
        item = make(INDEX, self.pick(Type(array.kind), self.kept), self.pick(array, []), counter)
        parts, first = [item, make(ADD, counter, counter, one)], self.rng.randint(-1, array.length - 1)
        if self.chance(0.3):
            parts, first = [make(ADD, counter, counter, counter)], self.rng.choice([-1, 1]) * 2**26
        parts.insert(self.rng.randint(0, len(parts)), self.statement(size // 2))
        caught = make("begin", make("loop", make("seq", *parts)), [ROUTINEERROR], make("no-op"))
        return make("seq", assign(one, 1), assign(counter, first), caught)

    def single_loop(self, size: int) -> Statement:
        """A loop that has one round, or ends as it comes."""
        last = self.branch(2) if self.chance(0.2) else make("signal", self.signalled() if self.chance(0.3) else LEAVE)
        return make("loop", make("seq", self.statement(size - 1), last))

    def call(self, size: int) -> Statement:
        if not self.callees:
            return self.sequence(size)
        callee, own_fuel = self.rng.choice(self.callees), self.procedure.fuel
        before, actuals = [], []
        for formal in callee.formals:
            if formal.name != callee.fuel:
                actuals.append(self.pick(formal.type, self.kept + actuals))
            elif own_fuel and self.chance(0.5):
                actuals.append(own_fuel)
            else:
                actuals.append(self.pick(INTEGER, self.kept + actuals))
                amount = assign(actuals[-1], self.rng.choice([LEAST, 0, 1, 2, 3, 4, 5]))
                before.append(make(COPY, actuals[-1], own_fuel) if own_fuel else amount)
        return make("seq", *before, make("call", callee.name, actuals, [self.signalled() for _ in callee.conditions]))

    def predefined(self) -> Statement:
        name = self.rng.choice(self.predefs)
        row, array, edges = ROWS[name], self.rng.choice(self.arrays), EDGES
        kind = random_kind(self.rng)
        if "a" in row.arguments:
            kind, edges = array.kind, [-1, 0, array.length - 1, array.length]
        types = {"s": Type(kind), "a": array, "b": BOOLEAN, "i": INTEGER}
        before, arguments = [], []
        for slot in row.arguments:
            if slot == "v":
                arguments.append(Literal(kind, random_value(self.rng, Type(kind))))
                continue
            arguments.append(self.pick(types[slot], [] if arguments else self.kept))
            if slot == "i" and arguments[-1] not in self.kept and self.chance(0.6):
                before.append(assign(arguments[-1], self.rng.choice(edges)))
        call = make(name, *arguments)
        if len(row.costs) > 1 and self.chance(0.8):
            call = make("begin", call, [ROUTINEERROR], self.statement(1))
        return make("seq", *before, call) if before else call


def random_procedure(rng: Random, used: list[str], arrays: list[Type]) -> Procedure:
    """A procedure without a body, and without the locals that its body will want. The first one is main."""
    formals: list[Variable] = []
    conditions: list[str] = []
    for _ in range(rng.randint(0, 4)):
        type = rng.choice(arrays) if rng.random() < 0.2 else Type(random_kind(rng))
        formals.append(Variable(fresh(rng, [v.name for v in formals]), type, (0,) * type.length if type.length else 0))
    for _ in range(rng.randint(0, 4)):
        conditions.append(fresh(rng, UNDECLARED + conditions))
    cut = rng.randint(0, len(conditions))
    procedure = Procedure(fresh(rng, used), formals, conditions[:cut], conditions[cut:], rng.randint(1, 3) if used else 0)
    if used and rng.random() < 0.4:
        procedure.fuel = fresh(rng, [v.name for v in formals])
        formals.insert(rng.randint(0, len(formals)), Variable(procedure.fuel, INTEGER, 0))
    return procedure


def random_source(rng: Random) -> Source:
    arrays = [Type(random_kind(rng), rng.choice([1, 2, 3, 5, 30])) for _ in range(2)]
    procedures: list[Procedure] = []
    for _ in range(rng.choice([1, 2, 3, 4, 5, 7])):
        procedures.append(random_procedure(rng, [procedure.name for procedure in procedures], arrays))
    main, *others = procedures
    wild = rng.random() < 0.1       # any procedure may call any other, until a call has no room
    for caller in procedures:
        callees = [callee for callee in others if wild or callee.rank > caller.rank
                   or callee.rank == caller.rank and callee.fuel and caller.fuel]
        author = Author(rng, caller, callees, arrays)
        parts = [author.body(rng.choice([1, 4, 8, 16]))]
        if caller is main:
            parts += [author.statement(rng.choice([1, 4, 8, 16])) for _ in range(rng.choice([0, 1, 2, 5]))]
            parts = [make("begin", part, [ROUTINEERROR], make("no-op")) if rng.random() < 0.8 else part for part in parts]
        if rng.random() < 0.2:
            parts.append(make("signal", author.signalled()))
        caller.body = make("seq", *parts)
    rng.shuffle(procedures)
    return Source(main, procedures)


@dataclass
class Case:
    run: Run            # ends, with sizes that suffice for main itself
    from_zeros: Run     # with the same sizes, on zeros, as the Piton text has them
    tight: list[Run]    # on the same values, with sizes that just suffice for main itself or for the run, and with a word less


def random_case(rng: Random) -> Case:
    while True:
        source = random_source(rng)
        values = [random_value(rng, formal.type) for formal in source.main.formals]
        least, most = Run(source, values, 0, 0), Run(source, values, MOST_WORDS, MOST_WORDS)
        sizes = [rng.choice([rng.randint(low, high), high, high + 50, MOST_WORDS])
                 for low, high in ((least.need_control, most.need_control), (least.need_temporary, most.need_temporary))]
        run = Run(source, values, *sizes)
        if run.end == "gave up":
            continue
        tight = [Run(source, values, enough.need_control - control_less, enough.need_temporary - temporary_less)
                 for enough in (least, most) for control_less, temporary_less in ((0, 0), (1, 0), (0, 1))]
        from_zeros = Run(source, [formal.value for formal in source.main.formals], *sizes)
        return Case(run, from_zeros, [run for run in tight if run.end != "gave up" and run.temporary > 0])


# What the program has to answer.

SCRIPT = "step 1000000000\nup\n"
Answer = tuple[str, int, str]       # the words of a command, its status, and what it prints


def value_lines(variables: list[Variable], frame: dict[str, Value]) -> str:
    return "".join(f"{v.name} = {Literal(v.type.kind, frame[v.name])}\n" for v in variables)


def report(run: Run) -> str:
    return f"condition {run.condition}\n" + value_lines(run.source.main.formals, run.frame)


def mean_answer(run: Run) -> Answer:
    words = f"mean s v {run.control} {run.temporary} {run.steps}"
    if run.end == "done":
        return words, 0, f"steps {run.steps}\ncounted {run.instructions}\n{report(run)}"
    low = run.control < run.need_control
    return words, 12, f"size control {run.need_control}\n" if low else f"size temporary {run.need_temporary}\n"


def answers(case: Case) -> Iterator[Answer]:
    run, zeros = case.run, case.from_zeros
    sizes, steps, count = f"{run.control} {run.temporary}", run.steps, run.instructions
    yield "check s", 0, "ok\n"
    yield from map(mean_answer, [run, *case.tight])
    yield f"pit s {sizes} p", 0, "written p\n"
    if zeros.end == "done":
        yield f"prun p {zeros.piton_steps}", 0, piton_text(zeros)
    at_start = f"at {run.places[0]} depth 1\ncondition normal\n" + value_lines(run.source.main.variables, run.start)
    at_start += "attached last\nattached peak\nattached cost\n"
    end, latest = report(run), " ".join(str(place) for place in run.places[-8:])
    yield f"mean s v {sizes} {steps - 1}", 5, f"unfinished {steps - 1}\n"
    yield f"go s v {sizes} {count} i", 0, f"finished {count}\n{end}"
    yield f"go s v {sizes} {count - 1} i", 5, f"unfinished {count - 1}\n"
    yield f"run i v {count}", 0, f"finished {count}\n{end}"
    yield (f"debug gypsy s v {sizes} watched", 0,
           f"{at_start}stepped {steps} ended\ntop\nended\n{end}last {latest}\npeak {run.deepest}\ncost {count}\n")
    yield f"debug piton s v {sizes} script", 0, f"stepped {run.piton_steps} ended\n{end}"
    yield f"debug fm9001 s v {sizes} script", 0, f"stepped {count} ended\n{end}"


def piton_text(run: Run) -> str:
    """What `prun` prints of a run from zeros: the condition's number, and the words of all variables of main."""
    main, stack = run.source.main, ""
    for variable in main.variables:
        value = run.frame[variable.name]
        for item in value if isinstance(value, tuple) else (value,):
            stack += f" (bool {'ft'[item]})" if variable.type.kind == "boolean" else f" (int {item})"
    number = ([LEAVE, ROUTINEERROR, NORMAL, SPACEERROR] + main.conditions).index(run.condition)
    return f"halted {run.piton_steps}\ncounted {run.instructions}\nc-c (nat {number})\nstack{stack}\n"


def difference(program: str, seed: int) -> str:
    """The first command that doesn't answer to a seed's source as it has to; nothing where all do."""
    case = random_case(Random(seed))
    run = case.run
    values = listed(f"({v.name} {Literal(v.type.kind, run.start[v.name])})" for v in run.source.main.formals)
    watched = f"show\nattach last\nattach peak\nattach cost\n{SCRIPT}show\ndetach last\ndetach peak\ndetach cost\n"
    with tempfile.TemporaryDirectory() as folder:
        for name, text in {"s": run.source.text, "v": values, "script": SCRIPT, "watched": watched}.items():
            Path(folder, name).write_text(text)
        for words, status, text in answers(case):
            made = subprocess.run([program, *words.split()], cwd=folder, capture_output=True, text=True, timeout=SECONDS)
            if (made.returncode, made.stdout + made.stderr) != (status, text):
                return (f"seed {seed}: {words}: wanted {status} {text!r}, got {made.returncode} {made.stdout + made.stderr!r}; "
                        f"source {run.source.text!r}; values {values}")
    return ""


def try_seeds(document: str, difference: Callable[[str, int], str]) -> int:
    """Tries the seeds that the command line asks for, prints each difference and how many agree, and is the exit status."""
    words, agreeing = seeds_of(document), 0
    for seed in range(words.first, words.first + words.how_many):
        found = difference(str(words.program), seed)
        if found:
            print(found, flush=True)
        else:
            agreeing += 1
    print(f"{agreeing} sources agree")
    return 0 if agreeing == words.how_many else 1


if __name__ == "__main__":
    sys.exit(try_seeds(__doc__, difference))
