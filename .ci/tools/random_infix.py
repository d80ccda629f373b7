#!/usr/bin/env python3
"""Random programs of the infix language: what the program makes of them, beside what a reader and an evaluator of its own make.

Each seed makes a program that breaks no rule, and values for its variables. `mini` has to store a source of Micro-Gypsy; `mean` and `go` of
that source have to tell the variables and the condition with which the evaluator ends, and the same count. Programs that run too long are thrown
away. Then each program is damaged a few times, by a token or a byte; `mini` has to store it or to refuse it as the reader does, which goes by the
rules Y1 to Y9 of docs/languages/mini.md.
"""
import subprocess
import sys
import tempfile
from dataclasses import dataclass
from pathlib import Path
from random import Random

sys.path.append(str(Path(__file__).resolve().parents[2] / "tools"))

from arguments import seeds_of  # noqa: E402

LEAST, GREATEST = -2**31, 2**31 - 1
MOST_NUMBER, MOST_NAME, MOST_NESTED, MOST_OPERATORS, MOST_VARIABLES = GREATEST, 60, 40, 40, 100
MOST_STATEMENTS = 400       # that a run may make: a program that makes more is thrown away
DAMAGES = 8                 # of each program
SIZES = "1000 1000"         # of the two stacks, in words
WORDS = {"int", "bool", "while", "if", "else", "or", "and", "not", "true", "false"}
LEVELS = [("or",), ("and",), ("<=", "="), ("+", "-"), ("*",)]       # the operators, the one that binds least first
TAKES = {"or": "bool", "and": "bool", "not": "bool", "<=": "int", "+": "int", "-": "int", "*": "int", "minus": "int"}
GIVES = {"or": "bool", "and": "bool", "not": "bool", "<=": "bool", "=": "bool", "+": "int", "-": "int", "*": "int", "minus": "int"}


class Refused(Exception):
    """The rule that a text breaks, and where."""


class Fault(Exception):
    """A result that isn't among the signed numbers of 32 bits."""


class TooLong(Exception):
    """A run that makes too many statements."""


# The reader.

@dataclass
class Token:
    kind: str       # a name, a number, a word or a mark of the language, or nothing at the text's end
    text: str
    place: int


LETTERS = frozenset(b"abcdefghijklmnopqrstuvwxyzABCDEFGHIJKLMNOPQRSTUVWXYZ")
DIGITS = frozenset(b"0123456789")


def tokens(text: bytes):
    """The tokens from left to right; what is none breaks rule 1 once it is reached. The last one is the end."""
    at = 0
    while at < len(text):
        if text[at] in b" \t\n\r":
            at += 1
            continue
        end = at + 1
        if text[at] in LETTERS:
            while end < len(text) and text[end] in LETTERS | DIGITS | {ord("_")}:
                end += 1
            word = text[at:end].decode()
            if len(word) > MOST_NAME:
                raise Refused(1, at)
            yield Token(word if word in WORDS else "name", word, at)
        elif text[at] in DIGITS:
            while end < len(text) and text[end] in DIGITS:
                end += 1
            yield Token("number", text[at:end].decode(), at)
        else:
            end += text[at : at + 2] in (b":=", b"<=")
            mark = text[at:end].decode("latin-1")
            if mark not in (":=", "<=", *";=+-*(){}"):
                raise Refused(1, at)
            yield Token(mark, mark, at)
        at = end
    yield Token("", "", len(text))


class Reader:
    """Reads a text by recursive descent, and notes the breaches of rules 5 to 9."""

    def __init__(self, text: bytes):
        self.rest, self.breaches, self.sorts = tokens(text), [], {}
        self.nested, self.operators, self.count = {"(": 0, "{": 0}, 0, 0
        self.next = next(self.rest)

    def take(self, *kinds: str) -> Token:
        """The next token, which has to be of one of these kinds."""
        token = self.next
        if token.kind not in kinds:
            raise Refused(2, token.place)
        if token.kind in self.nested:
            self.nested[token.kind] += 1
            if self.nested[token.kind] > MOST_NESTED:
                raise Refused(3, token.place)
        if token.kind in (")", "}"):
            self.nested[{")": "(", "}": "{"}[token.kind]] -= 1
        if token.kind in GIVES:
            self.operators += 1
            if self.operators > MOST_OPERATORS:
                raise Refused(4, token.place)
        if token.kind in (":=", "while", "if"):
            self.operators = 0
        if token.kind:
            self.next = next(self.rest)
        return token

    def breaks(self, holds: bool, rule: int, token: Token):
        if holds:
            self.breaches.append((token.place, rule))

    def program(self) -> list:
        while self.next.kind in ("int", "bool"):
            sort, name = self.take("int", "bool").kind, self.take("name")
            self.breaks(name.text in self.sorts, 5, name)
            self.breaks(self.count == MOST_VARIABLES, 9, name)
            self.count += 1
            self.sorts.setdefault(name.text, sort)
            self.take(";")
        statements = self.statements()
        self.take("")
        if self.breaches:
            place, rule = min(self.breaches)
            raise Refused(rule, place)
        return statements

    def statements(self) -> list:
        found = []
        while self.next.kind in ("name", "while", "if"):
            found.append(self.statement())
        return found

    def block(self) -> list:
        self.take("{")
        found = self.statements()
        self.take("}")
        return found

    def statement(self) -> tuple:
        first = self.take("name", "while", "if")
        if first.kind == "name":
            self.breaks(first.text not in self.sorts, 6, first)
            becomes = self.take(":=")
            value, sort = self.level(0)
            self.take(";")
            declared = self.sorts.get(first.text)
            self.breaks(None not in (declared, sort) and declared != sort, 7, becomes)
            return ":=", first.text, value
        test, sort = self.level(0)
        self.breaks(sort == "int", 7, first)
        block = self.block()
        if first.kind == "while":
            return "while", test, block
        self.take("else")
        return "if", test, block, self.block()

    def level(self, at: int) -> tuple:
        """An expression of operators that bind as close as these or closer, and its sort."""
        if at == len(LEVELS):
            return self.factor()
        left, sort = self.level(at + 1)
        while self.next.kind in LEVELS[at]:
            token = self.take(*LEVELS[at])
            right, other = self.level(at + 1)
            if sort and other:
                wrong = sort != other if token.kind == "=" else {sort, other} != {TAKES[token.kind]}
                self.breaks(wrong, 7, token)
            left, sort = (token.kind, left, right), GIVES[token.kind]
            if "=" in LEVELS[at]:
                break
        return left, sort

    def factor(self) -> tuple:
        token = self.take("name", "number", "true", "false", "not", "-", "(")
        if token.kind == "name":
            self.breaks(token.text not in self.sorts, 6, token)
            return token.text, self.sorts.get(token.text)
        if token.kind == "number":
            self.breaks(int(token.text) > MOST_NUMBER, 8, token)
            return int(token.text), "int"
        if token.kind in ("true", "false"):
            return token.kind == "true", "bool"
        if token.kind == "(":
            inner = self.level(0)
            self.take(")")
            return inner
        operator = "minus" if token.kind == "-" else "not"
        operand, sort = self.factor()
        self.breaks(sort is not None and sort != TAKES[operator], 7, token)
        return (operator, operand), GIVES[operator]


def judged(text: bytes) -> str:
    """What `mini` has to say of a text."""
    try:
        Reader(text).program()
    except Refused as refused:
        return "refused Y{} at {}\n".format(*refused.args)
    return "written s\n"


# The evaluator.

def number(it: int) -> int:
    if not LEAST <= it <= GREATEST:
        raise Fault
    return it


PREFIX = {"not": lambda a: not a, "minus": lambda a: number(-a)}
INFIX = {
    "or": lambda a, b: a or b,
    "and": lambda a, b: a and b,
    "<=": lambda a, b: a <= b,
    "=": lambda a, b: a == b,
    "+": lambda a, b: number(a + b),
    "-": lambda a, b: number(a - b),
    "*": lambda a, b: number(a * b),
}


class Run:
    """Runs statements on variables."""

    def __init__(self, variables: dict):
        self.variables, self.made = variables, 0

    def value(self, it):
        """Operands from left to right, all of them."""
        if isinstance(it, str):
            return self.variables[it]
        if not isinstance(it, tuple):
            return it
        operands = [self.value(operand) for operand in it[1:]]
        return (PREFIX if len(operands) == 1 else INFIX)[it[0]](*operands)

    def run(self, statements: list):
        for it in statements:
            self.made += 1
            if self.made > MOST_STATEMENTS:
                raise TooLong
            if it[0] == ":=":
                self.variables[it[1]] = self.value(it[2])
            elif it[0] == "if":
                self.run(it[2] if self.value(it[1]) else it[3])
            else:
                while self.value(it[1]):
                    self.run(it[2])
                    self.made += 1


def shown(value) -> str:
    return str(value).lower() if isinstance(value, bool) else str(value)


def ending(statements: list, values: dict) -> str:
    """The condition and the variables at the end."""
    run = Run(dict(values))
    condition = "normal"
    try:
        run.run(statements)
    except Fault:
        condition = "routineerror"
    return f"condition {condition}\n" + "".join(f"{name} = {shown(value)}\n" for name, value in run.variables.items())


# Random programs.

class Maker:
    def __init__(self, seed: int):
        self.random = Random(seed)
        names = self.random.sample(["x", "y", "z", "a1", "b_2", "Sum", "ready", "n" * MOST_NAME], self.random.randint(2, 6))
        self.sorts = {name: self.random.choice(["int", "int", "bool"]) for name in names}
        self.sorts[names[0]] = "int"

    def values(self) -> dict:
        return {name: self.number() if sort == "int" else self.random.random() < 0.5 for name, sort in self.sorts.items()}

    def number(self) -> int:
        return self.random.choice([self.random.randint(-9, 9), self.random.randint(-9, 9), self.random.choice([LEAST, GREATEST, 46341, -65536])])

    def expression(self, sort: str, depth: int) -> str:
        """In brackets, but for what needs none."""
        names = [name for name, it in self.sorts.items() if it == sort]
        if depth == 0 or self.random.random() < 0.2:
            literal = str(abs(self.number()) % 2**31) if sort == "int" else self.random.choice(["true", "false"])
            return self.random.choice([*names, *names, literal])
        operator = self.random.choice([it for it, gives in GIVES.items() if gives == sort])
        inner = TAKES.get(operator) or self.random.choice(["int", "bool"])
        if operator in ("not", "minus"):
            return f"{'-' if operator == 'minus' else 'not '}{self.operand(inner, depth - 1)}"
        return f"{self.operand(inner, depth - 1)} {operator} {self.operand(inner, depth - 1)}"

    def operand(self, sort: str, depth: int) -> str:
        inner = self.expression(sort, depth)
        return inner if inner.isalnum() else f"({inner})"

    def statements(self, depth: int, indent: str) -> str:
        return "".join(self.statement(depth, indent) for _ in range(self.random.randint(0 if indent else 2, 4)))

    def statement(self, depth: int, indent: str) -> str:
        kind = self.random.choice(["set", "set", "if", "while"] if depth else ["set"])
        if kind == "set":
            name = self.random.choice(list(self.sorts))
            return f"{indent}{name} := {self.expression(self.sorts[name], self.random.randint(0, 4))};\n"
        test = self.expression("bool", self.random.randint(0, 3))
        block = "{\n" + self.statements(depth - 1, indent + "  ") + indent + "}"
        if kind == "while":
            counter = next(name for name, sort in self.sorts.items() if sort == "int")
            test = f"({test}) and 1 <= {counter}"
            return f"{indent}while {test} {block[:-1 - len(indent)]}\n{indent}  {counter} := {counter} - 1;\n{indent}}}\n"
        return f"{indent}if {test} {block} else {{\n{self.statements(depth - 1, indent + '  ')}{indent}}}\n"

    def program(self) -> str:
        return "".join(f"{sort} {name};\n" for name, sort in self.sorts.items()) + self.statements(3, "")

    def damaged(self, text: bytes) -> bytes:
        """The text with a token or a byte taken out, put twice, exchanged, or put in."""
        places = [token.place for token in tokens(text)]
        start, end = sorted(self.random.sample(places, 2))
        piece = text[start : min(end, start + self.random.randint(1, 12))]
        other = self.random.choice([b"", piece * 2, b"?", b":", b"<", b"-", b"not ", b"(", b"}", b"else", b"int q;", b"2147483648", b"q" * 61, b"true", b"1 = 1", b"\xff"])
        return text[:start] + other + text[start + self.random.choice([0, len(piece)]) :]


def run(program: str, folder: str, words: str) -> tuple:
    ran = subprocess.run([program, *words.split()], cwd=folder, stdout=subprocess.PIPE, check=False)
    return ran.returncode, ran.stdout.decode("latin-1")


def compared(program: str, folder: str, text: str, values: dict, wanted: str) -> list:
    """What the program says otherwise than the evaluator."""
    Path(folder, "p").write_text(text, encoding="ascii")
    Path(folder, "v").write_text("(" + " ".join(f"({name} {shown(value)})" for name, value in values.items()) + ")", encoding="ascii")
    said = run(program, folder, "mini p s")
    if said != (0, "written s\n"):
        return [("mini", said)]
    means = run(program, folder, f"mean s v {SIZES} 1000000")
    goes = run(program, folder, f"go s v {SIZES} 1000000000000 i")
    first, *rest = means[1].splitlines(keepends=True)[1:] or [""]
    told = goes == (0, first.replace("counted", "finished") + wanted)
    return [] if means[0] == 0 and "".join(rest) == wanted and told else [("mean", means), ("go", goes), ("wanted", wanted)]


def main() -> int:
    words = seeds_of(__doc__)
    program, first, how_many = str(words.program), words.first, words.how_many
    tried, faults, texts, refused, wrong = 0, 0, 0, 0, 0
    with tempfile.TemporaryDirectory() as folder:
        for seed in range(first, first + how_many):
            maker = Maker(seed)
            text, values = maker.program(), maker.values()
            for _ in range(DAMAGES):
                broken = maker.damaged(text.encode())
                Path(folder, "p").write_bytes(broken)
                said, wanted = run(program, folder, "mini p s"), judged(broken)
                texts, refused = texts + 1, refused + wanted.startswith("refused")
                if said != (2 if wanted.startswith("refused") else 0, wanted):
                    wrong += 1
                    print(f"seed {seed}: {broken!r:.300}: {said}, wanted {wanted!r}")
            try:
                wanted = ending(Reader(text.encode()).program(), values)
            except TooLong:
                continue
            tried, faults = tried + 1, faults + ("routineerror" in wanted)
            found = compared(program, folder, text, values, wanted)
            if found:
                wrong += 1
                print(f"seed {seed}: {text!r:.600}, {values}: {found}")
    if tried < how_many / 2 or not 0 < faults < tried or refused < texts / 4 or refused == texts:
        print(f"random infix programs: {tried} tried, {faults} with a fault, {refused} of {texts} texts refused: too few of a kind")
        return 1
    print(f"{tried} random infix programs, {faults} of them with a fault, and {texts} damaged ones, {refused} of them refused: {wrong} wrong")
    return wrong != 0


if __name__ == "__main__":
    sys.exit(main())
