#!/usr/bin/env python3
"""Prints a Micro-Gypsy text and its program as definitions for a crate's specs/, by which statements are proved of it.

    python3 guide/definitions_of.py FILE.gypsy NAME > crates/CRATE/specs/Texts/Name.antt

NAME stands before each definition: NAME_text is the text, NAME_program its program, NAME_PROC_body the body of a procedure, and
NAME_PROC_round_N that of its Nth loop, counted as the loops end. The file must be a source that `stack build` takes.
Nothing rests on what it prints: that the text has this program is proved by computing.
"""
import argparse
import re
import sys
from pathlib import Path

TOP = Path(__file__).resolve().parents[1]
sys.path.append(str(TOP / "tools"))

from imports import DEFINITIONS, grouped  # noqa: E402

IMPORTS = """
use Rattle.std.specs.Prelude.{ℕ, pos, negsuc, true, false, List, [], ◌∷◌, ◌++◌, codes}
use Rattle.stack_text.specs.declared.shape.Kind.TheVariants.{Integer, Boolean, Character}
use Rattle.gypsy_syntax.specs.declared.predef.Predef.TheVariants as row
use Rattle.gypsy_syntax.specs.Effects.{integer_value, truth_value}
use Rattle.gypsy_syntax.specs.Programs.{Leave, Routine, Space, Declared, Var, Lit, simple, Proc, Program}
use Rattle.gypsy_syntax.specs.Programs.{Stmt, Skip, NoOp, Signal, Seq, Loop, If, Begin, Call, Apply}
"""

SIMPLE = {"integer": "Integer", "boolean": "Boolean", "character": "Character"}
WORDS = {"no-op", "signal", "seq", "loop", "if", "begin", "call"}


def tree_of(text):
    """The tree of a text: an atom is a place and its word, a list a place and its items."""
    rest, tokens, at = text, [], 0
    while at < len(text):
        byte = text[at]
        if byte == ";":
            at = text.find("\n", at) if "\n" in text[at:] else len(text)
        elif byte in "()":
            tokens.append((at, byte))
            at += 1
        elif byte.isspace():
            at += 1
        else:
            end = at
            while end < len(text) and text[end] not in "(); \t\r\n":
                end += 1
            tokens.append((at, text[at:end]))
            at = end
    stack = [[]]
    places = []
    for place, word in tokens:
        if word == "(":
            stack.append([])
            places.append(place)
        elif word == ")":
            items = stack.pop()
            stack[-1].append((places.pop(), items))
        else:
            stack[-1].append((place, word))
    [tree] = stack[0]
    return tree


def chain(items, end="[]", link=" ∷ "):
    return link.join([*items, end])


def lines(items):
    """A list with a line for each item, where there are any."""
    pad = "\n      "
    return "".join(f"{pad}{it} ∷" for it in items) + f"{pad}[]" if items else " []"


def codes(word):
    return f'(codes "{word}")'


def integer(number):
    return f"pos {number}" if number >= 0 else f"negsuc {-number - 1}"


def is_numeral(word):
    return isinstance(word, str) and word.removeprefix("-").isdigit()


def predef(word):
    return "row." + "".join(part.capitalize() for part in word.split("-"))


class Program:
    """The program: positions in place of names."""

    def __init__(self, tree, name):
        self.own = name
        self.procs = tree[1][2:]
        self.names = [it[1][1][1] for it in self.procs]
        self.main = tree[1][1][1]

    def condition(self, name):
        fixed = {"leave": "Leave", "routineerror": "Routine", "spaceerror": "Space"}
        return fixed.get(name) or f"(Declared {self.conds.index(name)})"

    def value(self, tree, kind):
        word = tree[1]
        if isinstance(word, list):
            return f"record {{ shape = record {{ kind = {kind}; length = {len(word)} }}; items = {chain(self.item(it) for it in word)} }}"
        if is_numeral(word):
            return f"integer_value ({integer(int(word))})"
        if word in ("true", "false"):
            return f"truth_value {word}"
        return f"record {{ shape = simple Character; items = {self.item(tree)} ∷ [] }}"

    def kind(self, tree):
        return SIMPLE[tree[1] if isinstance(tree[1], str) else tree[1][1][1]]

    def item(self, tree):
        word = tree[1]
        if is_numeral(word):
            return integer(int(word))
        if word in ("true", "false"):
            return "pos 1" if word == "true" else "pos 0"
        return f"pos {int(word[1:])}"

    def shape(self, tree):
        if isinstance(tree[1], str):
            return f"simple {SIMPLE[tree[1]]}"
        return f"record {{ kind = {SIMPLE[tree[1][1][1]]}; length = {int(tree[1][2][1])} }}"

    def argument(self, tree):
        if is_numeral(tree[1]) or tree[1].startswith("#") or tree[1] in ("true", "false"):
            return f"Lit ({self.value(tree, None)})"
        return f"Var {self.vars.index(tree[1])}"

    def statement(self, tree):
        pad = "\n    "
        place, items = tree
        word, rest = items[0][1], items[1:]
        if word == "no-op":
            return f"(NoOp {place})"
        if word == "signal":
            return f"(Signal {place} {self.condition(rest[0][1])})"
        if word == "seq":
            parts = "Skip"
            for it in reversed(rest):
                parts = f"(Seq {self.statement(it)}{pad}{parts})"
            return parts
        if word == "loop":
            self.rounds.append(self.statement(rest[0]))
            return f"(Loop {place} {self.own}_{self.name}_round_{len(self.rounds)})"
        if word == "if":
            return f"(If {place} {self.vars.index(rest[0][1])}{pad}{self.statement(rest[1])}{pad}{self.statement(rest[2])})"
        if word == "begin":
            conds = chain(self.condition(it[1]) for it in rest[1][1])
            return f"(Begin {place} {self.statement(rest[0])} ({conds}) {self.statement(rest[2])})"
        if word == "call":
            actuals = chain(str(self.vars.index(it[1])) for it in rest[1][1])
            conds = chain(self.condition(it[1]) for it in rest[2][1])
            return f"(Call {place} {self.names.index(rest[0][1])} ({actuals}) ({conds}))"
        return f"(Apply {place} {predef(word)} ({chain(self.argument(it) for it in rest)}))"

    def procedure(self, tree):
        place, (_, name, formals, conds, locals_, local_conds, body) = tree
        self.vars = [it[1][0][1] for it in formals[1] + locals_[1]]
        self.conds = [it[1] for it in conds[1] + local_conds[1]]
        self.rounds, self.name = [], name[1].replace("-", "_")
        kept = lines([self.value(it[1][2], self.kind(it[1][1])) for it in locals_[1]])
        return (f"record {{\n  place = {place};\n  formals = {chain(self.shape(it[1][1]) for it in formals[1])};\n  locals ={kept};\n"
                f"  conds = {len(conds[1])};\n  local_conds = {len(local_conds[1])};\n  body = {{BODY}};\n}}"), self.statement(body)


def imports(page):
    """The imports that a page of definitions needs, each of the names that stand in it."""
    words = set(re.findall(r"[\wℕ]+", re.sub(r'codes "[^"]*"', "codes", page)))
    for line in IMPORTS.split("\n")[1:-1]:
        start, brace, names = line.partition("{")
        if not brace:
            if "row." in page:
                yield line
            continue
        used = [it for it in names.rstrip("}").split(", ") if not re.fullmatch(r"\w+", it) or it in words]
        if used:
            yield f"{start}{{{', '.join(used)}}}"


def definitions(text, name):
    """The page's definitions, with a blank line before each."""
    lines = text.split("\n")
    yield f"unfoldable pub {name}_text : List ℕ\n{name}_text ="
    whole = [f'    codes "{line}" ++ 10 ∷' if line else "    10 ∷" for line in lines[:-1]]
    yield "\n".join(whole) + (" []" if not lines[-1] else f'\n    codes "{lines[-1]}"') + "\n"
    program = Program(tree_of(text), name)
    procs = []
    for proc in program.procs:
        whole, body = program.procedure(proc)
        it = f"{name}_" + proc[1][1][1].replace("-", "_")
        for number, part in enumerate(program.rounds, 1):
            yield f"abbrev pub {it}_round_{number} : Stmt\n{it}_round_{number} =\n    {part}\n"
        yield f"abbrev pub {it}_body : Stmt\n{it}_body =\n    {body}\n"
        yield f"abbrev pub {it}_proc : Proc\n{it}_proc = {whole.replace('{BODY}', f'{it}_body')}\n"
        procs.append(f"{it}_proc")
    yield f"abbrev pub {name}_program : Program"
    yield f"{name}_program = record {{ main = {program.names.index(program.main)}; procs = {chain(procs)} }}"


def shown(path):
    """How a page names a file: by its place in the repository, or else by its name alone."""
    path = path.resolve()
    return path.relative_to(TOP) if path.is_relative_to(TOP) else path.name


def page_of(path, name):
    """The page of a text's definitions."""
    page = "\n".join(definitions(path.read_text(), name))
    head = f"-- The text of {shown(path)} and its program, as guide/definitions_of.py prints them."
    return f"{head}\n{grouped(chr(10).join(imports(page)), DEFINITIONS)}\n\n{page}\n"


def main():
    parser = argparse.ArgumentParser(description=__doc__, formatter_class=argparse.RawDescriptionHelpFormatter)
    parser.add_argument("file", type=Path, metavar="FILE.gypsy", help="the text")
    parser.add_argument("name", metavar="NAME", help="a word of small letters")
    chosen = parser.parse_args()
    print(page_of(chosen.file, chosen.name), end="")


if __name__ == "__main__":
    sys.exit(main())
