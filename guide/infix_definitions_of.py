#!/usr/bin/env python3
"""Prints a text of the infix language and its program as definitions for a crate's specs/, by which statements are proved of it.

    python3 guide/infix_definitions_of.py FILE.mini NAME > specs/Text.antt

Nothing rests on what it prints: that the text is this program is proved by computing.
"""
import argparse
import re
import sys
import textwrap
from pathlib import Path

from definitions_of import shown

TOKEN = re.compile(r"[A-Za-z][A-Za-z0-9_]*|[0-9]+|:=|<=|[;=+\-*(){}]")
SORTS = {"int": "sort.Int", "bool": "sort.Bool"}
GRAMMAR = ["variable", "number", "truth", "unary", "binary", "group", "assign", "loop", "branch", "block", "no_forms", "form", "InfixProgram"]
INFIX = {"*": ("Multiply", 1), "+": ("Add", 2), "-": ("Subtract", 2), "<=": ("AtMost", 3), "=": ("Equals", 3), "and": ("And", 4), "or": ("Or", 5)}
PREFIX = {"not": "Not", "-": "Minus"}


class Reader:
    """A text's tokens with their places, and the grammar's forms as terms, each with all of its tokens."""

    def __init__(self, text):
        self.tokens = [(it.start(), it.group()) for it in TOKEN.finditer(text)]
        self.at = 0

    def peek(self):
        return self.tokens[self.at][1] if self.at < len(self.tokens) else ""

    def take(self, *expected):
        place, word = self.tokens[self.at]
        if expected and word not in expected:
            sys.exit(f"byte {place}: {word} stands where {' or '.join(expected)} belongs")
        self.at += 1
        return place, word

    def expression(self, level=5):
        """An expression whose operators have the level at most; a right operand binds closer than its operator."""
        term = self.factor()
        while INFIX.get(self.peek(), ("", 6))[1] <= level:
            place, word = self.take()
            name, own = INFIX[word]
            term = f"(binary {term} {place} operator.{name} {self.expression(own - 1)})"
        return term

    def factor(self):
        place, word = self.take()
        if word == "(":
            inside = self.expression()
            return f"(group {place} {inside} {self.take(')')[0]})"
        if word in PREFIX:
            return f"(unary {place} sign.{PREFIX[word]} {self.factor()})"
        if word in ("true", "false"):
            return f"(truth {place} {word})"
        return f"({'number' if word.isdigit() else 'variable'} {place} (codes \"{word}\"))"

    def form(self):
        place, word = self.take()
        if word == "while":
            return f"(loop {place} {self.expression()} {self.block()})"
        if word == "if":
            test, block = self.expression(), self.block()
            return f"(branch {place} {test} {block} {self.take('else')[0]} {self.block()})"
        becomes = self.take(":=")[0]
        value = self.expression()
        return f"(assign {place} (codes \"{word}\") {becomes} {value} {self.take(';')[0]})"

    def block(self):
        place = self.take("{")[0]
        forms = self.forms()
        return f"(block {place} {forms} {self.take('}')[0]})"

    def forms(self):
        found = []
        while self.peek() not in ("", "}"):
            found.append(self.form())
        term = "no_forms"
        for it in reversed(found):
            term = f"(form {it} {term})"
        return term

    def declarations(self):
        found = []
        while self.peek() in SORTS:
            start, sort = self.take()
            place, name = self.take()
            closing = self.take(";")[0]
            found.append(f"record {{ start = {start}; sort = {SORTS[sort]}; place = {place}; name = codes \"{name}\"; closing = {closing} }} ∷")
        return found


def main():
    parser = argparse.ArgumentParser(description=__doc__, formatter_class=argparse.RawDescriptionHelpFormatter)
    parser.add_argument("file", type=Path)
    parser.add_argument("name")
    chosen = parser.parse_args()
    text, name = chosen.file.read_text(), chosen.name
    reader = Reader(text)
    declarations, forms = reader.declarations(), reader.forms()
    if reader.at < len(reader.tokens):
        sys.exit(f"byte {reader.tokens[reader.at][0]}: a statement belongs there")
    used = [it for it in GRAMMAR if re.search(rf"\({it} |\b{it}\b(?=\)|$)", forms, re.M) or it == "InfixProgram"]
    print(f"-- The text of {shown(chosen.file)} and its program, as guide/infix_definitions_of.py prints them.")
    print("use Rattle.std.specs.Prelude.{ℕ, List, [], ◌∷◌, ◌++◌, codes, refl}")
    for module, name_here in (("Infix", "operator"), ("Prefix", "sign")):
        if f"{name_here}." in forms:
            print(f"use Rattle.mini_syntax.specs.declared.operator.{module}.TheVariants as {name_here}")
    print("use Rattle.mini_syntax.specs.declared.sort.Sort.TheVariants as sort")
    print(f"use Rattle.mini_syntax.specs.Grammar.{{{', '.join(used)}}}")
    print(f"\nunfoldable pub {name}_text : List ℕ\n{name}_text =")
    lines = text.split("\n")
    print("\n".join(f"    codes \"{line}\" ++ 10 ∷" if line else "    10 ∷" for line in lines[:-1]), "[]")
    print(f"\nabbrev pub {name}_infix : InfixProgram\n{name}_infix = record {{\n  decls =")
    print("".join(f"      {it}\n" for it in declarations) + "      [];")
    print("  forms =")
    print(textwrap.fill(forms, 140, initial_indent=6 * " ", subsequent_indent=6 * " ", break_long_words=False) + ";")
    print("  bound = refl;\n}")


if __name__ == "__main__":
    sys.exit(main())
