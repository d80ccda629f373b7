"""Lists the code of a source's own procedures: each statement with its line and column, and below it its words.

    listing.py PROGRAM SOURCE CTRL TEMP

A word of the code is an instruction, or a number that an instruction takes from behind it, before which `=` stands; of a table of jumps each word is the
address that is jumped to. Which words are a statement's tell the marks of the image, and the instructions are those that `show` prints. Of an infix
program each of its statements stands above the code that it became, also where that goes on after the statements in it.
"""
import argparse
import sys
from pathlib import Path

from ends import end
from generated import Code
from infix_sources import InfixSource
from places import Source
from program import Program, carried_out, lower, number


def text_of(code, address):
    """A word of the code as a text: an instruction, an operand as a number, or an address in a table."""
    word = code.image.word(address)
    if address in code.operands:
        return f"= {word.number - 2 ** 32 if word.number >= 2 ** 31 else word.number}"
    return code.shown_word(address)


def source_heads(source):
    """What stands above the code at a mark: the statement."""
    return lambda place: f"{source.where(place)}  {source.statement(place)}"


def infix_heads(source):
    """What stands above the code at a mark: the statement of the infix program, where another one's code was before."""
    last = None

    def head(place):
        nonlocal last
        tie = source.tie(place)
        if tie is None or tie.statement is last:
            return None
        last = tie.statement
        return f"{source.where(last)}  {source.statement(last)}"

    return head


def print_listing(words, _):
    """Asks, and prints the listing."""
    with Program(words.program, words.source, None, words.control, words.temporary) as program:
        infix = lower(program)
        program.ask("build", "s", *program.sizes, "i")
        program.ask("pit", "s", *program.sizes, "p")
        code, lowered = Code((program.folder / "p").read_bytes(), program.ask("show", "i")), (program.folder / "s").read_bytes()
    heads = source_heads(Source(lowered)) if infix is None else infix_heads(InfixSource(infix, lowered))
    marks = {address: place for address, _, place in code.image.marks}
    for name in code.image.variables:
        print(f"{name}, its prelude")
        for address in code.addresses_of(name):
            head = heads(marks[address]) if address in marks else None
            if head:
                print(f"\n{head}")
            print(f"    {address:08x}  {code.image.word(address).number:08x}  {text_of(code, address)}")
        print()


def words_of_line():
    parser = argparse.ArgumentParser(prog="./stack listing", description="Lists the code of a source beside its statements.")
    parser.add_argument("program", help=argparse.SUPPRESS)
    parser.add_argument("source", metavar="SOURCE", type=Path)
    for name, metavar in (("control", "CTRL"), ("temporary", "TEMP")):
        parser.add_argument(name, metavar=metavar, type=number)
    return parser


if __name__ == "__main__":
    end(lambda: carried_out(words_of_line(), print_listing, sys.argv[1:]))
