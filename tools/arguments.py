"""The words of a script's command line: what all scripts have in common."""
import argparse
import os
from pathlib import Path


def parser_of(doc):
    """A parser whose help is the docstring of a script."""
    return argparse.ArgumentParser(description=doc, formatter_class=argparse.RawDescriptionHelpFormatter)


def program(word):
    """The path of a program that can be started."""
    path = Path(word).resolve()
    if not path.is_file() or not os.access(path, os.X_OK):
        raise argparse.ArgumentTypeError(f"{word} is no program that can be started")
    return path


def file(word):
    """The path of a file that is there."""
    if not Path(word).is_file():
        raise argparse.ArgumentTypeError(f"there is no file {word}")
    return Path(word).resolve()


def folder(word):
    """The path of a folder that is there."""
    if not Path(word).is_dir():
        raise argparse.ArgumentTypeError(f"there is no folder {word}")
    return Path(word).resolve()


def seeds_of(doc):
    """The words of a script that tries a program on what seeds make."""
    parser = parser_of(doc)
    parser.add_argument("program", type=program, help="cli_stack")
    parser.add_argument("first", type=int, nargs="?", default=1, help="the first seed (%(default)s)")
    parser.add_argument("how_many", type=int, nargs="?", default=60, help="how many seeds (%(default)s)")
    return parser.parse_args()


def drawn_of(doc, how_many):
    """The words of a script that tries a program on so many things that are drawn."""
    parser = parser_of(doc)
    parser.add_argument("program", type=program, help="cli_stack")
    parser.add_argument("how_many", type=int, nargs="?", default=how_many, help="how many are drawn (%(default)s)")
    parser.add_argument("seed", type=int, nargs="?", default=1, help="what they are drawn by (%(default)s)")
    return parser.parse_args()
