#!/usr/bin/env python3
"""Compares the texts that stand as definitions in crates/*/specs/Texts with the files that their first lines name, byte by byte.

Prints a line for each that differs, and ends with status 1 where there is one.
"""
import re
import sys
from pathlib import Path

sys.path.append(str(Path(__file__).resolve().parents[2] / "tools"))

from arguments import parser_of  # noqa: E402

NAMED = re.compile(r"^-- The text of (\S+) and its program")
LINE = re.compile(r'^ *(?:codes "(.*)" \+\+ )?10 ∷')


def text_in(page):
    """The bytes of the text that a page of definitions has."""
    lines = iter(page.splitlines())
    for line in lines:
        if re.fullmatch(r"\w+_text =", line):
            break
    found = []
    for line in lines:
        match = LINE.match(line)
        if not match:
            break
        found.append((match.group(1) or "") + "\n")
    return "".join(found)


def main():
    parser_of(__doc__).parse_args()
    status = 0
    for path in sorted(Path("crates").glob("*/specs/Texts/*.antt")):
        page = path.read_text()
        file = NAMED.match(page).group(1)
        if text_in(page) != Path(file).read_text():
            print(f"{path}: its text isn't that of {file}: run  python3 guide/definitions_of.py {file} {path.stem.lower()} >{path}")
            status = 1
    return status


if __name__ == "__main__":
    sys.exit(main())
