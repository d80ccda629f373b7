#!/usr/bin/env python3
"""Checks the table of the crates in docs/ARCHITECTURE.md against crates.txt. Prints a line for each finding, which says what to do.

The table has each crate of crates.txt in one row, in the order and under the headings of crates.txt, and its column "Stands on" names the nearest crates
of this repository: those of a crate's own that no other of its own stands on. A row may have several crates, where they stand on the same ones.
With --write that column is written anew, and the other columns are kept.
"""
import re
import sys
from pathlib import Path

from arguments import parser_of

CRATES = Path("crates.txt")
PAGE = Path("docs/ARCHITECTURE.md")
HEAD = "| Crate | What it does | Stands on | Page |"
NAME = re.compile(r"`(\w+)`")
HEADING = re.compile(r"\*\*(.+)\*\*")
COLUMN = 2


def read_crates():
    """The entries of crates.txt, which are headings and crates in order, and the crates of this repository that each stands on."""
    entries, below = [], {}
    for line in CRATES.read_text().splitlines()[1:]:
        if line.startswith("# "):
            entries.append(("heading", line[2:]))
        elif line:
            crate, _, names = line.partition(":")
            entries.append(("crate", crate))
            below[crate] = names.split()
    return entries, {crate: [it for it in names if it in below] for crate, names in below.items()}


def reach_of(crate, below):
    """All crates that a crate stands on."""
    reached, waiting = set(), list(below[crate])
    while waiting:
        name = waiting.pop()
        if name not in reached:
            reached.add(name)
            waiting += below[name]
    return reached


def nearest(crate, below):
    """The crates that a crate stands on and that none of the others stands on, in the order of crates.txt."""
    reached = reach_of(crate, below)
    behind = set().union(*(reach_of(it, below) for it in reached))
    return [it for it in below if it in reached - behind]


def cell_of(names):
    return ", ".join(f"`{it}`" for it in names)


def rows_of(lines):
    """The rows of the table: the index of the line, and its cells."""
    start = lines.index(HEAD) + 2
    for index in range(start, len(lines)):
        if not lines[index].startswith("|"):
            return
        yield index, [it.strip() for it in lines[index].strip("|").split("|")]


def line_of(cells):
    return "|" + "|".join(f" {it} " if it else " " for it in cells) + "|"


def findings_of(lines, entries, below):
    """What of the table isn't as crates.txt says."""
    table = []
    for index, cells in rows_of(lines):
        place = f"{PAGE}:{index + 1}"
        heading = HEADING.fullmatch(cells[0])
        names = NAME.findall(cells[0])
        if heading:
            table.append(("heading", heading.group(1), place))
        elif not names:
            yield f"{place}: the row names no crate; write its name in the first column"
        table += [("crate", name, place) for name in names]
        for name in names:
            if name in below and cells[COLUMN] != cell_of(nearest(name, below)):
                yield f"{place}: {name} stands on {cell_of(nearest(name, below)) or 'nothing'}; run  python3 tools/crate_table.py --write"
    for kind, name in entries:
        times = sum((it[0], it[1]) == (kind, name) for it in table)
        if times != 1:
            yield f"{PAGE}: the {kind} {name} is there {times} times; let it be there once"
    wanted = [it for it in entries if it in {(kind, name) for kind, name, _ in table}]
    for (kind, name, place), expected in zip(table, wanted):
        if (kind, name) not in entries:
            yield f"{place}: {CRATES} has no {kind} {name}; remove it"
            return
        if (kind, name) != expected:
            yield f"{place}: {name} stands where {CRATES} has {expected[1]}; put the rows in its order"
            return
    for kind, name, place in table[len(wanted):]:
        yield f"{place}: the {kind} {name} is one too many; remove it"


def findings():
    """What of the table isn't as crates.txt says, a line for each."""
    lines = PAGE.read_text().splitlines()
    if HEAD not in lines:
        return [f"{PAGE}: the table of the crates isn't there; its head is  {HEAD}"]
    return list(findings_of(lines, *read_crates()))


def write():
    lines, (_, below) = PAGE.read_text().splitlines(), read_crates()
    for index, cells in rows_of(lines) if HEAD in lines else []:
        names = [it for it in NAME.findall(cells[0]) if it in below]
        if names:
            cells[COLUMN] = cell_of(nearest(names[0], below))
            lines[index] = line_of(cells)
    PAGE.write_text("\n".join(lines) + "\n")


def main():
    parser = parser_of(__doc__)
    parser.add_argument("--write", action="store_true", help="write the column anew")
    if parser.parse_args().write:
        write()
    found = findings()
    for finding in found:
        print(finding)
    return 1 if found else 0


if __name__ == "__main__":
    sys.exit(main())
