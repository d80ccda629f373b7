#!/usr/bin/env python3
"""Counts the lines that the specification and the proof of each proved example take, and keeps the table in docs/proved/verifying.md.

    python3 tools/proof_lines.py [--write]

A row of the table names the example's file first, and ends with both numbers of lines: those of crates/proved_programs/specs/NAME.antt and
of NAMELaws.antt, NAMERules.antt and NAMERuns.antt in crates/proved_programs/proofs, without imports, comments and blank lines, where
specs/Texts/NAME.antt has the file's text.
Without --write it prints the rows that say something else, and ends with status 1 where there is one.
"""
import re
import sys
from pathlib import Path

from arguments import parser_of

TOP = Path(__file__).resolve().parents[1]
CRATE = TOP / "crates" / "proved_programs"
PAGE = TOP / "docs/proved/verifying.md"
PARTS = ("Laws", "Rules", "Runs")
TEXT_OF = re.compile(r"^-- The text of (\S+) and its program")
ROW = re.compile(r"^(\| `(examples/\S+)` \|.*\|) \d+ \| \d+ \|$")


def lines_of(path):
    """How many lines of a page are neither imports nor comments nor blank."""
    lines = (line.strip() for line in path.read_text().splitlines())
    return sum(1 for line in lines if line and not line.startswith(("--", "use ", "pub use ")))


def counts():
    """The numbers of lines of each example's specification and proof, by its file."""
    for text in sorted((CRATE / "specs" / "Texts").glob("*.antt")):
        found = TEXT_OF.match(text.read_text())
        proofs = [path for part in PARTS if (path := CRATE / "proofs" / f"{text.stem}{part}.antt").exists()]
        if found and proofs:
            yield found.group(1), (lines_of(CRATE / "specs" / text.name), sum(map(lines_of, proofs)))


def renewed(line, known):
    """A row with the numbers that are counted now."""
    row = ROW.match(line)
    if not row or row.group(2) not in known:
        return line
    specification, proof = known[row.group(2)]
    return f"{row.group(1)} {specification} | {proof} |"


def main():
    parser = parser_of(__doc__)
    parser.add_argument("--write", action="store_true", help="write the table anew")
    chosen = parser.parse_args()
    known = dict(counts())
    old = PAGE.read_text().splitlines()
    new = [renewed(line, known) for line in old]
    if chosen.write:
        PAGE.write_text("\n".join(new) + "\n")
        return 0
    named = {row.group(2) for row in map(ROW.match, new) if row}
    others = [f"{PAGE.name} should say: {line}" for line, was in zip(new, old) if line != was]
    others += [f"{PAGE.name} has no row of {file}" for file in known if file not in named]
    print("\n".join(others), end="\n" if others else "")
    return 1 if others else 0


if __name__ == "__main__":
    sys.exit(main())
