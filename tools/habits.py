#!/usr/bin/env python3
"""Counts in pages what docs/working/style.md advises against, a line for each page and habit. It helps a writer, and refuses nothing.

    python3 tools/habits.py [--show HABIT] [PAGE ..]       all pages of documents where none is named

What stands in blocks and between backquotes isn't looked at. `--show` prints the places of one habit.
"""
import argparse
import re
import subprocess
import sys
from pathlib import Path

LONG = 30
SENTENCE = re.compile(r"(?<=[.!?:])\s+(?=[A-Z*`\[])|\n\s*\n|\n(?=[-|#\d])")
# Each habit with its pattern, and what stands in its place.
HABITS = {
    "where": (r"\b[Ww]here\b", "if, or when"),
    "as": (r"(?<=[,(]) ?as (?:\[|`|the |a |an |in |does )", "such as, like, for example"),
    "subject": (r"(?m)^(?:- )?(?:Assigns|Sorts|Goes|Adds|Prints|Counts|Makes|Says|Tells|Does|Has|Runs|Reads|Takes|Writes) ", "say who does it"),
    "household": (r"\b(?:tells?|told|hands? over|handed|lends?|lent|stands? (?:in|at|for|beside)|comes? to be)\b", "print, pass, borrow, is in, becomes"),
    "home-made": (r"\b(?:shelf|sink|tally|heap may refuse|wrong change|is done|mark of)\b", "file system, output, counter, allocator, mutant, terminates, program point"),
    "semicolon": (r";", "a full stop, or and"),
    "passive negative": (r"\bis no\b|\bare no\b|\bthat is none\b", "is not a"),
}
# What a page for readers has, and which page has too little of it.
WANTED = {"for example": r"\bfor example\b|\bFor example\b", "because": r"\b[Bb]ecause\b", "you": r"\b[Yy]ou(?:r)?\b", "if": r"\b[Ii]f\b|\b[Ww]hen\b"}


def prose_of(text):
    """The text without blocks, and with each piece between backquotes as one word; lines stay where they are."""
    blank = re.sub(r"(?m)^ {4,}.*$", "", re.sub(r"(?ms)^```.*?^```$", lambda it: "\n" * it.group().count("\n"), text))
    return re.sub(r"`[^`\n]*`", "`x`", re.sub(r"\]\([^)\n]*\)", "]", blank))


def sentences(prose):
    return [it for it in SENTENCE.split(prose) if len(it.split()) > 2]


def row(path):
    """What one page has of each."""
    prose = prose_of(path.read_text(encoding="utf-8"))
    words, lengths = len(prose.split()), [len(it.split()) for it in sentences(prose)]
    counts = [f"{name} {len(re.findall(pattern, prose))}" for name, (pattern, _) in HABITS.items()]
    wanted = [f"{name} {len(re.findall(pattern, prose))}" for name, pattern in WANTED.items()]
    long = sum(it > LONG for it in lengths)
    return f"{path}: {words} words, {len(lengths)} sentences, {long} over {LONG} words; {', '.join(counts)}. Wanted: {', '.join(wanted)}"


def places(path, habit):
    """The lines that have a habit."""
    for number, line in enumerate(prose_of(path.read_text(encoding="utf-8")).splitlines(), 1):
        for found in re.finditer(HABITS[habit][0], line):
            yield f"{path}:{number}: {line[max(found.start() - 40, 0):found.end() + 40].strip()}    ({HABITS[habit][1]})"


def main():
    parser = argparse.ArgumentParser(description="Counts what docs/working/style.md advises against.")
    parser.add_argument("--show", choices=HABITS, help="print the places of one habit")
    parser.add_argument("pages", type=Path, nargs="*")
    words = parser.parse_args()
    pages = words.pages or [Path(it) for it in subprocess.run(["git", "ls-files", "*.md"], capture_output=True, text=True, check=True).stdout.split()]
    for path in pages:
        print("\n".join(places(path, words.show)) if words.show else row(path))


if __name__ == "__main__":
    sys.exit(main())
