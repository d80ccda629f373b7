#!/usr/bin/env python3
"""Compares the tables of docs/program/cli.md, and docs/program/stack.1, with guide/commands.txt, of which they are made. Prints a line for each difference.

With --write the two pages are written anew. The exit status is 1 where there is a difference that --write doesn't mend.
"""
import re
import sys
from itertools import groupby
from pathlib import Path

TOP = Path(__file__).resolve().parents[1]
sys.path.insert(0, str(TOP / "guide"))

from arguments import parser_of  # noqa: E402
from catalog import plain, read_catalog, row  # noqa: E402

CLI, MANUAL = TOP / "docs/program/cli.md", TOP / "docs/program/stack.1"
# Beside the script.
FILES = [
    ("PROVED", "of a release: which commit it is, and how its program was proved."),
    ("guide/completion.bash", "completes the words in bash."),
    ("crates/cli_stack/out/cli_stack", "the program."),
]
MEND = "run  python3 tools/help_pages.py --write"


def table(head, rows):
    return "\n".join([head, re.sub(r"[^|]+", "---", head), *rows]) + "\n"


def tables_of(catalog):
    """The tables of docs/program/cli.md, each with its head."""
    commands = [f"| `{row(it)}` | {it.does} | {it.prints} |" for it in catalog.commands.values()]
    numbers = [(name, it) for name, it in catalog.words.items() if it.kind == "number"]
    grouped = groupby(numbers, lambda it: (it[1].range, it[1].means))
    words = [f"| {', '.join(name for name, _ in group)} | {the_range} | {means} |" for (the_range, means), group in grouped]
    statuses = [f"| {it.number} | {it.line} | {it.means}{it.more} |".replace("|  |", "| |") for it in catalog.statuses]
    yield table("| Words | What it does | What it prints at status 0 |", commands)
    yield table("| Words of the script | What it does |", [f"| `{it.row}` | {it.does} |" for it in catalog.own.values()])
    yield table("| Word | Range | What it is |", words)
    yield table("| Status | Last line | Where |", statuses)


def with_tables(page, catalog):
    """The page with these tables in place of those that have the same heads."""
    for made in tables_of(catalog):
        head = made.split("\n")[0]
        start = page.index(head)
        page = page[:start] + made + re.sub(r"^(\|[^\n]*\n)+", "", page[start:])
    return page


def limits(page, catalog):
    """Files whose limit is another one in the table of roles."""
    roles = page.split("| Role | Files | Limit |")[1].split("\n\n")[0]
    for name, word in catalog.words.items():
        shown = [line.split("|")[3].strip() for line in roles.splitlines() if re.search(rf"\b{name}\b(?! of)", line)]
        if word.limit and f"{word.limit:,}" not in shown:
            yield f"docs/program/cli.md: the limit of {name} is {word.limit:,} in guide/commands.txt, and {', '.join(shown)} in the table of roles"


def roff(text):
    """A text in the language of manual pages."""
    return re.sub(r"^([.'])", r"\\&\1", plain(text).replace("\\", "\\e").replace("-", "\\-"), flags=re.M)


def entries(pairs):
    """A heading and a text for each pair."""
    return [line for head, text in pairs for line in (".TP", f".B {roff(head)}", roff(text))]


def manual(catalog):
    """The manual page."""
    words = [(name, f"{it.range or 'a file'}: {it.means}") for name, it in catalog.words.items()]
    statuses = [(f"{it.number}  {it.line}" if "`" in it.line else f"{it.number}", it.means) for it in catalog.statuses]
    examples = list(dict.fromkeys(it for command in catalog.commands.values() for it in command.examples))
    lines = ['.\\" Made of guide/commands.txt by tools/help_pages.py', ".TH STACK 1", ".SH NAME"]
    lines += ["stack \\- compiles, links, runs and shows programs of the verified short stack", ".SH SYNOPSIS"]
    lines += [".B ./stack", ".I COMMAND WORD ..", ".br", ".B ./stack help", ".RI [ COMMAND ]", ".SH DESCRIPTION"]
    lines += ["The script starts the proved program in the current folder. What isn't built yet runs unproved, as a trial, and"]
    lines += [".B ./stack prove", "proves and builds it."]
    lines += ["Standard output and the status are the program's. On a terminal standard error says more: what a refusal means and"]
    lines += ["where it is, what was stored, how far a run is, and that a file would be lost.", ".SH COMMANDS"]
    lines += entries((row(it), it.does + ".") for it in catalog.commands.values())
    lines += [".SH WORDS OF THE SCRIPT", *entries((it.row, it.does + ".") for it in catalog.own.values())]
    lines += [".SH WORDS", *entries(words), ".SH EXIT STATUS", *entries(statuses), ".SH ENVIRONMENT", *entries(catalog.variables.items())]
    lines += [".SH FILES", *entries(FILES), ".SH EXAMPLES", ".nf", *map(roff, examples), ".fi"]
    lines += [".SH SEE ALSO", "docs/program/cli.md, docs/program/errors.md, README.md"]
    return "\n".join(lines) + "\n"


def main(words=None):
    parser = parser_of(__doc__)
    parser.add_argument("--write", action="store_true", help="write the two pages anew")
    write = parser.parse_args(words).write
    catalog = read_catalog()
    page = CLI.read_text()
    made = {CLI: with_tables(page, catalog), MANUAL: manual(catalog)}
    findings = list(limits(page, catalog))
    for path, text in made.items():
        if not path.exists() or path.read_text() != text:
            if write:
                path.write_text(text)
            else:
                findings.append(f"{path.relative_to(TOP)} isn't as guide/commands.txt has it: {MEND}")
    print("\n".join(findings), end="\n" if findings else "")
    return 1 if findings else 0


if __name__ == "__main__":
    sys.exit(main())
