#!/usr/bin/env python3
"""Writes imports as one `use` for each crate, which Rust's formatter calls the granularity of crates.

    python3 tools/imports.py [--write] [CRATE ..]

In proof files it makes `use Rattle.CRATE.{specs.A.{a, b}, proofs.B.c}` from `use Rattle.CRATE.specs.A.{a, b}`, `use Rattle.CRATE.proofs.B.{c}`
and so on. In definitions it makes `use Rattle.CRATE.specs.{A.{a, b}, C.{d}}`, and in code `ghost use` of the same form: names stay in braces
there, where the kit looks for operators that mean something else than the library's. A line has at most 160 characters, in definitions 140;
what doesn't fit goes into a further one. Of code only lines next to each other are joined, so each import stays in its block. Names and their
order stay; an import of a module or of the logic keeps its line, and so do one under another name and one that is passed on. It prints for
each kind of file how many lines there are before and after, and changes files only with `--write`.
"""
import re
import sys
from collections import namedtuple
from itertools import groupby
from pathlib import Path

from arguments import parser_of

TOP = Path(__file__).resolve().parents[1]
USE = re.compile(r"( *(?:ghost )?use )(Rattle\.\w+)\.(.*\})(;?)$")
ANY_USE = re.compile(r"( *)(?:pub |ghost )*use ")

# How a kind of file has its imports: at most how wide; whether below the crate, with a name alone as it is, or below its `specs`, with all names
# in braces; and whether a file has several blocks of them, or one at its head.
Form = namedtuple("Form", "width is_below_crate has_blocks")
PROOFS, DEFINITIONS, CODE = Form(160, True, False), Form(140, False, False), Form(160, False, True)
KINDS = {"proofs/**/*.antt": PROOFS, "specs/**/*.antt": DEFINITIONS, "src/**/*.rt": CODE}


def parts_of(text):
    """The parts of a list in braces, at its commas."""
    depth, part = 0, ""
    for sign in text:
        depth += (sign == "{") - (sign == "}")
        if sign == "," and depth == 0:
            yield part.strip()
            part = ""
        else:
            part += sign
    if part.strip():
        yield part.strip()


def names_in(path, text):
    """The module and the name of each item of an import, as `({a, B.{c, d}})` has them."""
    if text.endswith("}"):
        before, inner = text[:-1].split("{", 1)
        below = ".".join(it for it in (path, before.rstrip(".")) if it)
        for part in parts_of(inner):
            yield from names_in(below, part)
    else:
        *modules, name = text.split(".")
        yield ".".join(it for it in (path, *modules) if it), name


def item_of(module, names, form):
    """How an import has these names of a module."""
    return f"{module}.{names[0]}" if form.is_below_crate and len(names) == 1 else f"{module}.{{{', '.join(names)}}}"


def line_of(start, items, end, form):
    """The line that imports names of these modules, each with its names."""
    if len(items) == 1:
        module, names = items[0]
        return f"{start}{module}.{{{', '.join(names)}}}{end}"
    return f"{start}{{{', '.join(item_of(*it, form) for it in items)}}}{end}"


def written(start, modules, end, form):
    """The lines that import these names of modules, each as full as can be."""
    lines, line = [], []
    for module, names in modules.items():
        for name in names:
            longer = [*line[:-1], (module, [*line[-1][1], name])] if line and line[-1][0] == module else [*line, (module, [name])]
            if line and len(line_of(start, longer, end, form)) > form.width:
                lines.append(line)
                longer = [(module, [name])]
            line = longer
    return [line_of(start, it, end, form) for it in [*lines, line]]


def joined(lines, form):
    """The lines of a block with one import for each crate, where its first one stood."""
    starts, made = {}, []
    for line in lines:
        found = USE.match(line)
        if not found:
            made.append([line])
            continue
        use, crate, rest, end = found.groups()
        for module, name in names_in("", rest):
            room, _, page = module.partition(".")
            start, below = (f"{use}{crate}.", module) if form.is_below_crate or not page else (f"{use}{crate}.{room}.", page)
            if start not in starts:
                starts[start] = {}, end
                made.append(start)
            starts[start][0].setdefault(below, []).append(name)
    return [line for it in made for line in (written(it, *starts[it], form) if isinstance(it, str) else it)]


def block_of(line):
    """How far an import is set in; nothing if the line is none."""
    found = ANY_USE.match(line)
    return found[1] if found else None


def grouped(text, form=PROOFS):
    """The text of a file with one import for each crate in each block of imports."""
    lines = text.split("\n")
    blocks = [list(block) for _, block in groupby(lines, block_of)] if form.has_blocks else [lines]
    return "\n".join(line for block in blocks for line in joined(block, form))


def apart(text):
    """The text of a file with an import of its own for each name, for whoever looks for modules or names."""
    lines = []
    for line in text.split("\n"):
        found = USE.match(line)
        lines += [f"{found[1]}{found[2]}.{module}.{{{name}}}{found[4]}" for module, name in names_in("", found[3])] if found else [line]
    return "\n".join(lines)


def main():
    parser = parser_of(__doc__)
    parser.add_argument("--write", action="store_true", help="change the files")
    parser.add_argument("crates", nargs="*", metavar="CRATE", help="all, if none is named")
    chosen = parser.parse_args()
    for kind, form in KINDS.items():
        before = after = 0
        for path in sorted((TOP / "crates").glob(f"*/{kind}")):
            if chosen.crates and path.relative_to(TOP).parts[1] not in chosen.crates:
                continue
            text = path.read_text()
            made = grouped(text, form)
            before, after = before + text.count("\n"), after + made.count("\n")
            if chosen.write and made != text:
                path.write_text(made)
        print(f"{kind}: {before} lines, {after} with an import for each crate")


if __name__ == "__main__":
    sys.exit(main())
