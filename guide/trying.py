"""Runs a source with as few words as can be, or prints values for it.

    trying.py PROGRAM try SRC [NAME=VALUE ..]       runs it: sizes by `need`, or 1,000 each; values 0 and false where none is given
    trying.py PROGRAM try TEXT                      runs a text of Piton or of assembly, and prints what it leaves in its areas, or in words with a label
    trying.py PROGRAM values SRC [NAME=VALUE ..]    prints the values, for a file to edit

A program of the infix language is lowered first. What `try` stores is in a folder of its own, which is removed; the lines that do the same with
files are told on standard error. With STACK_UNPROVED=1 PROGRAM isn't proved, and asked no more than is needed, since each answer takes a minute.
"""
import os
import re
import subprocess
import sys
import tempfile
from pathlib import Path

import ends
import explain
import help as usage
import trying_texts
from infix_sources import InfixSource, own
from places import Source
from printed import moment_of, shows_of
from program import MOST_TEXT, Refused, read_text
from sources import NAME, NUMERAL, number_of

BUDGET, SIZE = 1_000_000_000, 1000
# A run that takes longer is told where it stands; and in how many of its last steps it is looked for where a condition was raised.
PATIENCE, LOOKED = 10_000_000, 200
# The most items of an array, and the most variables of a procedure.
MOST_ITEMS, MOST_FORMALS = 4096, 200
ZERO = {"integer": "0", "boolean": "false", "character": "#0"}
DECLARATION = re.compile(r"\s*(int|bool)\s+([A-Za-z][A-Za-z0-9_]*)\s*;")
UNPROVED = os.environ.get("STACK_UNPROVED") == "1"


class Ended(Exception):
    """The command ends here: a status, what is printed, and what is told on standard error."""

    def __init__(self, status, printed="", told=""):
        super().__init__(told)
        self.status, self.printed, self.told = status, printed, told


def ended(status, printed, words, names=()):
    """The end of a command of the program, with what is told of it; `names` are files that were made, and what they are called here."""
    told = "" if UNPROVED else "\n".join(explain.lines_of(status, printed[-4096:], words))
    for path, name in names:
        printed, told = printed.replace(path, name), told.replace(path, name)
    return Ended(status, printed, told)


def run(program, words, names=()):
    """What the program prints on these words, where it comes to its end."""
    ran = subprocess.run([program, *words], stdout=subprocess.PIPE, text=True, errors="replace", check=False)
    if ran.returncode:
        raise ended(ran.returncode, ran.stdout, words, names)
    return ran.stdout


def read_whole(path):
    """The bytes of a text, by its limit, and what kind of text it is: nothing for a source; or the end of the command."""
    try:
        content = read_text(path, max(trying_texts.LIMITS.values()))
    except FileNotFoundError:
        raise ended(9, f"missing {path}\n", ["check", path]) from None
    except OSError:
        raise ended(10, f"shelf fault {path}\n", ["check", path]) from None
    kind = trying_texts.kind_of(content)
    limit = trying_texts.LIMITS.get(kind, MOST_TEXT)
    if len(content) > limit:
        raise ended(12, f"size file {limit}\n", [{"piton": "pcheck", "assembly": "asm"}.get(kind, "check"), path])
    return content, kind


def read_source(path):
    """The text of a source, or the end of the command."""
    return read_whole(path)[0].decode("utf-8", "replace")


def is_text(name):
    """Whether a name is text in UTF-8."""
    return not any("\ud800" <= it <= "\udfff" for it in name)


def is_infix(text):
    """Whether a text is one of the infix language: a source of Micro-Gypsy begins with a list or a comment."""
    return re.match(r"\s*[A-Za-z]", text) is not None


def formals_of(text):
    """The names and types of main's formals, or of the declared variables of an infix program."""
    if is_infix(text):
        place, found = 0, []
        while declared := DECLARATION.match(text, place):
            found.append((declared.group(2), {"int": "integer", "bool": "boolean"}[declared.group(1)]))
            place = declared.end()
        return found
    _, main, *procedures = explain.tree_of(text.encode())
    formals = next(it[2] for it in procedures if it[1] == main)
    return [(name_of(name), [it.decode() for it in kind] if isinstance(kind, list) else kind.decode()) for name, kind in formals]


def name_of(atom):
    """A name, as the program reads it."""
    if not NAME.fullmatch(atom.decode()):
        raise ValueError(atom)
    return atom.decode()


def length_of(numeral):
    """The length of an array, as the program reads it."""
    length = number_of(numeral, MOST_ITEMS) if NUMERAL.fullmatch(numeral) else 0
    if not 1 <= length <= MOST_ITEMS:
        raise ValueError(numeral)
    return length


def zero_of(kind):
    """The value that a variable of this type has where none is given."""
    if isinstance(kind, str):
        return ZERO[kind]
    _, simple, length = kind
    return f"({' '.join([ZERO[simple]] * length_of(length))})"


def value_of(kind, given):
    """A value as a values file has it: an array's may be given without its parentheses, and with commas; a text stands for its characters."""
    given = given.strip()
    if isinstance(kind, list) and kind[1] == "character" and not re.search(r"#\d", given):
        return f"({' '.join(f'#{ord(it)}' for it in given)})"
    given = given.replace(",", " ")
    return f"({given})" if isinstance(kind, list) and not given.startswith("(") else given


def values_of(text, words):
    """The values of a source, in the text of a values file: those given by words NAME=VALUE, and 0 and false."""
    try:
        formals = formals_of(text)
        zeros = [zero_of(kind) for _, kind in formals[:MOST_FORMALS]]
    except (ValueError, StopIteration, IndexError, KeyError, TypeError, AttributeError):
        raise Ended(1, told="stack: the variables of the source can't be read: check says what is wrong with it") from None
    given = dict(it.split("=", 1) if "=" in it else (it, None) for it in words)
    for name, value in given.items():
        if value is None or name not in dict(formals):
            what = "is no NAME=VALUE" if value is None else "names no formal of main"
            there = ", ".join(f"{it}=" for it, _ in formals) or "none"
            raise Ended(1, told=f"stack: {usage.shown(name)} {what}. These can be given: {there}")
    rows = [f"({name} {value_of(kind, given[name]) if name in given else zero})" for (name, kind), zero in zip(formals, zeros)]
    return f"({' '.join(rows)})\n"


def lower(program, source, text, room):
    """The path of a source of Micro-Gypsy that means the same."""
    if not is_infix(text):
        return source
    lowered = os.path.join(room, "lowered.gypsy")
    run(program, ["mini", source, lowered])
    return lowered


def sizes_of(program, source, room):
    """The sizes of the stacks that are enough for any values, or 1,000 each where there are none."""
    if UNPROVED:
        return [str(SIZE)] * 2
    try:
        return run(program, ["need", source, os.path.join(room, "cert")]).split()[1::2]
    except Ended as end:
        if end.status == 17:
            return [str(SIZE)] * 2
        raise


class Asked:
    """What `try` has made of a source, to ask the program more of the same run."""

    def __init__(self, program, room, lowered, sizes, infix=None):
        self.program, self.room, self.lowered, self.sizes, self.infix = program, room, lowered, sizes, infix
        self.values, self.image = os.path.join(room, "values"), os.path.join(room, "image")

    def go(self, budget):
        return run(self.program, ["go", self.lowered, self.values, *self.sizes, str(budget), self.image], [(self.values, "VALS"), (self.image, "IMG")])

    def session(self, script):
        """What a session at the source's level says; nothing where it isn't carried out."""
        path = os.path.join(self.room, "script")
        Path(path).write_text(script, encoding="utf-8")
        words = [self.program, "debug", "gypsy", self.lowered, self.values, *self.sizes, path]
        ran = subprocess.run(words, stdout=subprocess.PIPE, text=True, errors="replace", check=False)
        return "" if ran.returncode else ran.stdout

    def told(self, moment):
        """Where a moment is, in lines: its place and statement, and the variables of its procedure."""
        lowered = Path(self.lowered).read_bytes()
        source = Source(lowered) if self.infix is None else InfixSource(self.infix, lowered)
        place = moment.place if self.infix is None else source.statement_at(moment.place)
        variables = moment.variables if self.infix is None else own(moment.variables)
        values = ", ".join(f"{name} = {value}" for name, value in variables.items()).replace(" = ", f"{explain.UNBROKEN}={explain.UNBROKEN}")
        yield f"    {source.where(place)}  {source.statement(place)}"
        yield explain.wrapped(f"in {source.procedure(moment.place)}: {values}" if self.infix is None else values)

    def standing(self):
        """Where a run stands that takes long, in lines."""
        moments = [moment_of(it) for it in shows_of(self.session(f"step {PATIENCE // 10}\nshow\n")) if it]
        if moments and moments[0].place is not None:
            yield f"stack: {PATIENCE:,} instructions weren't enough. After {PATIENCE // 10:,} steps the source is here, and it goes on up to {BUDGET:,} instructions:"
            yield from self.told(moments[0])

    def raised(self, printed):
        """Where the condition was raised with which a run ended, in lines; none where that is normal."""
        condition = re.search(r"^condition (.*)$", printed, re.M)
        if not condition or condition[1] == "normal":
            return
        found = re.fullmatch(r"stepped (\d+) ended\n", self.session(f"step {PATIENCE}\n"))
        if not found:
            return
        before = max(int(found[1]) - LOOKED, 0)
        script = (f"step {before}\n" if before else "") + "show\n" + "step 1\nshow\n" * (int(found[1]) - before)
        moments = [moment_of(it) for it in shows_of(self.session(script)) if it]
        normal = [it for it in moments if it.place is not None and it.condition == "normal"]
        if normal and moments[-1].condition == condition[1]:
            yield f"stack: the condition {condition[1]} was raised here:"
            yield from self.told(normal[-1])


def tell(lines):
    """Says lines on standard error."""
    text = "\n".join(lines)
    if text:
        print(text, file=sys.stderr, flush=True)


def same_lines(source, text, words, sizes):
    """The lines that do the same with files."""
    stem = Path(source).stem
    quoted = " ".join(map(explain.quoted, words))
    path, infix = explain.quoted(source), is_infix(text)
    values, lowered, image = (explain.quoted(f"{stem}.{it}") for it in ("values", "gypsy", "image"))
    yield f"{usage.SELF} values {path}{' ' if words else ''}{quoted} >{values}"
    if infix:
        yield f"{usage.SELF} mini {path} {lowered}"
    yield f"{usage.SELF} go {lowered if infix else path} {values} {' '.join(sizes)} {BUDGET} {image}"


def try_source(program, source, *words):
    content, kind = read_whole(source)
    text = content.decode("utf-8", "replace")
    with tempfile.TemporaryDirectory() as room:
        path = source
        if not os.path.isfile(source) or not is_text(source):
            # It has been read, which may be possible once alone; and the program takes no name that isn't text.
            path = os.path.join(room, "source")
            Path(path).write_bytes(content if kind else text.encode())
        try:
            if kind:
                try_other(program, room, path, source, content, kind, words)
            else:
                asked = Asked(program, room, lower(program, path, text, room), [], text if is_infix(text) else None)
                try_text(asked, source, text, words)
        except Ended as end:
            end.printed, end.told = end.printed.replace(path, source), end.told.replace(path, source)
            raise


def try_text(asked, source, text, words):
    """Runs a text in the room that it was given."""
    if not UNPROVED:
        run(asked.program, ["check", asked.lowered])
    Path(asked.values).write_text(values_of(text, words), encoding="utf-8", errors="surrogateescape")
    asked.sizes = sizes_of(asked.program, asked.lowered, asked.room)
    try:
        printed = run_patiently(asked)
        print(printed, end="", flush=True)
        tell(asked.raised(printed) if not UNPROVED else [])
    except Ended as end:
        if end.status == 3:
            # The values come from the command line, and no file has them.
            end.told = re.sub(r"^VALS:", "the values:", end.told)
            end.told = "\n".join(filter(None, [end.told, *wrong_lengths(text, words)]))
        raise
    finally:
        tell(["stack: the same with files:", *(f"    {it}" for it in same_lines(source, text, words, asked.sizes))])


def try_other(program, room, path, source, content, kind, words):
    """Runs a text of Piton or of assembly. The program that makes of it what the processor runs, and the run, are asked apart."""
    if words:
        raise Ended(1, told=f"stack: {usage.shown(words[0])} is for a source: this text has its words in itself")
    image = os.path.join(room, "linked")
    try:
        if kind == "piton":
            printed = run(program, ["prun", path, str(BUDGET)])
            print(printed, end="", flush=True)
            if not UNPROVED:
                run(program, ["pbuild", path, image], [(image, "IMG")])
                print(trying_texts.after_piton(program, room, image, printed), end="", flush=True)
        else:
            run(program, ["asm", path, image], [(image, "IMG")])
            print(trying_texts.after_assembly(program, room, image, content, BUDGET), end="", flush=True)
    except Refused as refused:
        raise ended(refused.status, refused.text + "\n", ["run", "IMG", "VALS", str(BUDGET)]) from None
    finally:
        tell(["stack: the same with files:", *(f"    {it}" for it in other_lines(source, kind))])


def other_lines(source, kind):
    """The lines that do the same with files, of a text of Piton or of assembly."""
    path, (image, values) = explain.quoted(source), (explain.quoted(f"{Path(source).stem}.{it}") for it in ("image", "values"))
    if kind == "piton":
        yield f"{usage.SELF} prun {path} {BUDGET}"
    yield f"{usage.SELF} {'pbuild' if kind == 'piton' else 'asm'} {path} {image}"
    yield f"echo '()' >{values}"
    yield f"{usage.SELF} end {image} {values} {BUDGET}"


def run_patiently(asked):
    """What `go` prints. Where a long run stands is told."""
    if UNPROVED:
        return asked.go(BUDGET)
    try:
        return asked.go(PATIENCE)
    except Ended as end:
        if end.status != 5:
            raise
        tell(asked.standing())
        return asked.go(BUDGET)


def wrong_lengths(text, words):
    """Of each array that isn't given as many items as it has, how many these are, in lines."""
    kinds = dict(formals_of(text))
    for name, value in (it.split("=", 1) for it in words):
        kind = kinds[name]
        items = value_of(kind, value).strip("() ").split()
        if isinstance(kind, list) and len(items) != length_of(kind[2]):
            yield f"    {usage.shown(name)} has {kind[2]} items, and here {'is' if len(items) == 1 else 'are'} {len(items)}"


def print_values(_, source, *words):
    text = values_of(read_source(source), words)
    print(text.replace(") (", ")\n (") if "((" in text else text, end="")


def main(program, what, *words):
    if not words:
        ends.tell(f"wanted is {usage.SELF} {what} SRC [NAME=VALUE ..]")
        return 1
    try:
        (try_source if what == "try" else print_values)(program, *words)
        return 0
    except Ended as end:
        print(end.printed, end="", flush=True)
        print(end.told, file=sys.stderr, end="\n" if end.told else "")
        return end.status


if __name__ == "__main__":
    ends.end(lambda: main(*sys.argv[1:]))
