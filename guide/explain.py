"""Says on standard error what the last line of a command means: where the place is that it names, and what the rule wants.

    explain.py STATUS END WORD..    END is the end of what was printed, the words those of the command line

The sentences are those of docs/program/errors.md.
"""
import os
import re
import shlex
import sys
import textwrap
from collections import namedtuple

import assembly
import ends
import help as usage
import infix
import sources
from catalog import GUIDE, expected, plain, read_catalog
from sources import tree_of

PAGE = GUIDE.parent / "docs/program/errors.md"
# Stands for a space at which no line is broken.
UNBROKEN = "\0"
# How much of a long line is shown, in characters, and a row of bytes.
SHOWN, ROW = 92, 16
# What is judged by the rules of a last line that begins so.
JUDGED = {"refused": ("SRC", "PIT", "TEXT"), "values": ("VALS",), "image": ("IMG",), "certificate": ("CERT",), "script": ("SCRIPT",)}
BREACH = re.compile(r"(refused|values|image|certificate|script) ([A-Z]\d+) at (line )?(\d+)")
# The words that can be raised after a last line that begins so.
RAISED = {"size control": ("CTRL",), "size temporary": ("TEMP",), "unfinished": ("BUDGET", "LIMIT")}
# The fields of an image that are always at the same place.
FIELDS = {0: "magic", 4: "version", 8: "base", 12: "size", 16: "final pc", 84: "flags", 88: "condition address", 92: "number of conditions"}
FIELDS.update({20 + 4 * it: f"r{it}" for it in range(16)})

# A last line of the page, as a pattern with a group for each word in capitals, or else its status; and what is said of it.
Ending = namedtuple("Ending", "pattern status says next")


def rows_of_page():
    """The sentence of each rule, and the other last lines."""
    rules, endings = {}, []
    for line in PAGE.read_text(encoding="utf-8").splitlines():
        cells = [it.strip() for it in line.strip("|").split(" | ")]
        if re.match(r"\| [A-Z]\d+ \|", line):
            rules[cells[0]] = cells[1]
        elif len(cells) == 4 and cells[1].isdigit():
            endings.append(Ending(pattern_of(cells[0]), int(cells[1]), cells[2], cells[3]))
    return rules, endings


def pattern_of(cell):
    """The pattern of a last line, as `size control N`; none where the cell has no line."""
    if "`" not in cell:
        return None
    words = [f"(?P<{it}>{'.*' if it == 'NAME' else '[^ ]+'})" if it.isupper() else re.escape(it) for it in cell.strip("`").split(" ")]
    return re.compile(" ".join(words), re.DOTALL)


class Line:
    """The words of a command line, each with its name."""

    def __init__(self, catalog, words):
        self.catalog, self.words = catalog, words
        self.command = catalog.commands.get(words[0]) if words else None
        self.names = [None] + (expected(self.command, len(words) - 1) if self.command else [])

    def index(self, name, task=1):
        """Where the word of this name is; of `turns` that of the task. None where the command has none."""
        places = [it for it, other in enumerate(self.names) if other == name and it < len(self.words)]
        return places[min(task, len(places)) - 1] if places else None

    def lines(self, index, note=""):
        """The command line with a caret under one word."""
        before = " ".join([usage.SELF, *map(quoted, self.words[:index])]) + " "
        yield "    " + before + " ".join(map(quoted, self.words[index:]))
        yield " " * (4 + len(before)) + f"^ {note}".rstrip()

    def filled(self, text):
        """A text with this line's words in place of their names, in what can be pasted; without sentences on words that it doesn't have."""
        kept = []
        for sentence in re.split(r"(?<=[.?]) (?=[A-Z`])", text):
            names = [it for it in re.findall(r"\b[A-Z]+\b", sentence) if it in self.catalog.words]
            if all(self.index(it) is not None for it in names):
                kept.append(re.sub(r"`(\./stack [^`]*)`", self.pasted, sentence))
        return " ".join(kept)

    def pasted(self, found):
        command = re.sub(r"\b[A-Z]+\b", lambda it: quoted(self.words[self.index(it.group())]), found.group(1))
        return usage.own(command).replace(" ", UNBROKEN)


def quoted(word):
    """A word as a shell takes it, on one line."""
    if word.isprintable():
        return shlex.quote(word)
    escaped = "".join(it if it.isprintable() and it not in "'\\" else "".join(f"\\x{byte:02x}" for byte in os.fsencode(it)) for it in word)
    return f"$'{escaped}'"


def wrapped(text, head=""):
    """A text in lines, which break no command that can be pasted."""
    first = "" if head.startswith("stack") else "    "
    how = {"initial_indent": first, "subsequent_indent": "    ", "break_long_words": False, "break_on_hyphens": False}
    return textwrap.fill(head + plain(text), 100, **how).replace(UNBROKEN, " ")


def is_coloured():
    """Whether places are told in colours: on a terminal, unless NO_COLOR is set."""
    return sys.stderr.isatty() and not os.environ.get("NO_COLOR") and os.environ.get("TERM", "dumb") != "dumb"


def coloured(line):
    """A line for a terminal: a place in bold, a caret in red."""
    if re.fullmatch(r" *\^.*", line):
        return f"\033[1;31m{line}\033[0m"
    return re.sub(r"^(\S+:\d+:(?:\d+:)?|\S.*: byte \d+[^:]*:)", "\033[1m\\1\033[0m", line)


def text_lines(line, column):
    """A line of text, cut where it is long, with a caret under the column, which is counted from 0."""
    left = max(0, min(column - SHOWN // 2, len(line) - SHOWN))
    before, after = ".. " if left else "", " .." if left + SHOWN < len(line) else ""
    yield "    " + before + line[left:left + SHOWN].replace("\t", " ") + after
    yield " " * (4 + len(before) + column - left) + "^"


def byte_lines(data, place):
    """The row of bytes with a place, as `hexdump -C` has it, with a caret."""
    start = max(0, min(place, len(data) - 1)) // ROW * ROW
    row = data[start:start + ROW]
    digits = " ".join(f"{it:02x}" for it in row)
    yield f"    {start:08x}  {digits:{3 * ROW}} |{''.join(chr(it) if 32 <= it < 127 else '.' for it in row)}|"
    yield " " * (14 + 3 * (place - start)) + "^"


def headed(head, said):
    """What is said of a place, in lines that begin with it."""
    return textwrap.fill(head + plain(said), 100, subsequent_indent="    ", break_long_words=False, break_on_hyphens=False)


def is_text(line):
    return all(it.isprintable() or it == "\t" for it in line)


def placed(name, data, place, said):
    """Where a place of a text is, as FILE:LINE:COLUMN, what is said of it, and what stands there."""
    start = data.rfind(b"\n", 0, place) + 1
    end = data.find(b"\n", place)
    line = data[start:len(data) if end < 0 else end].rstrip(b"\r")
    number, column, text = data.count(b"\n", 0, place) + 1, place - start, None
    try:
        column, text = len(data[start:place].decode()), line.decode()
    except UnicodeDecodeError:
        pass
    yield headed(f"{name}:{number}:{column + 1}: ", said)
    yield from text_lines(text, column) if text is not None and is_text(text) else byte_lines(data, place)


def image_placed(name, data, place, said):
    """Where a place of an image is, what is said of it, and what stands there."""
    field = f", {FIELDS[place]}" if place in FIELDS else ""
    yield headed(f"{name}: byte {place}{field}: ", said)
    yield from byte_lines(data, place)


def script_placed(name, data, number, said):
    """A line of a script, and what is said of it. What is no text in it is shown as bytes."""
    start = 0
    for _ in range(number - 1):
        start = data.find(b"\n", start) + 1
    line = data[start:].split(b"\n")[0]
    strange = next((it for it, byte in enumerate(line) if not 32 <= byte < 127), None)
    yield headed(f"{name}:{number}: ", said)
    yield from text_lines(line.decode(), 0) if strange is None else byte_lines(data, start + strange)


def read(path):
    """The bytes of a file that can be read once more, or none."""
    try:
        if os.path.isfile(path):
            with open(path, "rb") as file:
                return file.read()
    except OSError:
        pass
    return None


def breach_lines(line, found, task, rules):
    """What is said of a rule that a file breaks."""
    kind, rule, by_line, place = found.groups()
    index = next((it for it in (line.index(name, task) for name in JUDGED[kind]) if it is not None), None)
    path = line.words[index] if index is not None else ""
    is_asked = kind == "script" and path == "-"
    data = None if is_asked or is_replaced(line, path) else read(path)
    name, place = usage.shown(path), int(place)
    said = f"{rule}: {rules.get(rule, '')}".rstrip()
    if data is None or (not by_line and place > len(data)):
        yield headed(f"{name}: ", said)
        yield wrapped("Its text can't be shown again, since it was replaced or is no file.")
    elif by_line:
        yield from script_placed(name, data, place, said)
    else:
        is_assembly = line.names[index] == "TEXT"
        at = assembly.where(rule, data, place) if is_assembly else place
        yield from image_placed(name, data, place, said) if kind == "image" else placed(name, data, at, said)
        yield from map(wrapped, assembly.wanted(rule, data, place) if is_assembly else [])
    if data is not None and kind == "refused" and line.names[index] == "SRC":
        hints = infix.wanted(rule, data, place) if line.words[0] == "mini" else sources.wanted(rule, data, place)
        yield from map(wrapped, hints)
    names = without_entry(line, task) if rule == "V4" else []
    if names:
        yield wrapped(f"Without an entry: {', '.join(names)}.")


def without_entry(line, task):
    """The formals of a source's main to which the values give nothing."""
    paths = [line.words[it] for it in (line.index(name, task) for name in ("SRC", "VALS")) if it is not None]
    texts = [None if is_replaced(line, it) else read(it) for it in paths]
    if len(texts) < 2 or None in texts:
        return []
    (_, main, *procedures), entries = map(tree_of, texts)
    formals = next(it[2] for it in procedures if it[1] == main)
    given = {name for name, _ in entries}
    return [name.decode() for name, _ in formals if name not in given]


def is_replaced(line, path):
    """Whether `go` has stored its image under the name of a file that it read."""
    try:
        return line.words[0] == "go" and os.path.samefile(path, line.words[-1])
    except OSError:
        return False


def instruction_at(data, program, place):
    """Where an instruction of a program stands in a Piton text, or None."""
    items, name = [], None
    for token, at in sources.tokens(data):
        if token == b")":
            items.pop()
            continue
        if items:
            items[-1] += 1
        # A system's programs are its items from the eighth on, and a program's instructions its items from the fourth on.
        if len(items) == 2 and items[0] >= 8:
            name = token if items[1] == 1 else name
            if name == program and items[1] == place + 4:
                return at
        if token == b"(":
            items.append(0)
    return None


def error_lines(line, groups, said):
    """The instruction of a Piton text that is an error."""
    index = line.index("PIT")
    data = read(line.words[index]) if index else None
    place = instruction_at(data, groups["PROGRAM"].encode(), int(groups["PLACE"])) if data else None
    if place is not None:
        yield from placed(usage.shown(line.words[index]), data, place, said)


def file_lines(line, path):
    """A name of a file on the command line, and names like it that are there."""
    index = next((it for it, word in enumerate(line.words) if it and word == path), None)
    if index is not None:
        yield from line.lines(index, "to be stored" if line.names[index] == line.command.stores else "to be read")
    folder = os.path.dirname(path) or "."
    if not os.path.isdir(folder):
        yield wrapped(f"There is no folder {usage.shown(folder)} either.")
    elif not os.path.exists(path):
        from difflib import get_close_matches

        there = [os.path.join(os.path.dirname(path), it) for it in os.listdir(folder)]
        meant = get_close_matches(path, there, 2, 0.75)
        if meant:
            yield wrapped(f"Was {' or '.join(map(usage.shown, meant))} meant?")
    elif os.path.isdir(path):
        yield wrapped("It is a folder.")


def long_files(line, limit):
    """The files on the command line that are longer than this."""
    for index, name in enumerate(line.names[:len(line.words)]):
        word = line.catalog.words.get(name)
        if word and word.limit == limit and os.path.isfile(line.words[index]) and os.path.getsize(line.words[index]) > limit:
            yield from line.lines(index, f"{os.path.getsize(line.words[index]):,} bytes")


def detail_lines(line, text, groups):
    """The place that a last line speaks of: in a file, or on the command line."""
    if text.startswith("error"):
        yield from error_lines(line, groups, text)
    elif text.startswith(("missing", "shelf fault")):
        yield from file_lines(line, groups["NAME"])
    elif text.startswith("size file"):
        yield from long_files(line, int(groups["N"]))
    else:
        for index in filter(None, map(line.index, RAISED.get(text.rstrip(" 0123456789"), ()))):
            yield from line.lines(index, line.names[index])


def ending_lines(line, endings, status, printed):
    """What is said of another last line."""
    for ending in endings:
        if ending.status != status:
            continue
        if ending.pattern is None:
            yield wrapped(line.filled(f"{ending.says} {ending.next}"), "stack: ")
            return
        found = next(filter(None, map(ending.pattern.fullmatch, printed)), None)
        if found:
            groups = {key: usage.shown(it) for key, it in found.groupdict().items()}
            # The names of the command line's words come first: what is put in for a group may look like one.
            says, after = (line.filled(it) for it in (ending.says, ending.next))
            said = re.sub(r"\b[A-Z]+\b", lambda it: groups.get(it.group(), it.group()), f"{says}\n{after}").split("\n")
            yield wrapped(said[0], "stack: ")
            yield from detail_lines(line, found.group(), found.groupdict())
            yield from [wrapped(said[1])] if said[1] else []
            return


def lines_of(status, end, words):
    """What is said of a command that ended so."""
    catalog = read_catalog()
    if status == 1:
        return usage.misfit(catalog, words)
    line, (rules, endings) = Line(catalog, words), rows_of_page()
    printed = end.rstrip("\n").split("\n")
    found = BREACH.fullmatch(printed[-1])
    if found:
        task = re.fullmatch(r"task (\d+)", printed[-2]) if len(printed) > 1 else None
        return list(breach_lines(line, found, int(task.group(1)) if task else 1, rules))
    # A name may have line ends: then the whole is the line.
    return list(ending_lines(line, endings, status, [end.rstrip("\n"), *reversed(printed)]))


def main(status, end, *words):
    lines = ends.shown("\n".join(lines_of(int(status), end, list(words))))
    if is_coloured():
        lines = "\n".join(map(coloured, lines.split("\n")))
    sys.stderr.write_as_it_is(lines + ("\n" if lines else ""))
    return 0


if __name__ == "__main__":
    ends.end(lambda: main(*sys.argv[1:]))
