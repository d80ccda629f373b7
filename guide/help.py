"""Says how the program is used, and what is wrong with words that fit no command.

    help.py help [COMMAND]    the help, or that of one command, on standard output: it was asked for
    help.py words WORD..      what is wrong with these words, on standard error; the status is 64 then, and 0 where they fit a command
"""
import os
import sys
import textwrap

import ends
from catalog import expected, plain, read_catalog, row

WIDTH = 100
MISFIT = 64
# How the script was called.
SELF = os.environ.get("STACK_SELF") or "./stack"


def own(text):
    """A text of a page with the script as it was called, in what can be pasted."""
    return text.replace("./stack ", f"{SELF} ")


# What serves on most days, with an example each.
FIRST = [
    ("./stack try examples/arrays/sum.gypsy 'a=(3 1 4 1 5)'", "runs a program"),
    ("./stack check examples/arrays/sum.gypsy", "is it correct?"),
    ("./stack trace SRC VALS CTRL TEMP", "step by step; try tells these words"),
    ("./stack page SRC VALS CTRL TEMP BUDGET OUT.html", "the same for the browser"),
    ("./stack go SRC VALS CTRL TEMP BUDGET IMG", "runs it and stores the image"),
]

# What a command that prints the report prints.
REPORT = (
    "The report of a run that came to its end is `finished K`, after K instructions, `condition C`, how main ended, and `NAME = VALUE` for each "
    "formal of main. Else it is the one line of the status."
)


def wrapped(text, indent, first=None):
    """The text in lines, set in; the first line may begin with something else."""
    return textwrap.fill(plain(text), WIDTH, initial_indent=indent if first is None else first, subsequent_indent=indent)


def word_lines(catalog, names, stored=""):
    """What the words with these names are, one of which may be the name of a file that is stored."""
    for name in names:
        word = catalog.words[name]
        limit = ", which is stored" if name == stored else f", at most {word.limit:,} bytes" if word.limit else ""
        yield wrapped(f"{word.range or 'a file'}: {word.means}{limit}", " " * 12, f"    {name:8}")


def status_lines(catalog, numbers=None):
    """The statuses with these numbers, or all."""
    for status in catalog.statuses:
        if numbers is None or status.number in numbers:
            line = plain(status.line) if "`" in status.line else ""
            yield wrapped(f"{line}: {status.means}" if line else status.means, " " * 12, f"    {status.number:2}      ")


def page(catalog):
    """The help: all commands, words and statuses."""
    yield f"{SELF} COMMAND WORD..    {SELF} help COMMAND tells more of one command, with an example"
    yield ""
    yield "To begin with:"
    yield from (f"    {own(line):64}{what}".rstrip() for line, what in FIRST)
    yield ""
    yield "Commands:"
    for command in catalog.commands.values():
        yield f"    {row(command)}"
        yield wrapped(command.does, " " * 12)
    yield ""
    yield "Words:"
    yield from word_lines(catalog, catalog.words)
    yield ""
    yield "Statuses, with the last line that is printed:"
    yield from status_lines(catalog)
    yield ""
    yield "Variables of the environment:"
    for name, means in catalog.variables.items():
        yield wrapped(own(f"{name}: {means}"), " " * 12, "    ")
    yield ""
    yield "Words of the script:"
    for it in catalog.own.values():
        yield f"    {it.row}"
        yield wrapped(own(it.does), " " * 12)
    yield ""
    yield "Two examples:"
    yield from (f"    {own(it)}" for it in catalog.own["try"].examples + catalog.commands["go"].examples)
    yield ""
    yield "docs/program/cli.md has it all; docs/program/errors.md explains each refusal; docs/program/page.md is on pages."


def command_page(catalog, command):
    """The help of one command."""
    yield f"{SELF} {row(command)}"
    yield wrapped(command.does, "    ")
    yield ""
    yield from word_lines(catalog, dict.fromkeys(it for it in command.words if it != ".."), command.stores)
    if command.words[-1] == "..":
        yield wrapped("one to eight pairs of SRC and VALS", " " * 12, "    ..      ")
    yield ""
    yield wrapped(f"It prints {command.prints}.", "    ", "")
    if "report" in command.prints:
        yield wrapped(REPORT, "    ")
    if command.ends:
        yield ""
        yield f"Statuses beside those of all commands ({SELF} help has them):"
        yield from status_lines(catalog, command.ends)
    yield ""
    yield "An example:"
    yield from (f"    {own(it)}" for it in command.examples)


def own_page(it):
    """The help of a word of the script."""
    yield f"{SELF} {it.row}"
    yield wrapped(own(it.does), "    ")
    yield ""
    yield "An example:"
    yield from (f"    {own(line)}" for line in it.examples)


def number_fault(name, word, given):
    """What is wrong with a word that is to be a number, or nothing."""
    if not (given.isascii() and given.isdigit()):
        return f"{name} is a number, {word.range}, and this is none"
    if len(given) > 20:
        return f"{name} has at most 20 digits"
    if not word.low <= int(given) <= word.high:
        return f"{name} is {word.range}"
    return ""


def word_fault(catalog, name, given):
    """What is wrong with one word, or nothing."""
    word = catalog.words[name]
    if word.kind == "number":
        return number_fault(name, word, given)
    if word.kind == "choice" and given not in word.range.replace(" or ", ", ").split(", "):
        return f"{name} is {word.range}"
    return ""


def shown(word):
    """A word of the command line as it can be printed: on one line, without bytes that move the cursor."""
    return "".join(it if it.isprintable() else "?" for it in word) or "''"


def compared(catalog, command, given):
    """The words that a command takes, those that are given, and what is wrong with them; and whether anything is."""
    names = expected(command, len(given))
    lines, wrong = [], len(names) != len(given)
    width = max([len(shown(it)) for it in given] + [1])
    for index, name in enumerate(names):
        if index < len(given):
            fault = word_fault(catalog, name, given[index])
            wrong = wrong or bool(fault)
            lines.append(f"    {name:8}{shown(given[index]):{width}}    {fault}".rstrip())
        else:
            lines.append(f"    {name:8}{'':{width}}    {name} is missing: {plain(catalog.words[name].means)}")
    lines += [f"    {'':8}{shown(it):{width}}    one word too many" for it in given[len(names):]]
    return lines, wrong


def similar(catalog, name):
    """The rows of the commands that do what others call so, or else of those whose names are like this one, the likest first."""
    from difflib import get_close_matches

    known = {it.name: row(it) for it in catalog.commands.values()} | {it.name: it.row for it in catalog.own.values()}
    meant = [it.name for it in catalog.commands.values() if name.lower() in it.also]
    if not meant:
        meant = [it for it in known if name and it.startswith(name.lower())] + get_close_matches(name.lower(), known, 3, 0.5)
    return [known[it] for it in dict.fromkeys(meant)]


def misfit(catalog, words):
    """What is wrong with words that fit no command, in lines; none where they fit one."""
    if not words:
        return list(page(catalog))
    name, *given = words
    if name in catalog.commands:
        lines, wrong = compared(catalog, catalog.commands[name], given)
        head = [f"stack: {SELF} {row(catalog.commands[name])}"]
        return head + lines + [f"    {SELF} help {name} has an example"] if wrong else []
    meant = similar(catalog, name)
    head = f"stack: {shown(name)} is no command."
    if not meant:
        return [wrapped(f"{head} The commands are {', '.join(catalog.commands)}. {SELF} help has their words", "    ", "")]
    return [f"{head} Was one of these meant?"] + [f"    {SELF} {it}" for it in meant]


def help_of(catalog, words):
    """The help that is asked for."""
    name = words[0] if words else ""
    if not name or name in ("help", "--help", "-h"):
        return list(page(catalog))
    if name in catalog.commands:
        return list(command_page(catalog, catalog.commands[name]))
    if name in catalog.own:
        return list(own_page(catalog.own[name]))
    return misfit(catalog, words[:1])


def main(what, *words):
    catalog = read_catalog()
    lines = help_of(catalog, words) if what == "help" else misfit(catalog, words)
    print("\n".join(lines), file=sys.stdout if what == "help" else sys.stderr, end="\n" if lines else "")
    return MISFIT if lines and what == "words" else 0


if __name__ == "__main__":
    ends.end(lambda: main(*sys.argv[1:]))
