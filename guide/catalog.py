"""The commands of the program, their words and its statuses, as commands.txt has them."""
import re
from collections import namedtuple
from pathlib import Path

GUIDE = Path(__file__).resolve().parent

# A row of words, as `go SRC VALS CTRL TEMP BUDGET IMG`. `stores` is the word of the file that it stores, or nothing; `ends` are its
# statuses beside those of all commands; its examples are lines; `also` are words that others have for it.
Command = namedtuple("Command", "name words does prints stores ends examples also")
# A word of the script that is no command of the program, with its row.
Own = namedtuple("Own", "name row does examples")
# What a word of a row stands for. Of a number `low` and `high` are its bounds; of a file `limit` is the most bytes that are read, where
# there is such a limit, and `endings` are those that its name usually has.
Word = namedtuple("Word", "kind range low high means limit endings")
Status = namedtuple("Status", "number line means more")
Catalog = namedtuple("Catalog", "commands words variables statuses own")

MOST_TASKS = 8


def blocks(text):
    """The blocks of a text: of each the fields, each with its values."""
    for block in re.split(r"\n\s*\n", text):
        fields = {}
        for line in block.splitlines():
            if line.strip() and not line.startswith("#"):
                key, _, value = line.partition(" ")
                fields.setdefault(key, []).append(value.strip())
        if fields:
            yield fields


def number_in(text):
    """The number in a text, which may have commas."""
    return int(text.replace(",", ""))


def part_of(text, commands):
    """A part of a text; one that begins with a command in brackets is there only with that command."""
    found = re.match(r"\[(\w+)\] (.*)", text)
    return text if not found else found.group(2) if found.group(1) in commands else ""


def word_of(kind, fields):
    """The word of a block."""
    the_range = fields.get("range", [""])[0]
    bounds = [number_in(it) for it in re.findall(r"[\d,]*\d", the_range)[:2]] if kind == "number" else [None, None]
    limit = number_in(fields["limit"][0]) if "limit" in fields else None
    return Word(kind, the_range, *bounds, fields["means"][0], limit, fields.get("ending", [""])[0].split())


def read_catalog(text=None, waiting=False):
    """The catalog of commands.txt. Commands that wait for the program to have them are in it only where this is asked for."""
    commands, words, variables, statuses, own = {}, {}, {}, [], {}
    for fields in blocks(text or (GUIDE / "commands.txt").read_text(encoding="utf-8")):
        kind, (value, *_) = next(iter(fields.items()))
        if kind == "command":
            if waiting or "waits" not in fields:
                name, *names = value.split()
                does, prints, stores, ends, also = (fields.get(it, [""])[0] for it in ("does", "prints", "stores", "ends", "also"))
                commands[name] = Command(name, names, does, prints, stores, [int(it) for it in ends.split()], fields["example"], also.split())
        elif kind == "status":
            more = "".join(filter(None, (part_of(it, commands) for it in fields.get("more", []))))
            statuses.append(Status(int(value), fields["line"][0], fields["means"][0], more))
        elif kind == "own":
            own[value.split()[0]] = Own(value.split()[0], value, fields["does"][0], fields["example"])
        elif kind == "variable":
            variables[value] = fields["means"][0]
        else:
            for name in value.split(", "):
                words[name] = word_of(kind, fields)
    return Catalog(commands, words, variables, statuses, own)


def expected(command, count):
    """The names of the words after the command's name, where so many are given: of `turns` the last two come again for each task."""
    if command.words[-1] != "..":
        return command.words
    fixed, pair = command.words[:-3], command.words[-3:-1]
    tasks = min(max(1, -(-(count - len(fixed)) // 2)), MOST_TASKS)
    return fixed + pair * tasks


def row(command):
    return " ".join([command.name, *command.words])


def plain(text):
    """A text of a page without its marks of code and links."""
    return re.sub(r"\[([^\]]*)\]\([^)]*\)", r"\1", text).replace("`", "")
