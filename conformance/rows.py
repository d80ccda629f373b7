"""The form of a row, and how a file of rows is read. README.md beside this says it in words."""
import re
from dataclasses import dataclass, field
from pathlib import Path
from typing import Callable

TOP = Path(__file__).resolve().parent.parent

# How the last line begins that a command prints, and its status. After any other line, as one of a variable, and without one, it is 0.
STATUSES = {
    "usage": 1,
    "refused ": 2,
    "values V": 3,
    "image I": 4,
    "unfinished ": 5,
    "outside ": 6,
    "error ": 8,
    "missing ": 9,
    "shelf fault ": 10,
    "size ": 12,
    "script ": 13,
    "not plain": 16,
    "recursive ": 17,
    "certificate ": 18,
}

# The statuses at which the file that a command stores holds its content. At all others it is as before.
STORING = {0, 3, 5, 6}

ESCAPED = re.compile(r"\\(n|r|t|\\|x[0-9a-f]{2})")
PLACE = re.compile(r"\{([A-Z]+)([-+]\d+)?\}")
RUN = re.compile(r"(?:\[(\d+)\] )?(.*?)(?: < (\w+))? ?: (.*?)(?: -> (\w+)(?: is (\w+))?)?$")
FILE = re.compile(r"(\w+) (=|<|hex)(?: (.*))?$")

Files = dict[str, bytes]


@dataclass
class Run:
    """One run of the program: its words, what it prints or what judges that, its status, and the file that it stores. In what is printed a
    `*` between spaces stands for any number. Of the stored file `content` says whether it is as wanted, from all files of the folder; without
    it any content is. What `change` gives of the files is put into the folder before. Standard input is the file `given`, or nothing.
    """

    words: bytes
    printed: bytes | Callable[[bytes], bool]
    status: int | None = None
    stored: str | None = None
    content: Callable[[Files], bool] | None = None
    change: Callable[[Files], Files] | None = None
    given: str | None = None

    def __post_init__(self):
        if self.status is None and not callable(self.printed):
            self.status = status_of(self.printed.decode("latin-1"))

    def fault(self, status, printed, before, after):
        """What is wrong with an end of this run, or nothing."""
        if status != self.status or not self.is_printed(printed):
            wanted = "another text" if callable(self.printed) else f"{self.printed!r:.300}"
            return f"status {status}, printed {printed!r:.300}; wanted {self.status}, {wanted}"
        stores = self.stored is not None and self.status in STORING
        for name in sorted(before.keys() | after.keys()):
            if before.get(name) != after.get(name) and not (stores and name == self.stored):
                return f"the file {name} was changed"
        if stores and not after.get(self.stored):
            return f"the file {self.stored} wasn't stored"
        if stores and self.content and not self.content(after):
            return f"the file {self.stored} has another content than wanted"
        return None

    def is_printed(self, printed):
        if callable(self.printed):
            return self.printed(printed)
        if b"*" not in self.printed:
            return self.printed == printed
        words = re.split(rb"(\s)", self.printed)
        return re.fullmatch(b"".join(rb"\d+" if word == b"*" else re.escape(word) for word in words), printed) is not None


@dataclass
class Row:
    """What the folder holds at first, by names, and the runs that follow one another in it. A text that is long is made by a function."""

    name: str
    files: dict[str, bytes | Callable[[], bytes]]
    runs: list[Run]


def status_of(printed):
    last = printed.rstrip("\n").split("\n")[-1]
    if " = " in last:
        return 0
    return next((status for start, status in STATUSES.items() if last.startswith(start)), 0)


def bytes_of(text):
    """The bytes of a cell or a head's text: a backslash and what follows it is one byte."""
    one = {"n": "\n", "r": "\r", "t": "\t", "\\": "\\"}
    return ESCAPED.sub(lambda it: one.get(it.group(1)) or chr(int(it.group(1)[1:], 16)), text).encode("latin-1")


def lines_of(text):
    """What is printed, from a text in which ` / ` stands between lines, and `nothing` for none."""
    return b"" if text == "nothing" else bytes_of(text).replace(b" / ", b"\n") + b"\n"


def filled(template, cells):
    """The text with each {NAME} replaced by that cell, and each {NAME-1} by its number less 1."""
    return PLACE.sub(lambda it: str(int(cells[it.group(1)]) + int(it.group(2))) if it.group(2) else cells[it.group(1)], template)


@dataclass
class Head:
    """What the lines that begin with % say of the rows below them."""

    columns: list[str] = field(default_factory=list)
    texts: dict[str, str] = field(default_factory=dict)
    files: dict[str, tuple[str, str]] = field(default_factory=dict)
    runs: list[str] = field(default_factory=list)
    is_used: bool = False

    def take(self, line):
        kind, _, rest = line.removeprefix("% ").partition(" ")
        if kind == "columns":
            self.__init__(rest.split())
        elif kind == "run":
            self.runs = [rest] if self.is_used else [*self.runs, rest]
            self.is_used = False
        elif kind in ("file", "text"):
            name, how, content = FILE.match(rest).groups("")
            if how == "<":
                how, content = "=", Path(TOP, content).read_bytes().decode("latin-1").replace("\\", "\\\\")
            (self.files if kind == "file" else self.texts)[name] = (how, content) if kind == "file" else content
        else:
            raise ValueError(f"no head line begins with % {kind}")

    def row(self, name, line):
        cells = line.split("\t")
        if len(cells) != len(self.columns):
            raise ValueError(f"{len(cells)} cells for {len(self.columns)} columns")
        self.is_used = True
        named = [(*column.split(":"), "=")[:2] + (cell,) for column, cell in zip(self.columns, cells)]
        texts = self.texts | {column: cell for column, _, cell in named if column.isupper()}
        files = {column: (how, filled(content, texts)) for column, (how, content) in self.files.items()}
        files |= {column: (how, cell) for column, how, cell in named if not column.isupper()}
        made = {column: bytes.fromhex(content) if how == "hex" else bytes_of(content) for column, (how, content) in files.items()}
        return Row(name, made, [self.run(template, texts) for template in self.runs])

    def run(self, template, texts):
        status, words, given, printed, stored, other = RUN.match(template).groups()
        content = (lambda files: files[stored] == files[other]) if other else None
        status = int(status) if status else None
        return Run(bytes_of(filled(words, texts)), lines_of(filled(printed, texts)), status, stored, content, given=given)


def rows_of(path):
    """The rows of a file."""
    head = Head()
    for number, line in enumerate(path.read_text(encoding="latin-1").split("\n"), 1):
        try:
            if line.startswith("%"):
                head.take(line)
            elif line and not line.startswith("#"):
                yield head.row(f"{path.name}:{number}", line)
        except (ValueError, KeyError, AttributeError) as error:
            raise SystemExit(f"{path}:{number}: {error}") from error
