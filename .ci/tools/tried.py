"""Each command on files that are there, by guide/commands.txt: its example, at each level where it has one. So what a command reads, stores and
ends with stands in that table alone."""
import shutil
import subprocess
import sys
from dataclasses import dataclass
from pathlib import Path

TOP = Path(__file__).resolve().parents[2]
sys.path.insert(0, str(TOP / "guide"))

from catalog import expected, read_catalog  # noqa: E402


@dataclass
class Trial:
    """The words of a command, the names of the files that it reads, in their order, the name of the one that it stores, or None, and the words
    that make what it reads."""

    words: list
    reads: list
    stored: str | None
    before: list

    @property
    def line(self):
        return " ".join(self.words)

    def prepare(self, program, folder):
        """Puts what the command reads into a folder."""
        shutil.copytree(TOP / "examples", Path(folder, "examples"))
        for words in self.before:
            subprocess.run([program, *words], cwd=folder, stdout=subprocess.DEVNULL, check=True)


def trial(catalog, words, before):
    """The trial of a command on these words."""
    command = catalog.commands[words[0]]
    named = [pair for pair in zip(expected(command, len(words) - 1), words[1:]) if catalog.words[pair[0]].kind == "file"]
    reads = [word for name, word in named if name != command.stores]
    return Trial(words, reads, next((word for name, word in named if name == command.stores), None), before)


def trials():
    """A trial of each command, and of each level of one that has a level."""
    catalog = read_catalog()
    for command in catalog.commands.values():
        *before, words = [line.split()[1:] for line in command.examples]
        place = next((it for it, name in enumerate(command.words, 1) if catalog.words.get(name, None) and catalog.words[name].kind == "choice"), None)
        for level in catalog.words[command.words[place - 1]].range.replace(" or ", ", ").split(", ") if place else [None]:
            yield trial(catalog, [level if it == place else word for it, word in enumerate(words)] if place else words, before)


def statuses():
    """The statuses of each command whose files are there, where memory isn't short and all can be read, stored and printed."""
    return {it.name: {0, *it.ends} for it in read_catalog().commands.values()}
