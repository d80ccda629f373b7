#!/usr/bin/env python3
"""Runs what documents show as transcripts, and compares what is printed with what they show.

A transcript is a block that begins with ```console: a line that begins with `$ ` is a command, and the lines up to the next one are what it
prints. The transcripts of one document are run one after the other in one folder, which has `examples`, and `stack`, which is the program, or the script that starts it. Prints
a line for each command that prints something else, and how many commands there were. The exit status is 1 where there was such a one. With
`--write` the document gets what was printed.
"""
import os
import re
import shutil
import subprocess
import sys
import tempfile
from pathlib import Path

sys.path.append(str(Path(__file__).resolve().parents[2] / "tools"))

from arguments import file, parser_of  # noqa: E402
from arguments import program as executable  # noqa: E402

TOP = Path(__file__).resolve().parents[2]
BLOCK = re.compile(r"^```console\n(.*?)^```$", re.M | re.S)


def commands_of(block):
    """The commands of a block, each with what it is to print."""
    for part in re.split(r"^\$ ", block, flags=re.M)[1:]:
        command, _, printed = part.partition("\n")
        yield command, printed


def printed_by(command, folder):
    return subprocess.run(["bash", "-c", command], cwd=folder, stdout=subprocess.PIPE, stderr=subprocess.STDOUT, check=False).stdout.decode()


class Player:
    """Plays the blocks of documents, and notes what was printed otherwise."""

    def __init__(self, program):
        self.program, self.count, self.wrong = program, 0, []

    def block(self, text, document, folder):
        """The block with what its commands print."""
        played = ""
        for command, wanted in commands_of(text):
            printed = printed_by(command, folder)
            self.count += 1
            if printed != wanted:
                self.wrong.append(f"{document}: {command}\n    printed {printed!r}\n    wanted  {wanted!r}")
            played += f"$ {command}\n{printed}"
        return f"```console\n{played}```"

    def play(self, document):
        """The document with what its commands print."""
        with tempfile.TemporaryDirectory() as folder:
            shutil.copytree(TOP / "examples", Path(folder, "examples"))
            os.symlink(self.program, Path(folder, "stack"))
            return BLOCK.sub(lambda found: self.block(found.group(1), document, folder), document.read_text())


def main():
    parser = parser_of(__doc__)
    parser.add_argument("program", type=executable, help="cli_stack, or the script stack")
    parser.add_argument("documents", type=file, nargs="+", metavar="DOCUMENT")
    parser.add_argument("--write", action="store_true", help="write what was printed into the documents")
    words = parser.parse_args()
    player, is_written = Player(words.program), words.write
    for document in (it.relative_to(Path.cwd()) for it in words.documents):
        played = player.play(document)
        if is_written:
            document.write_text(played)
    for line in player.wrong:
        print(line)
    print(f"{player.count:5} commands of transcripts, {len(player.wrong)} {'written anew' if is_written else 'failed'}")
    return bool(player.wrong) and not is_written or player.count == 0


if __name__ == "__main__":
    sys.exit(main())
