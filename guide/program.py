"""The proved program, asked by scripts of a person's: of a source and its values, in a folder of its own."""
import codecs
import os
import re
import subprocess
import sys
import tempfile
from contextlib import contextmanager
from pathlib import Path

from ends import tell

# A byte that is no text becomes one byte that is, so that places stay.
codecs.register_error("marked", lambda fault: ("?" * (fault.end - fault.start), fault.end))


# The most bytes of a text that is read, of the roles of source and values.
MOST_TEXT = 1_048_576
TOO_MUCH = 70


class Refused(Exception):
    """The program ended with another status than 0."""

    def __init__(self, status, text):
        super().__init__(text)
        self.status, self.text = status, text


class TooMuch(Exception):
    """The program would print more than is asked for."""


def read_text(path, most=MOST_TEXT):
    """The bytes of a text, or of one that is too long so many that this is seen."""
    with open(path, "rb") as file:
        return file.read(most + 1)


class Program:
    """The program at a path over a folder with a source `s` and perhaps values `v`, in stacks of the given sizes. The folder goes at the end. Where it is
    said how many bytes are `left`, the program prints no more."""

    def __init__(self, path, source, values, control, temporary):
        self.path, self.sizes, self.asked, self.left = Path(path).resolve(), (control, temporary), 0, None
        self.given = {"s": source} | ({"v": values} if values else {})

    def __enter__(self):
        self.room = tempfile.TemporaryDirectory()
        self.folder = Path(self.room.name)
        try:
            for name, path in self.given.items():
                (self.folder / name).write_bytes(read_text(path))
        except BaseException:
            self.room.cleanup()
            raise
        return self

    def __exit__(self, *_):
        self.room.cleanup()

    def text(self, name):
        """A file of the folder, with a character for each byte that is no text."""
        return (self.folder / name).read_bytes().decode("utf-8", "marked")

    @contextmanager
    def started(self, *words, script=None):
        """The program, started on these words. A script is what it reads as /dev/stdin. It is over at the end, and killed where that comes before its own."""
        with tempfile.TemporaryFile(dir=self.folder) as given:
            given.write((script or "").encode())
            given.seek(0)
            running = subprocess.Popen([self.path, *map(str, words)], cwd=self.folder, stdin=given, stdout=subprocess.PIPE, stderr=subprocess.DEVNULL)
            self.asked += 1
            try:
                yield running
            except BaseException:
                running.kill()
                raise
            finally:
                running.stdout.close()
                running.wait()

    def ask(self, *words, script=None, ends=(0,)):
        """What the program prints."""
        with self.started(*words, script=script) as running:
            said = running.stdout.read() if self.left is None else running.stdout.read(self.left + 1)
            if self.left is not None:
                self.left -= len(said)
                if self.left < 0:
                    raise TooMuch
        said = said.decode("utf-8", "replace")
        if running.returncode not in ends:
            raise Refused(running.returncode, said.strip())
        return said

    def session(self, level, script):
        return self.ask("debug", level, "s", "v", *self.sizes, "/dev/stdin", script=script)

    def moments(self, level, shows, steps):
        """What a session shows at its start and after each of so many steps."""
        return self.session(level, shows + f"step 1\n{shows}" * steps)

    def cost(self, level, steps):
        """What so many steps cost together."""
        return int(self.session(level, f"attach cost\nstep {steps}\ndetach cost\n").split()[-1])

    def steps_within(self, level, count):
        """The most steps that cost no more than a count of instructions."""
        low, high = 0, count
        while low < high:
            middle = (low + high + 1) // 2
            if self.cost(level, middle) <= count:
                low = middle
            else:
                high = middle - 1
        # Steps at the end cost nothing, and aren't made.
        return int(self.session(level, f"step {low}\n").split()[1])


def is_infix(text):
    """Whether a program is one of the infix language: it begins with a word, where a source of Micro-Gypsy begins with a parenthesis or a comment."""
    return re.match(rb"\s*\w", text) is not None


def lower(program):
    """Lowers the source where it is an infix program, whose text is returned then."""
    text = (program.folder / "s").read_bytes()
    if not is_infix(text):
        return None
    program.ask("mini", "s", "lowered")
    (program.folder / "lowered").rename(program.folder / "s")
    return text.decode()


def number(text):
    """A number of the command line, as the program takes it."""
    if not re.fullmatch(r"[0-9]{1,20}", text):
        raise ValueError(text)
    return int(text)


def is_person():
    """Whether a person reads standard error."""
    return (os.environ.get("STACK_EXPLAIN") or ("1" if sys.stderr.isatty() else "0")) == "1"


def tell_person(refused, words):
    """Says on standard error what a refusal means, where a person reads that: as of the command that would be refused so."""
    if not is_person():
        return
    from explain import lines_of

    source, sizes = str(words.source), [str(words.control), str(words.temporary)]
    # What is no ordinary file isn't read once more.
    if refused.text.startswith("refused") and words.source.is_file() and is_infix(read_text(words.source)):
        line = ["mini", source, "lowered.gypsy"]
    elif "values" in words:
        line = ["mean", source, str(words.values), *sizes, "0"]
    else:
        line = ["build", source, *sizes, "out.image"]
    print("\n".join(lines_of(refused.status, refused.text, line)), file=sys.stderr)


def carried_out(parser, act, line):
    """Does what the words ask for, and returns the status: that of the program where it refuses something, whose last line is printed then, and 1 where the
    words are no such row."""
    try:
        words = parser.parse_args(line)
    except SystemExit as ended:
        return 1 if ended.code else 0
    try:
        act(words, line)
        return 0
    except Refused as refused:
        print(refused.text, flush=True)
        tell_person(refused, words)
        return refused.status
    except TooMuch as much:
        tell(str(much))
        return TOO_MUCH
