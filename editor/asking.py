"""The proved program, asked of texts that an editor holds: each question in a folder of its own, which goes afterwards."""
import subprocess
import tempfile
from collections import namedtuple
from pathlib import Path

import beside
import explain
import infix
import sources
import trying
from generated import Code, Image

# How long a question may take, in seconds, and the largest stack, and one that is mostly large enough.
PATIENCE, MOST, SIZE = 30, 65536, 1000
# The statuses of a text that is right, of values that are refused, of a run that isn't over, and of a file that is too long to be read.
RIGHT, VALUES, UNFINISHED, TOO_LONG = 0, 3, 5, 12
# What a text breaks: the rule, its place, its sentence, and what belongs there.
Finding = namedtuple("Finding", "rule place said hints")
# What judges a text alone, which is `t`, by its language.
JUDGES = {"gypsy": "check t", "piton": "pcheck t", "mini": "mini t o", "asm": "asm t o"}
# A script is followed on a run that is over after two steps. Only what is wrong at every level is told, since no script names its level.
NOTHING = b"(program main (proc main () () () () (no-op)))"
LEVELS = ("gypsy", "piton", "fm9001")

Answer = namedtuple("Answer", "status text stored")


class Unjudged(Exception):
    """The program says nothing of a text, with the reason."""


class Asker:
    """The program at a path."""

    def __init__(self, path):
        self.path = Path(path).resolve()

    def ask(self, files, *words, stored=None):
        """What the program says over files with these contents, and what it stored under a name. Raises Unjudged if it doesn't come to its own end."""
        with tempfile.TemporaryDirectory() as room:
            for name, content in files.items():
                (Path(room) / name).write_bytes(content)
            try:
                ran = subprocess.run([self.path, *map(str, words)], cwd=room, stdin=subprocess.DEVNULL, capture_output=True, timeout=PATIENCE, check=False)
            except subprocess.TimeoutExpired:
                raise Unjudged(f"the program was ended after {PATIENCE} seconds") from None
            except OSError as fault:
                raise Unjudged(f"the program can't be started: {fault.strerror}") from None
            if ran.returncode < 0:
                raise Unjudged(beside.ended(ran.returncode))
            made = Path(room) / stored if stored else None
            return Answer(ran.returncode, ran.stdout.decode(errors="replace"), made.read_bytes() if made and made.is_file() else b"")

    def judge(self, language, data):
        """What a text breaks, or None; values are judged by `judge_values`."""
        if language == "script":
            return self.judge_script(data)
        answer = self.ask({"t": data}, *JUDGES[language].split())
        if answer.status == TOO_LONG:
            return Finding("size", 0, f"A text of this kind has at most {int(answer.text.split()[-1]):,} bytes.", [])
        return finding_of(answer, data, infix if language == "mini" else sources if language == "gypsy" else None)

    def judge_script(self, data):
        words = ("debug", "s", "v", 100, 100, "t")
        found = [finding_of(self.ask({"s": NOTHING, "v": b"()", "t": data}, words[0], level, *words[1:]), data, None) for level in LEVELS]
        return found[0] if all(found) else None

    def judge_values(self, data, source):
        """What values break for a source or an infix program, or None. Raises Unjudged if that source is refused itself."""
        answer = self.ask({"s": self.lowered(source), "t": data}, "mean", "s", "t", MOST, MOST, 0)
        if answer.status not in (RIGHT, VALUES, UNFINISHED):
            raise Unjudged(f"of their source the program says {answer.text.strip() or answer.status}")
        found = None if answer.status == UNFINISHED else finding_of(answer, data, None)
        if found and found.rule == "V4":
            given = [name for name, _ in explain.tree_of(data)]
            missing = [name for name, _ in trying.formals_of(source.decode(errors="replace")) if name.encode() not in given]
            return found._replace(hints=[f"Without an entry: {', '.join(missing)}."])
        return found

    def lowered(self, source):
        """A source, or what an infix program is lowered to."""
        if not trying.is_infix(source.decode(errors="replace")):
            return source
        return self.ask({"t": source}, "mini", "t", "o", stored="o").stored

    def code_of(self, source):
        """What an accepted source becomes, in stacks that are large enough for main itself, or None."""
        for size in (SIZE, MOST):
            pit = self.ask({"s": source}, "pit", "s", size, size, "p", stored="p")
            image = self.ask({"s": source}, "build", "s", size, size, "i", stored="i")
            if not pit.status and not image.status:
                return Code(pit.stored, self.ask({"i": image.stored}, "show", "i").text)
        return None

    def image_of(self, text):
        """The image of an assembly text, or None."""
        image = self.ask({"t": text}, "asm", "t", "i", stored="i")
        return None if image.status else Image(self.ask({"i": image.stored}, "show", "i").text)


def finding_of(answer, data, guide):
    """What an answer says of a text: None if it is right, and else what the last line of a refusal says, in the words of docs/program/errors.md, with the
    hints of a script of `guide`. Raises Unjudged if the answer has no such line."""
    if answer.status == RIGHT:
        return None
    last = answer.text.rstrip("\n").split("\n")[-1]
    found = explain.BREACH.fullmatch(last)
    if not found:
        raise Unjudged(f"the program ended with status {answer.status}: {last}" if last else beside.ended(answer.status))
    _, rule, by_line, place = found.groups()
    place = int(place) if not by_line else start_of_line(data, int(place))
    rules, _ = explain.rows_of_page()
    return Finding(rule, place, explain.plain(rules.get(rule, "")), list(guide.wanted(rule, data, place)) if guide else [])


def start_of_line(data, number):
    """Where a line begins, counted from 1."""
    lines = data.split(b"\n")
    return sum(len(it) + 1 for it in lines[:number - 1])
