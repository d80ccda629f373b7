#!/usr/bin/env python3
"""Tries what the script `stack` tells a person, with the built program: the sentence of each rule and of each other last line, the help,
the slips that lose a file, long runs, mistakes of beginners, what may come in an infix program, runs with few words, and the transcripts of
docs/program/errors.md and wrong_inputs.txt. What is told changes no byte of standard output, and no status.

Prints a line for each row that fails, and how many rows there were of each theme. The exit status is 1 where one failed.
"""
import os
import pty
import random
import re
import select
import shutil
import signal
import subprocess
import sys
import tempfile
import time
from concurrent.futures import ThreadPoolExecutor
from dataclasses import dataclass
from pathlib import Path

TOP = Path(__file__).resolve().parent.parent.parent
sys.path[:0] = [str(TOP / "guide"), str(TOP / "conformance")]

import explain  # noqa: E402
import help as usage  # noqa: E402
import infix  # noqa: E402

sys.path.append(str(Path(__file__).resolve().parents[2] / "tools"))

from arguments import parser_of  # noqa: E402
from arguments import program as executable  # noqa: E402
from catalog import plain, read_catalog  # noqa: E402
from rows import bytes_of, rows_of  # noqa: E402

PROGRAM = TOP / "crates/cli_stack/out/cli_stack"
PAGE = (TOP / "docs/program/errors.md").read_text()
# The pages that define the rules, in a table each; three rules are named beside it.
OF_SESSIONS = {"D4", "D5", "D7"}
RULE_PAGES = "text-form gypsy piton asm values image-file debug space mini"
# What judges the example of a rule, by its letter: the example is the file `t`, and `s` is the source of the values.
JUDGES = {
    **dict.fromkeys("GMS", "check t"), **dict.fromkeys("PQ", "pcheck t"), "A": "asm t o", "V": "mean s t 100 100 0", "I": "show t",
    "D": "debug gypsy examples/first/seven.gypsy examples/first/nine.values 7 3 t", "Z": "cert examples/first/seven.gypsy t 7 3", "Y": "mini t o",
}
SEVEN = (TOP / "examples/first/seven.gypsy").read_text()
NOTHING = "(program main\n(proc main () () () () (no-op)))\n"
# Texts of Piton whose runs end with an error.
BELOW_ZERO = "(piton main 2 2 0 () () (main () () (push-constant (nat 0)) (sub1-nat) (ret)))"
ONE_WORD = "(piton main 2 2 0 () () (main () () (push-constant (nat 0)) (add-int) (ret)))"
FULL = "(piton main 2 1 0 () () (main () () (push-constant (nat 0)) (push-constant (nat 0)) (ret)))"
CALLS_ITSELF = "(piton main 3 1 0 () () (main () () (call main) (ret)))"
WRONG_TAG = "(piton main 2 1 0 () () (main () () (push-constant (int 0)) (fetch) (ret)))"
PIECE = re.compile(r"(?:([\d,]+) times |for N from (\d+) to (\d+) )?`([^`]*)`")
ENDLESS = ".base 0\n.size 2\n.final 1\n.start 0\nMOVE r15,#0\n"
AFTER_ITS_WINDOW = ".base 0\n.size 1\n.final 0\n.start 1\n"


@dataclass
class Ending:
    status: int
    printed: bytes
    told: str


def example_of(cell):
    """The bytes of an example: its pieces one after the other."""
    text = ""
    for times, low, high, piece in PIECE.findall(cell):
        piece = bytes_of(re.sub(r"\\0", r"\\x00", piece)).decode("latin-1")
        if low:
            text += "".join(piece.replace("N", str(it)) for it in range(int(low), int(high) + 1))
        else:
            text += piece * int((times or "1").replace(",", ""))
    return text.encode("latin-1")


def rules_of_page():
    """The rows of rules: the rule, its sentence, its example and its last line."""
    for line in PAGE.splitlines():
        if re.match(r"\| [A-Z]\d+ \|", line):
            rule, sentence, example, last = re.split(r" \| ", line.strip("| "))
            yield rule, sentence, example_of(example), last.strip("` ")


def one_line(text):
    return " ".join(text.split())


class Folder:
    """A folder with the examples of the repository, in which commands are run."""

    def __init__(self, stack, room):
        self.path = Path(tempfile.mkdtemp(dir=room))
        # So what can be pasted begins with ./stack, as on the page.
        self.stack = "./stack"
        (self.path / "stack").symlink_to(stack)
        shutil.copytree(TOP / "examples", self.path / "examples")

    def run(self, words, explains="1", starts=None, **how):
        """How the script, or what else is started, ends on these words."""
        kept = {it: value for it, value in os.environ.items() if it not in ("STACK_EXPLAIN", "STACK_SELF")}
        environment = kept | ({"STACK_EXPLAIN": explains} if explains else {})
        streams = {"stdin": subprocess.DEVNULL, "stdout": subprocess.PIPE, "stderr": subprocess.PIPE, "cwd": self.path, "env": environment} | how
        words = words.split() if isinstance(words, str) else words
        ran = subprocess.run([starts or self.stack, *words], check=False, **streams)
        return Ending(ran.returncode, ran.stdout or b"", (ran.stderr or b"").decode())

    def store(self, files):
        for name, content in files.items():
            (self.path / name).write_bytes(content.encode() if isinstance(content, str) else content)
        return self

    def on_terminal(self, words, keys="", awaited=None, more=None):
        """Runs on a terminal, where these keys are pressed once this text is there: the status, negative for a signal, and what is seen."""
        process, terminal = pty.fork()
        if process == 0:
            # A gate in the background ignores the interrupt, and what it starts would, too.
            signal.signal(signal.SIGINT, signal.SIG_DFL)
            os.chdir(self.path)
            os.environ.update({"TERM": "xterm"})
            os.environ.pop("STACK_EXPLAIN", None)
            os.environ.update(more or {})
            os.execv(self.stack, [self.stack, *words.split()])
        seen, pressed, late = b"", False, time.monotonic() + 60
        while time.monotonic() < late and select.select([terminal], [], [], 60)[0]:
            try:
                seen += os.read(terminal, 4096)
            except OSError:
                break
            if not pressed and awaited is not None and awaited in seen.decode(errors="replace"):
                os.write(terminal, keys)
                pressed = True
        if time.monotonic() >= late:
            os.killpg(process, signal.SIGKILL)
        return os.waitstatus_to_exitcode(os.waitpid(process, 0)[1]), seen.decode(errors="replace")


class Rows:
    """Runs rows, and notes those that fail."""

    def __init__(self, stack, room):
        self.stack, self.room = stack, room
        self.catalog = read_catalog()
        self.failed, self.counts = 0, {}

    def folder(self, files=None):
        return Folder(self.stack, self.room).store(files or {})

    def note(self, theme, holds, row, seen=""):
        self.counts[theme] = self.counts.get(theme, 0) + 1
        if not holds:
            self.failed += 1
            print(f"{theme}: {row!r:.200}\n    {seen!r:.600}")

    def rules(self):
        """Each rule of the pages has its sentence, and its example is refused by it."""
        judged = set(JUDGES) - (set() if "mini" in self.catalog.commands else {"Y"})
        rows = [it for it in rules_of_page() if it[0][0] in judged]
        pages = [page for it in RULE_PAGES.split() for page in TOP.glob(f"docs/*/{it}.md")]
        defined = {it for page in pages for it in re.findall(r"^\| ([A-Z]\d+) \|", page.read_text(), re.M)} | OF_SESSIONS
        differing = {it for it in defined if it[0] in judged} ^ {rule for rule, *_ in rows}
        self.note("rules", not differing, "the rules of the pages", differing)
        with ThreadPoolExecutor(4) as pool:
            for row, endings in zip(rows, pool.map(self.judged, rows)):
                self.note("rules", holds_rule(row, *endings), row[0], endings)

    def judged(self, row):
        """How the example of a rule ends, with what is told and by the program alone. The script is started for the first of a letter."""
        rule, _, example, _ = row
        source = PAGE.split("The source of the values:\n\n```text\n")[1].split("\n```")[0]
        folder = self.folder({"t": example, "s": source})
        words = [str(folder.path / it) if it in "st" else it for it in JUDGES[rule[0]].split()]
        alone = folder.run(words, starts=PROGRAM)
        if rule[1:] == "1":
            return folder.run(words), alone
        told = "\n".join(explain.lines_of(alone.status, alone.printed.decode(), words))
        return Ending(alone.status, alone.printed, told), alone

    def endings(self):
        """Each other last line has its sentence, and something ends so."""
        says = {}
        for line in PAGE.split("## All other last lines")[1].splitlines():
            cells = [it.strip() for it in line.strip("|").split(" | ")]
            if len(cells) == 4 and cells[1].isdigit():
                says[cells[0].strip("`"), int(cells[1])] = cells[2]
        for last, status, words, files, sentence in ENDINGS:
            folder = self.folder(files)
            for before in words[:-1]:
                folder.run(before, explains="")
            told, plain_run = folder.run(words[-1]), folder.run(words[-1], explains="")
            listed = says.pop((last, status), "")
            holds = told.status == plain_run.status == status and told.printed == plain_run.printed and not plain_run.told
            self.note("other last lines", holds and listed and one_line(sentence) in one_line(told.told), words[-1], (told, plain_run))
        for last, status in list(says):
            if status in (11, 14):
                script = [sys.executable, str(TOP / "guide/explain.py"), str(status), "", "check", "a"]
                told = subprocess.run(script, capture_output=True, text=True, check=False).stderr
                self.note("other last lines", one_line(plain(says.pop((last, status)))) in one_line(told), status, told)
        self.note("other last lines", set(says) == {("usage", 1)}, "each is tried", says)

    def words(self):
        """Words are called wrong exactly where the program says `usage`, and each command has help with an example that runs."""
        accepted = set()
        for row in rows_of(TOP / "conformance/words.rows"):
            words, printed = row.runs[0].words.decode("latin-1"), row.runs[0].printed
            if not words.isascii():
                continue
            wrong = usage.misfit(self.catalog, words.split())
            self.note("words", bool(wrong) == (printed == b"usage\n"), words, wrong)
            accepted |= set() if wrong else {words.split()[0]}
        reading = {it.name for it in self.catalog.commands.values() if self.catalog.words[it.words[0]].kind == "file"}
        self.note("words", reading <= accepted <= set(self.catalog.commands), "each command has a row", reading ^ accepted)
        with ThreadPoolExecutor(4) as pool:
            for command, wrong in zip(self.catalog.commands.values(), pool.map(self.example, self.catalog.commands.values())):
                self.note("help", not wrong, command.name, wrong)
        for words in ("help", "--help", "-h"):
            ending = self.folder().run(words, explains="0")
            known = [*self.catalog.commands, *self.catalog.own]
            self.note("help", ending.status == 0 and not ending.told and all(f"    {it}" in ending.printed.decode() for it in known), words, ending)
        ending = self.folder().run("")
        holds = (ending.status, ending.printed) == (1, b"usage\n") and all(it in ending.told for it in self.catalog.commands)
        self.note("help", holds, "", ending)
        for it in (it for it in self.catalog.own.values() if it.name != "help"):
            ending = self.folder().run(["help", it.name])
            self.note("help", ending.status == 0 and f"./stack {it.row}\n".encode() in ending.printed, it.name, ending)
        for words, told in MISFITS:
            ending = self.folder().run(words)
            self.note("words", (ending.status, ending.printed) == (1, b"usage\n") and told in one_line(ending.told), words, ending)

    def example(self, command):
        """What is wrong with the help of a command: it has the row, and the example can be pasted."""
        folder = self.folder()
        told = folder.run(["help", command.name]).printed.decode()
        ran = [folder.run(it.split()[1:]) for it in command.examples]
        names = [command.name] == [it.split()[1] for it in command.examples][-1:]
        holds = f"./stack {' '.join([command.name, *command.words])}" in told and command.examples[-1] in told
        return [] if holds and names and all(it.status == 0 for it in ran) else [told, ran]

    def slips(self):
        """A file that would be lost is told of, and asked about on a terminal; what was stored is told."""
        lost, size = "what it has now is lost", "is stored, 3622 bytes"
        for words, status, told in SLIPS:
            folder = self.folder({"a.gypsy": SEVEN, "v": "((x 0))", "w": "()", "other": "a letter"})
            ending = folder.run(words)
            text = one_line(ending.told)
            says = (("and then stores" in text or lost in text), size in text)
            self.note("slips", ending.status == status and says == told, words, ending)
        for key, status in (b"n\n", 130), (b"\n", 130), (b"y\n", 0):
            folder = self.folder({"a.gypsy": SEVEN})
            ended, seen = folder.on_terminal("build a.gypsy 7 3 a.gypsy", key, "go on?")
            kept = (folder.path / "a.gypsy").read_bytes() == SEVEN.encode()
            self.note("slips", ended == status and kept == (status == 130), key, seen)

    def streams(self):
        """The status is the same where standard output fails, and a long run shows that it lives."""
        folder = self.folder({"loop.asm": ENDLESS})
        with open("/dev/full", "wb") as full:
            for words in "check examples/first/seven.gypsy", "check nowhere", "":
                statuses = {folder.run(words, explains, stdout=full).status for explains in ("", "1")}
                self.note("streams", statuses == {11}, words, statuses)
        with open(os.devnull, "wb") as nothing:
            ending = folder.run("check nowhere", stdout=nothing)
            self.note("streams", ending.status == 9 and "There is no file nowhere" in ending.told, "> /dev/null", ending)
        folder.run("asm loop.asm loop.image")
        folder.store({"none.values": "()"})
        ended, seen = folder.on_terminal("run loop.image none.values 1099511627776", b"\x03", "instructions a second")
        says = ("run runs, [23] seconds so far", "so far: about [0-9.]+ %, [0-9,]+( million)? instructions a second", "stack: stopped after [0-9]+ seconds",
                "about [0-9,]+ of 1,099,511,627,776 instructions were made")
        self.note("streams", ended == -2 and all(re.search(it, seen) for it in says), "a long run", (ended, seen))
        ended, seen = folder.on_terminal("check no\x1b[31mfile")
        self.note("streams", ended == 9 and "\x1b[31mfile" not in seen and "no?[31mfile" in seen, "bytes that move the cursor", seen)
        folder.store({"t": "(())"})
        for more, wanted in ({}, True), ({"NO_COLOR": "1"}, False), ({"NO_COLOR": ""}, True), ({"TERM": "dumb"}, False):
            ended, seen = folder.on_terminal("check t", more=more)
            self.note("streams", ended == 2 and ("\x1b[1mt:1:1:\x1b[0m M1" in seen) == wanted and ("\x1b[1;31m" in seen) == wanted, more, seen)

    def names(self):
        """What is told can be pasted, whatever names there are, and however the script was called."""
        name = "n\n'l"
        folder = self.folder({name: SEVEN, "v": "((x 0))"})
        for words, told in (["check", ""], "./stack check ''"), (["go", name, "v", "6", "3", "100", "i"], "./stack need $'n\\x0a\\x27l' sizes.cert"):
            ending = folder.run(words)
            self.note("names", told in ending.told, words, ending)
        pasted = subprocess.run(["bash", "-c", "./stack need $'n\\x0a\\x27l' sizes.cert"], cwd=folder.path, capture_output=True, check=False)
        self.note("names", pasted.returncode == 0, "pasted", pasted)
        (folder.path / "below").mkdir()
        (folder.path / "a folder").symlink_to(".")
        for called, self_told in ("../stack", "../stack check nowhere"), ("../a folder/stack", "../a\\ folder/stack check nowhere"):
            ending = folder.run(["check", "nowhere"], starts=called, cwd=folder.path / "below")
            self.note("names", self_told in ending.told, called, ending)
        ending = folder.run(["check", "nowhere"], starts="stack", cwd=folder.path / "below", env={"PATH": f"{folder.path}:{os.environ['PATH']}", "STACK_EXPLAIN": "1"})
        self.note("names", "    stack check nowhere" in ending.told, "on the PATH", ending)

    def texts(self):
        """An array of characters is told as a text too."""
        source = "(program main (proc main ((word (array character 4)) (x integer)) () () () (no-op)))"
        folder = self.folder({"t": source, "v": "((word (#72 #105 #34 #10)) (x 1))"})
        for explains, told in ("1", 'stack: as a text word = "Hi\\"\\x0a"\n'), ("", ""):
            ending = folder.run("mean t v 100 100 100", explains)
            self.note("texts", ending.status == 0 and ending.told == told, explains, ending)

    def mistakes(self):
        """What is told of a mistake has the words that lead to its mend."""
        text = (TOP / ".ci/tools/mistakes.txt").read_text()
        for block in text.split("== ")[1:]:
            title, _, body = block.partition("\n")
            source, _, told = body.partition("--\n")
            command = {"infix": "mini t o", "assembly": "asm t o"}.get(title.split(":")[0], "check t")
            ending = self.folder({"t": source}).run(command)
            missing = [it for it in told.splitlines() if one_line(it) not in one_line(ending.told)]
            self.note("mistakes", ending.status == 2 and told and not missing, title, (missing, ending))

    def expected(self):
        """What may come in an infix program is what the program takes."""
        folder, drawn = self.folder(), random.Random(1)
        for _ in range(200):
            stack, text = infix.START, ""
            for _ in range(drawn.randrange(24)):
                kind = drawn.choice(infix.may_come(stack) or [""])
                if kind:
                    stack, text = infix.after(stack, kind), text + f"{NAMED.get(kind, kind)} "
            kind = drawn.choice(infix.KINDS)
            (folder.path / "t").write_text(text + NAMED.get(kind, kind))
            alone = folder.run("mini t o", explains="", starts=PROGRAM)
            refused = alone.printed == f"refused Y2 at {len(text)}\n".encode()
            self.note("expected", refused == (kind not in infix.may_come(stack)), text + kind, alone)

    def few_words(self):
        """Runs with few words, and the values that they make: the lines that they tell do the same."""
        for words, status, printed, told in FEW:
            folder = self.folder(TRIED)
            ending = folder.run(words, explains="")
            holds = (ending.status, ending.printed.decode()) == (status, printed) and one_line(told) in one_line(ending.told)
            self.note("few words", holds, words, ending)
            lines = re.findall(r"^    ((?:\./stack|echo) .*)$", ending.told, re.M) if status == 0 else []
            for line in lines:
                again = subprocess.run(["bash", "-c", line], cwd=folder.path, capture_output=True, check=False)
            # Of a text that is no source the last line shows words by their addresses.
            first = again.stdout.splitlines(True)[:1] if lines else []
            same = again.stdout == ending.printed if lines and " end " not in lines[-1] else set(first) <= set(ending.printed.splitlines(True))
            self.note("few words", same and bool(first) == bool(lines), lines, again if lines else "")

    def transcript(self):
        """The inputs of the page, and five more, with what a person sees."""
        block = PAGE.split("## Five wrong inputs")[1].split("```text\n")[1].split("```")[0]
        block += (TOP / ".ci/tools/wrong_inputs.txt").read_text()
        folder, count = self.folder(), 0
        for part in re.split(r"^\$ ", block, flags=re.M)[1:]:
            command, _, shown = part.partition("\n")
            if command.startswith("cat "):
                folder.store({command[4:]: shown})
            else:
                ending = folder.run(command.split()[1:], stderr=subprocess.STDOUT)
                count += 1
                self.note("transcript", ending.printed.decode() == shown, command, ending.printed.decode())
        self.note("transcript", count == 10, "how many inputs", count)


def holds_rule(row, told, alone):
    """Whether an example is refused by its rule, and its place and the sentence are told; the program alone prints and ends the same. Of an assembly text
    the place is that of a line, and a column in it is told: `mistakes` has which."""
    rule, sentence, example, last = row
    kind, place = last.split()[0], int(last.split()[-1])
    before = example[:place].decode("latin-1")
    where = f"t:{before.count(chr(10)) + 1}:{len(before.rpartition(chr(10))[2]) + 1}: {rule}: "
    where = {"image": f"t: byte {place}", "script": f"t:{place}: {rule}: "}.get(kind, where)
    if rule[0] == "A":
        found = re.search(rf"t:{before.count(chr(10)) + 1}:[1-9]\d*: {rule}: ", one_line(told.told))
        where = found[0] if found else where
    same = (told.status, told.printed) == (alone.status, alone.printed) and not alone.told
    text = one_line(told.told)
    return same and told.printed.decode().splitlines()[-1:] == [last] and where in text and one_line(plain(f"{rule}: {sentence}")) in text


# Other last lines: the line, the status, words of which the last end so, files, and what is told.
SEVEN_IMAGE = "build examples/first/seven.gypsy 7 3 i"
ENDINGS = [
    ("unfinished N", 5, [SEVEN_IMAGE, "run i examples/first/nine.values 27"], {}, "27 instructions were made, all that BUDGET allows"),
    ("outside ADDRESS after K", 6, ["asm t i", "run i v 9"], {"t": AFTER_ITS_WINDOW, "v": "()"}, "needs the word at 00000001"),
    ("error temp-empty at PROGRAM PLACE after J", 8, ["prun t 9"], {"t": ONE_WORD}, "t:1:61: error temp-empty at main 1"),
    ("error tag at PROGRAM PLACE after J", 8, ["prun t 9"], {"t": WRONG_TAG}, "Instruction 1 of main, counted from 0, takes words"),
    ("error range at PROGRAM PLACE after J", 8, ["prun t 9"], {"t": BELOW_ZERO}, "would give a word outside its range"),
    ("error temp-full at PROGRAM PLACE after J", 8, ["prun t 9"], {"t": FULL}, "the temporary stack has no room"),
    ("error ctrl-full at PROGRAM PLACE after J", 8, ["prun t 9"], {"t": CALLS_ITSELF}, "the control stack has no room"),
    ("missing NAME", 9, ["check a.gypsi"], {"a.gypsy": ""}, "./stack check a.gypsi ^ to be read Was a.gypsy meant?"),
    ("shelf fault NAME", 10, ["check examples"], {}, "./stack check examples ^ to be read It is a folder."),
    ("size file N", 12, ["check t"], {"t": " " * 1_048_577}, "./stack check t ^ 1,048,577 bytes"),
    ("size control N", 12, ["build examples/first/seven.gypsy 6 3 i"], {}, "./stack build examples/first/seven.gypsy 6 3 i ^ CTRL Give 7 or more."),
    ("size temporary N", 12, ["build examples/first/seven.gypsy 7 2 i"], {}, "^ TEMP Give 3 or more. ./stack need examples/first/seven"),
    ("size words N", 12, ["turns 1 6 65536 65536" + " s v" * 8], {"s": NOTHING, "v": "()"}, "would have 1055200 words"),
    ("not plain", 16, [SEVEN_IMAGE, "unasm i t"], {}, "./stack show i lists any image."),
    ("recursive NAME", 17, ["need examples/calls/down.gypsy c"], {}, "The procedure p calls itself"),
    ("nothing", 19, [["check", b"\xff"]], {}, "A word of the command line is no text in UTF-8."),
]

# Kinds of tokens with one of them.
NAMED = {"a name": "x", "a number": "3"}

# Files for the next words. The assembly text stores behind its last label, and changes a word of its own code.
ROUNDS = "(program main (proc main () () () () (loop (no-op))))"
HEAD = ".base 0\n.size 16\n.final end\n.start begin\nbegin: MOVE r1,(r15)+\n"
LEFT = f"{HEAD}.word last\nMOVE (r1)+,#7\nMOVE r2,#0\nADD (r1)+,#0\nMOVE (r1),#-3\nMOVE (r2),#9\nend: DEC r15,r15\nkept: .word 5\nlast:\n"
TRIED = {
    "wrong.gypsy": "(())", "wrong.mini": "int x; x < 3;", "endless.gypsy": ROUNDS, "wrong.asm": "x: MOVE\n", "wrong.piton": "; no system\n(piton)",
    "left.asm": f"; an assembly text\n{LEFT}", "outside.asm": f"{HEAD}.word 500\nMOVE (r1),#3\nend: DEC r15,r15\n",
}
AREAS = "halted 2\ncounted 6\na (nat 1) (int -2)\nb (addr a 1) (subr main)\nstack (bool f) (nat 1)\n"
# Words with few sizes and files, the status, what is printed, and what is told.
SUM = "examples/arrays/sum.gypsy"
FEW = [
    (f"try {SUM} a=(3,1,4,1,5)", 0, "finished 1276\ncondition normal\na = (3 1 4 1 5)\nsum = 14\n", "sum.values 15 14 1000000000 sum.image"),
    (f"try {SUM}", 0, "finished 1276\ncondition normal\na = (0 0 0 0 0)\nsum = 0\n", f"./stack values {SUM} >sum.values"),
    (["try", SUM, "a=3 1 4 1 5"], 0, "finished 1276\ncondition normal\na = (3 1 4 1 5)\nsum = 14\n", f"./stack values {SUM} 'a=3 1 4 1 5' >sum.values"),
    ("try examples/calls/down.gypsy n=0", 0, "finished 105\ncondition normal\nn = 0\n", "down.values 1000 1000 1000000000 down.image"),
    ("try examples/infix/gcd.mini x=12 y=18", 0, "finished 940\ncondition normal\nx = 6\ny = 6\n", "./stack mini examples/infix/gcd.mini gcd.gypsy"),
    (f"try {SUM} a=(1,2)", 3, "values V6 at 1\n", "the values:1:2: V6:"),
    (f"try {SUM} a=1", 3, "values V6 at 1\n", "a has 5 items, and here is 1"),
    (f"try {SUM} a=(2147483647,1,0,0,0)", 0, "finished 441\ncondition routineerror\na = (2147483647 1 0 0 0)\nsum = 2147483647\n", "the condition routineerror was raised here: 11:5 (mg-integer-add sum sum item) in main:"),
    ("try endless.gypsy", 5, "unfinished 1000000000\n", "10,000,000 instructions weren't enough. After 1,000,000 steps the source is here"),
    (f"try {SUM} b=3", 1, "", "b names no formal of main. These can be given: a=, sum="),
    ("try wrong.gypsy", 2, "refused M1 at 0\n", "wrong.gypsy:1:1: M1:"),
    ("try wrong.mini", 2, "refused Y1 at 9\n", "wrong.mini:1:10: Y1:"),
    ("try nowhere", 9, "missing nowhere\n", "There is no file nowhere."),
    ("try examples/assembly/sum.asm", 0, "finished 23\ntable = (3 1 4 1 5)\nsum = 14\n", "./stack end sum.image sum.values 1000000000"),
    ("try examples/piton/areas.piton", 0, f"{AREAS}finished 6\na = (1 -2)\nb = (12 0)\n", "./stack pbuild examples/piton/areas.piton areas.image"),
    ("try left.asm", 0, "finished 6\nkept = 5\nlast = (7 0 -3)\n00000000 00e0043f 00000009\n", "./stack asm left.asm left.image"),
    ("try examples/assembly/sum.asm table=3", 1, "", "this text has its words in itself"),
    ("try wrong.asm", 2, "refused A2 at 0\n", "wrong.asm:1:4: A2:"),
    ("try wrong.piton", 2, "refused P1 at 12\n", "wrong.piton:2:1: P1:"),
    ("try outside.asm", 6, "outside 000001f4 after 1\n", "which isn't in the image's window"),
    ("try", 1, "", "wanted is ./stack try SRC"),
    (f"values {SUM} sum=7", 0, "((a (0 0 0 0 0))\n (sum 7))\n", ""),
    ("values examples/infix/gcd.mini y=2", 0, "((x 0)\n (y 2))\n", ""),
]

# Words that fit no command, and what is told.
MISFITS = [
    ("compile s", "Was one of these meant? ./stack build SRC CTRL TEMP IMG"),
    ("simulate s", "Was one of these meant? ./stack run IMG VALS BUDGET"),
    ("disassemble i", "Was one of these meant? ./stack show IMG"),
    ("chekc t", "chekc is no command. Was one of these meant? ./stack check SRC"),
    ("GO", "./stack go SRC VALS CTRL TEMP BUDGET IMG"),
    ("go s v 0 3 28 i", "CTRL 0 CTRL is 1 to 65,536"),
    ("go s v 7 3 28", "IMG IMG is missing"),
    ("show i j", "j one word too many"),
    ("debug gipsy s v 7 3 d", "LEVEL gipsy LEVEL is gypsy, piton or fm9001"),
]

# Words, the status, and whether a lost file and a stored image are told.
SLIPS = [
    ("build a.gypsy 7 3 i", 0, (False, True)),
    ("build a.gypsy 7 3 a.gypsy", 0, (True, True)),
    ("build a.gypsy 7 3 ./a.gypsy", 0, (True, True)),
    ("go a.gypsy v 7 3 28 v", 0, (True, True)),
    ("build a.gypsy 7 3 other", 0, (True, True)),
    ("build a.gypsy 6 3 other", 12, (True, False)),
    ("go a.gypsy w 7 3 28 i", 3, (False, True)),
    ("go a.gypsy v 7 3 27 i", 5, (False, True)),
    ("go a.gypsy v 7 3 28 /dev/null", 0, (False, False)),
    ("check a.gypsy", 0, (False, False)),
]


def main(words=None):
    parser = parser_of(__doc__)
    parser.add_argument("stack", type=executable, help="the script `stack` of a checkout in which the program is built")
    stack = parser.parse_args(words).stack
    with tempfile.TemporaryDirectory() as room:
        rows = Rows(stack, room)
        themes = (rows.rules, rows.endings, rows.words, rows.slips, rows.streams, rows.names, rows.texts, rows.mistakes, rows.expected, rows.few_words, rows.transcript)
        for theme in themes:
            theme()
    print(", ".join(f"{theme}: {count}" for theme, count in rows.counts.items()))
    return 1 if rows.failed else 0


if __name__ == "__main__":
    sys.exit(main())
