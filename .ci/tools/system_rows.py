#!/usr/bin/env python3
"""Tries the program where the system gives little: a small stack, little memory, a reader that leaves, a limit for the length of files, an end by a
signal while a file is stored, and files that can't give way to new ones.

The least stack, in KB, is that of docs/working/limits.md: with it the deepest texts of each language end as with a large one. Prints a line for each row
that fails, and how many rows there were. The exit status is 1 where one failed. Where it runs as root, what rights forbid is tried as nobody.
"""
import os
import re
import resource
import select
import shutil
import signal
import subprocess
import sys
import tempfile
import time
from pathlib import Path

sys.path.append(str(Path(__file__).resolve().parents[2] / "tools"))

from arguments import parser_of  # noqa: E402
from arguments import program as executable  # noqa: E402

TOP = Path(__file__).resolve().parents[2]
ROW = re.compile(r"^\| (\d+) KB \|", re.M)
SESSION = re.compile(r"^\| (\d+) MB \|", re.M)
AMPLE = 8192
NESTED = 196
KILLS = 40
NOBODY = 65534
OLD = b"FM91 of old"


def gypsy(front, behind):
    """A source whose statement nests as deep as a text can."""
    return f"(program main (proc main ((b boolean)) () () () {front * NESTED}(no-op){behind * NESTED}))"


# The deepest texts, by what nests in them.
SOURCES = {
    "loop": gypsy("(loop ", ")"),
    "if": gypsy("(if b (no-op) ", ")"),
    "begin": gypsy("(begin ", " (routineerror) (no-op))"),
    "seq": gypsy("(seq ", ")"),
}
INFIX = "int x; bool b;" + "while b {" * 40 + f"x := {'(' * 40}x{')' * 40};" + "}" * 40
INFIX_OPERATORS = "int x;" + f"x := {'x + (' * 38}x{')' * 38};"
PITON = "(piton main 2 1 0 () () (main () () " + "(no-op) " * 100_000 + "(ret)))"
COMMANDS = [
    *((f"{name} nested", {"s": text}, words) for name, text in SOURCES.items() for words in (
        "check s", "mean s v 2000 2000 100", "pit s 2000 2000 o", "build s 2000 2000 o", "go s v 2000 2000 100 o", "need s o",
        "debug gypsy s v 2000 2000 d", "debug piton s v 2000 2000 d", "debug fm9001 s v 2000 2000 d", "turns 10 100 2000 2000 s v",
    )),
    ("blocks and brackets", {"s": INFIX}, "mini s o"),
    ("operators", {"s": INFIX_OPERATORS}, "mini s o"),
    ("a large system", {"s": PITON}, "pbuild s o"),
    ("lists", {"s": "(" * 200}, "check s"),
    ("lists of values", {"s": SOURCES["loop"], "v": "(" * 200}, "mean s v 2000 2000 1"),
]
BESIDE = {"v": "((b true))", "d": "step 9\nshow\nup\n"}

# A main that shows much and never ends, and its values; so often it is shown, which is more text than a session has memory.
ARRAYS = [f"a{number}" for number in range(15)]
FORMALS = " ".join(f"({name} (array integer 4096))" for name in ARRAYS)
ITEMS = " ".join(["-1000000000"] * 4096)
SHOWING = {"s": f"(program main (proc main ({FORMALS}) () () () (loop (no-op))))", "v": f"({' '.join(f'({name} ({ITEMS}))' for name in ARRAYS)})"}
SHOWS = 100
WAIT = 120


def limited(which, size, ignored=()):
    """What a process does before its program: it takes less of the system, and ignores signals."""
    def before():
        resource.setrlimit(resource.RLIMIT_CORE, (0, 0))
        resource.setrlimit(which, (size, resource.getrlimit(which)[1]))
        for it in ignored:
            signal.signal(it, signal.SIG_IGN)
    return before


class Rows:
    """Runs rows, and notes those that fail."""

    def __init__(self, program):
        self.program, self.count, self.failed = str(program), 0, 0

    def note(self, holds, row, seen):
        self.count += 1
        if not holds:
            self.failed += 1
            print(f"system: {row!r:.200}\n    {seen!r:.300}")

    def run(self, files, words, before, stdout=subprocess.PIPE):
        """The status of a command, what it printed, and the file `o`, where there is one."""
        with tempfile.TemporaryDirectory() as folder:
            for name, content in (BESIDE | files).items():
                Path(folder, name).write_text(content)
            # A limit for files is the folder's files' too, so they are written before.
            ran = subprocess.run([self.program, *words.split()], cwd=folder, stdout=stdout, preexec_fn=before, check=False)
            made = Path(folder, "o").read_bytes() if Path(folder, "o").exists() else None
        return ran.returncode, ran.stdout, made

    def least_stack(self, files, words):
        """The least stack, in steps of 16 KB, with which a command ends as with a large one."""
        whole = self.run(files, words, limited(resource.RLIMIT_STACK, AMPLE * 1024))
        return next(it for it in range(16, AMPLE, 16) if self.run(files, words, limited(resource.RLIMIT_STACK, it * 1024)) == whole)

    def stacks(self, size):
        """With a stack of this size each command ends as with a large one."""
        for name, files, words in COMMANDS:
            whole, small = (self.run(files, words, limited(resource.RLIMIT_STACK, it * 1024)) for it in (AMPLE, size))
            self.note(whole == small and whole[0] >= 0, (name, words, size), small[0])

    def sessions(self, size):
        """What a session says to a line is printed before it carries out the next one, so this much memory is enough for more text than that."""
        for level in "gypsy", "piton", "fm9001":
            words = f"debug {level} s v 20 65000 d"
            little = limited(resource.RLIMIT_AS, size * 1024 * 1024)
            once, often = (self.run(SHOWING | {"d": "show\n" * it}, words, little) for it in (1, SHOWS))
            self.note(once[0] == often[0] == 0 and often[1] == once[1] * SHOWS, (words, size), (once[0], often[0], len(once[1]), len(often[1])))
            # The second line takes days.
            read = self.read_first(words, "step 1\nstep 1099511627776\n", ends=False)
            self.note(read == (b"stepped 1\n", -signal.SIGKILL), (words, "a line is there"), read)
        read = self.read_first("debug gypsy s v 20 65000 d", "show\n" * 200_000, ends=True)
        self.note(read[1] == 11, ("a reader has left", words), read)

    def read_first(self, words, script, ends):
        """The first line of a session whose reader then leaves, and the status: it ends by itself, or is killed."""
        with tempfile.TemporaryDirectory() as folder:
            for name, content in (SHOWING | {"d": script}).items():
                Path(folder, name).write_text(content)
            running = subprocess.Popen([self.program, *words.split()], cwd=folder, stdout=subprocess.PIPE)
            line = running.stdout.readline() if select.select([running.stdout], [], [], WAIT)[0] else None
            running.stdout.close()
            try:
                return line, running.wait(WAIT if ends else 0)
            except subprocess.TimeoutExpired:
                running.kill()
                return line, running.wait()

    def file_limits(self):
        """A file that would be too long isn't stored, and an old one stays: the end is a signal, or a status where that is ignored."""
        files, build = {"s": SOURCES["loop"]}, "build s 2000 2000 o"
        for size in 0, 1024:
            for ignored, status in ((), -signal.SIGXFSZ), ((signal.SIGXFSZ,), 10):
                for old in {}, {"o": OLD.decode()}:
                    ended = self.run(files | old, build, limited(resource.RLIMIT_FSIZE, size, ignored))
                    self.note(ended[0] == status and ended[2] == (OLD if old else None), ("build", size, status, old), ended)
        for ignored, status in ((), -signal.SIGXFSZ), ((signal.SIGXFSZ,), 11):
            with tempfile.TemporaryFile() as out:
                ended = self.run(files, "check s", limited(resource.RLIMIT_FSIZE, 0, ignored), out)
                self.note(ended[0] == status, ("check", status), ended[0])

    def kills(self):
        """A command that is ended while it stores leaves the old file or the whole new one, and perhaps a part under a name of its own."""
        seen = dict.fromkeys(("old", "whole", "part"), 0)
        with Room(self.program) as room:
            Path(room.folder, "p").write_text(PITON)
            build = [room.build[0], "pbuild", "p", "o"]
            image, part = Path(room.folder, "o"), Path(room.folder, "partly-stored-1")
            subprocess.run(build, cwd=room.folder, stdout=subprocess.DEVNULL, check=True)
            whole = image.read_bytes()
            for number in range(KILLS):
                image.write_bytes(OLD)
                running = subprocess.Popen(build, cwd=room.folder, stdout=subprocess.DEVNULL)
                while running.poll() is None and not part.exists() and image.stat().st_size == len(OLD):
                    pass
                time.sleep(number // 3 * 0.0001)
                running.send_signal(signal.SIGKILL if number % 2 else signal.SIGINT)
                running.wait()
                left, rest = image.read_bytes(), room.parts()
                seen["old"] += left == OLD
                seen["whole"] += left == whole
                seen["part"] += len(rest)
                holds = left in (OLD, whole) and len(rest) <= 1 and all(whole.startswith(it) for it in rest)
                self.note(holds, ("killed", number), (len(left), rest))
                part.unlink(missing_ok=True)
        return seen

    def kept(self):
        """What a store keeps of the file that it replaces: its rights; and what it doesn't replace: links, second names, and what is no file."""
        with Room(self.program) as room:
            whole, image = room.stored("first"), Path(room.folder, "o")
            for mode in 0o600, 0o640, 0o644, 0o755, 0o666, 0o4755, 0o2755, 0o1755:
                image.write_bytes(OLD)
                image.chmod(mode)
                self.note(room.stored("o") == whole and image.stat().st_mode & 0o7777 == mode & 0o777, ("rights", oct(mode)), oct(image.stat().st_mode))
            for make, name in (lambda old, new: new.symlink_to(old.name), "link"), (lambda old, new: new.hardlink_to(old), "second"):
                image.write_bytes(OLD)
                other = Path(room.folder, name)
                make(image, other)
                before = image.stat().st_ino, other.is_symlink()
                self.note(room.stored(name) == whole == image.read_bytes(), name, image.read_bytes())
                self.note(before == (image.stat().st_ino, other.is_symlink()), (name, "stays"), before)
                other.unlink()
            Path(room.folder, "far").symlink_to("away")
            self.note(room.stored("far") == whole == Path(room.folder, "away").read_bytes(), "a link to no file", room.parts())
            for name in "/dev/null", "a" * 255, "/dev/full", "none/o", ".":
                ended = room.run(name)
                self.note(ended.returncode == (10 if name in ("/dev/full", "none/o", ".") else 0), name[:9], ended)
            ended = room.run("/dev/stdout", stdout=subprocess.PIPE)
            self.note(ended.stdout.startswith(whole), "/dev/stdout", ended.stdout[-20:])
            os.mkfifo(Path(room.folder, "pipe"))
            running = subprocess.Popen([*room.build, "2000", "2000", "pipe"], cwd=room.folder, stdout=subprocess.DEVNULL)
            taken = Path(room.folder, "pipe").read_bytes()
            self.note(taken == whole and running.wait() == 0, "a pipe with a name", len(taken))
            self.note(room.parts() == [], "nothing is left", room.parts())
            Path(room.folder, "partly-stored-1").write_bytes(OLD)
            self.note(room.stored("o") == whole and room.parts() == [OLD], "an older part stays", room.parts())

    def own_output(self):
        """The ordinary file that standard output is open on isn't stored, by whatever name, and keeps what it had; any other file is."""
        names = "/dev/stdout", "/dev/fd/1", "/proc/self/fd/1", "out", "link", "second", "behind/../out"
        with Room(self.program) as room:
            out = Path(room.folder, "out")
            out.touch()
            Path(room.folder, "link").symlink_to("out")
            Path(room.folder, "second").hardlink_to(out)
            Path(room.folder, "behind").mkdir()
            for name in names:
                for old in b"", OLD:
                    out.write_bytes(old)
                    with open(out, "ab") as opened:
                        ended = room.run(name, stdout=opened)
                    left = out.read_bytes()
                    self.note(ended.returncode == 10 and left == old + f"shelf fault {name}\n".encode(), ("own output", name, old), (ended, left[:40]))
            with open(out, "wb") as opened:
                ended = room.run("o", stdout=opened)
            self.note(ended.returncode == 0 and Path(room.folder, "o").exists() and out.read_bytes().startswith(b"built "), "beside the output", ended)
            with open(Path(room.folder, "gone"), "w+b") as opened:
                Path(room.folder, "gone").unlink()
                ended = room.run("/dev/stdout", stdout=opened)
                opened.seek(0)
                self.note(ended.returncode == 10 and opened.read() == b"shelf fault /dev/stdout\n", "an output without a name", ended)
            whole = room.stored("first")
            Path(room.folder, "o").write_bytes(OLD)
            ended = subprocess.run([*room.build, "2000", "2000", "o"], cwd=room.folder, preexec_fn=lambda: os.close(1), check=False)
            self.note(ended.returncode == 11 and Path(room.folder, "o").read_bytes() == whole, "a closed output", ended)
            self.note(room.parts() == [], "nothing is left", room.parts())

    def unreadable(self):
        """What is there and is no file, or would lie in a file, isn't read."""
        for name in ".", "s/in-a-file", "s/":
            ended = self.run({"s": SOURCES["loop"]}, f"check {name}", lambda: None)
            self.note(ended[:2] == (10, f"shelf fault {name}\n".encode()), ("check", name), ended)

    def forbidden(self):
        """What rights forbid: a file that may not be written stays, and one whose folder may not be is written in place."""
        with Room(self.program, NOBODY if os.geteuid() == 0 else None) as room:
            whole, image, folder = room.stored("first"), Path(room.folder, "o"), Path(room.folder)
            image.write_bytes(OLD)
            image.chmod(0o444)
            room.give(image)
            self.note(room.run("o").returncode == 10 and image.read_bytes() == OLD, "a file that isn't to be written", image.read_bytes()[:20])
            image.chmod(0o644)
            folder.chmod(0o555)
            before = image.stat().st_ino
            self.note(room.stored("o") == whole and image.stat().st_ino == before, "a folder that isn't to be written", image.stat())
            self.note(room.run("new").returncode == 10 and not Path(folder, "new").exists(), "no new file there", None)
            folder.chmod(0o755)
            if os.geteuid() == 0:
                image.write_bytes(OLD)
                os.chown(image, 0, 0)
                image.chmod(0o666)
                before = image.stat().st_ino
                room.give(folder)
                self.note(room.stored("o") == whole and (image.stat().st_ino, image.stat().st_uid) == (before, 0), "a file of another's", image.stat())
            self.note(room.parts() == [], "nothing is left", room.parts())

    def together(self):
        """Commands that store under one name at once: one of them is there, whole."""
        with Room(self.program) as room:
            whole = {size: room.stored("o", size) for size in (2000, 3000, 4000)}
            for _ in range(10):
                running = [subprocess.Popen([*room.build, str(it), str(it), "o"], cwd=room.folder, stdout=subprocess.DEVNULL) for it in whole]
                ended = [it.wait() for it in running]
                left = Path(room.folder, "o").read_bytes()
                self.note(ended == [0, 0, 0] and left in whole.values() and not room.parts(), "three at once", (ended, len(left), room.parts()))


class Room:
    """A folder with a source, in which the program builds it; as another user, where one is given."""

    def __init__(self, program, user=None):
        self.user, self.held = user, tempfile.TemporaryDirectory()
        self.folder = self.held.name
        own = shutil.copy(program, Path(self.folder, "program"))
        Path(self.folder, "s").write_text(SOURCES["loop"])
        self.build = [own, "build", "s"]
        self.give(self.folder)

    def __enter__(self):
        return self

    def __exit__(self, *_):
        self.held.cleanup()

    def give(self, path):
        if self.user is not None:
            os.chown(path, self.user, self.user)

    def run(self, name, size=2000, stdout=subprocess.DEVNULL):
        words = [*self.build, str(size), str(size), name]
        return subprocess.run(words, cwd=self.folder, stdout=stdout, check=False, user=self.user, group=self.user)

    def stored(self, name, size=2000):
        """The file of a name, after a build into it that ends well; otherwise nothing."""
        ended = self.run(name, size)
        return None if ended.returncode else Path(self.folder, name).read_bytes()

    def parts(self):
        return [it.read_bytes() for it in sorted(Path(self.folder).glob("partly-stored-*"))]


def main():
    parser = parser_of(__doc__)
    parser.add_argument("program", type=executable, help="cli_stack")
    parser.add_argument("--measure", action="store_true", help="print the least stack of each command, in place of the rows")
    words = parser.parse_args()
    rows = Rows(words.program)
    if words.measure:
        for name, files, line in COMMANDS:
            print(f"{rows.least_stack(files, line):5} KB  {name}: {line}", flush=True)
        return 0
    limits = (TOP / "docs/working/limits.md").read_text()
    rows.stacks(int(ROW.search(limits).group(1)))
    rows.sessions(int(SESSION.search(limits).group(1)))
    rows.file_limits()
    rows.kept()
    rows.own_output()
    rows.unreadable()
    rows.forbidden()
    rows.together()
    seen = rows.kills()
    told = f"of {KILLS} commands killed {seen['old']} left the old file, {seen['whole']} the new one, and {seen['part']} a part beside it"
    print(f"{rows.count:5} rows: system, {rows.failed} failed; {told}")
    return 1 if rows.failed else 0


if __name__ == "__main__":
    sys.exit(main())
