#!/usr/bin/env python3
"""Tries what the script `stack` and the scripts that it calls do with hostile words, files, surroundings and signals.

    python3 .ci/tools/script_rows.py STACK

STACK is the script of a checkout in which the program is built. Most rows run it beside a program that is played, which is as slow, as loud or as long as
a row wants: so no row depends on how fast a machine is. No byte of the program's output may be lost or changed, no file be lost that wasn't asked for, no
traceback and no character that moves a cursor be told, and nothing be left behind. Prints a line for each row that fails, and how many rows there were of
each theme. The exit status is 1 where one failed.
"""
import os
import pty
import resource
import select
import shutil
import signal
import subprocess
import sys
import tempfile
import time
from pathlib import Path

sys.path.append(str(Path(__file__).resolve().parents[2] / "tools"))

from arguments import parser_of  # noqa: E402
from arguments import program as executable  # noqa: E402

WAIT = 60
SOURCE = "(program main (proc main ((x integer)) () ((one integer 1)) () (seq (mg-integer-add x x one) (mg-integer-add x x one))))"
SCRIPT = b"step 300000000\nshow\nstep 1\n"
IMAGE = b"FM91\0\0\0\1" + bytes(range(256)) * 3
# A name that would colour, one with a control character of two bytes, and one that turns the order of what is shown.
NAMES = ["\x1b[31mred", "c1\u009b31m", "turned\u202eback"]
RAW = [b"\x1b[31m", b"\xc2\x9b", b"\xe2\x80\xae"]
# What plays the program. It reads its script before it says anything, as the program does.
PLAYED = r"""#!/bin/sh
case $1 in
debug) [ "$PLAYS" != endless ] || exec yes 'at 14 depth 1
condition normal
stepped 1'
    said=$(cat "$7"); sleep 3; printf '%s\n' "$said" ;;
go) cat "$SHOWN" >"$7"; echo finished 1 ;;
build) cat "$SHOWN" >"$5"; echo built 1 ;;
pit) echo "(piton)" >"$5"; echo "written $5" ;;
run) sleep 3; cat "$SHOWN" ;;
check) [ "$PLAYS" != slow ] || exec sleep 60; [ "$PLAYS" != loud ] || exec seq 100000; echo ok ;;
show) [ "$PLAYS" != endless ] || exec yes "00000000 00000000 an instruction of a listing that doesn't end"; echo shown ;;
*) echo usage; exit 1 ;;
esac
"""
PROVED = "commit 0123456789\nkit rattle-kit\nlogic 0\nproved on 2026-01-01 00:00 UTC\ncrates 1\nsha256 0\n"


class Rows:
    """Runs rows, and notes those that fail."""

    def __init__(self, stack, room):
        self.top, self.room = Path(stack).resolve().parent, Path(room)
        self.stack, self.played = self.top / "stack", self.lay_out("played")
        self.failed, self.counts = 0, {}

    def lay_out(self, name):
        """A checkout whose program is played."""
        folder = self.room / name
        for it in ("guide", "docs/program", "docs/languages", "editor", "examples/first", "conformance", "hardware"):
            shutil.copytree(self.top / it, folder / it)
        shutil.copy(self.top / "stack", folder / "stack")
        for it in ("crates.txt", "README.md", "CHANGES.md", "CITATION.cff", "CONTRIBUTING.md"):
            shutil.copy(self.top / it, folder / it)
        # As a release has it.
        (folder / "docs/proved").mkdir()
        (folder / "docs/proved/implements.txt").write_text("what is believed\n")
        made = folder / "crates/cli_stack/out"
        made.mkdir(parents=True)
        (made / "cli_stack.proved").write_text(PROVED)
        (made / "cli_stack").write_text(PLAYED)
        (made / "cli_stack").chmod(0o755)
        return folder / "stack"

    def note(self, theme, holds, row, seen=""):
        self.counts[theme] = self.counts.get(theme, 0) + 1
        if not holds:
            self.failed += 1
            print(f"{theme}: {row!r:.200}\n    {seen!r:.600}", flush=True)

    def folder(self):
        """A folder with files for the words, which is the current one."""
        path = Path(tempfile.mkdtemp(dir=self.room))
        (path / "tmp").mkdir()
        for name, content in {"S": SOURCE.encode(), "V": b"((x 5))", "C": SCRIPT, "image": IMAGE}.items():
            (path / name).write_bytes(content)
        return path

    @staticmethod
    def environment(folder, more):
        """What is set for the script, and for the played program: what it shows, and how it plays."""
        return os.environ | {"STACK_EXPLAIN": "1", "TERM": "xterm", "TMPDIR": str(folder / "tmp"), "SHOWN": str(folder / "image"), "PLAYS": ""} | more

    def run(self, folder, words, stack=None, explains="1", more=None, **how):
        """How the script ends on these words: its status, or `hangs`, what it printed, and what it told."""
        environment = self.environment(folder, {"STACK_EXPLAIN": explains} | (more or {}))
        streams = {"stdin": subprocess.DEVNULL, "stdout": subprocess.PIPE, "stderr": subprocess.PIPE, "cwd": folder, "env": environment} | how
        given = streams.pop("given", None)
        if given is not None:
            streams["stdin"] = subprocess.PIPE
        running = subprocess.Popen([stack or self.played, *words], start_new_session=True, **streams)
        try:
            printed, told = running.communicate(given, WAIT)
            return running.returncode, printed, told
        except subprocess.TimeoutExpired:
            os.killpg(running.pid, signal.SIGKILL)
            return "hangs", *running.communicate()

    def on_terminal(self, folder, words, stack=None, keys=b"", awaited=b"", out=None, given=None):
        """The same where standard error is a terminal, and so is standard output where it goes nowhere else: then both are told together."""
        main, other = pty.openpty()
        streams = {"stdin": subprocess.PIPE if given is not None else other, "stdout": out or other, "stderr": other}
        environment = self.environment(folder, {"STACK_EXPLAIN": ""})

        def own_terminal():
            os.setsid()
            signal.signal(signal.SIGINT, signal.SIG_DFL)
            os.close(os.open(os.ttyname(2), os.O_RDWR))

        running = subprocess.Popen([stack or self.played, *words], cwd=folder, env=environment, preexec_fn=own_terminal, **streams)
        os.close(other)
        if given is not None:
            running.stdin.write(given)
            running.stdin.close()
        told, late = b"", time.monotonic() + WAIT
        while time.monotonic() < late and select.select([main], [], [], WAIT)[0]:
            try:
                told += os.read(main, 65536)
            except OSError:
                break
            if keys and awaited in told:
                os.write(main, keys)
                keys = b""
        if running.poll() is None and time.monotonic() >= late:
            os.killpg(running.pid, signal.SIGKILL)
            return "hangs", running.wait(), told
        os.close(main)
        return running.wait(WAIT), b"", told

    # ---- What the program reads and prints ----

    def sessions(self):
        """A script that can be read once is the program's alone."""
        words = ["debug", "fm9001", "S", "V", "20", "20"]
        folder = self.folder()
        with open(folder / "out", "wb") as out:
            ended = self.on_terminal(folder, [*words, "/dev/stdin"], out=out, given=SCRIPT)
        self.note("streams", ended[0] == 0 and (folder / "out").read_bytes() == SCRIPT, "a script from a pipe", ended)
        os.mkfifo(folder / "pipe")
        writer = subprocess.Popen(["sh", "-c", "cat C >pipe"], cwd=folder)
        with open(folder / "out", "wb") as out:
            ended = self.on_terminal(folder, [*words, "pipe"], out=out)
        writer.wait()
        self.note("streams", ended[0] == 0 and (folder / "out").read_bytes() == SCRIPT, "a script from a pipe with a name", ended)
        for script, wanted in (b"step 300000000\n", True), (b"step 300000000\nuntil 4 99999999999\n", False):
            (folder / "C").write_bytes(script)
            ended = self.on_terminal(folder, [*words, "C"], keys=b"\x03", awaited=b"debug runs, 2")
            reckons = b"steps were made" in ended[2]
            self.note("streams", ended[0] == -signal.SIGINT and b"prints at its end alone" not in ended[2] and reckons <= wanted, script, ended)

    def bytes(self):
        """Each byte of the program's output comes, whatever it is."""
        for words, wanted in (["run", "image", "V", "9"], IMAGE), (["go", "S", "V", "20", "20", "9", "/dev/stdout"], IMAGE + b"finished 1\n"):
            folder = self.folder()
            reading, writing = os.pipe()
            with open(folder / "out", "wb") as out:
                reader = subprocess.Popen(["cat"], stdin=reading, stdout=out)
                os.close(reading)
                with os.fdopen(writing, "wb") as pipe:
                    ended = self.on_terminal(folder, words, out=pipe)
                reader.wait()
            self.note("streams", ended[0] == 0 and (folder / "out").read_bytes() == wanted, words, ended)
            ended = self.run(folder, words)
            self.note("streams", ended[:2] == (0, wanted), (words, "explained"), ended)

    def blocking(self):
        """A pipe that another program has made not to wait for its reader loses nothing, and stays so there."""
        wanted = "".join(f"{it}\n" for it in range(1, 100_001)).encode()
        for explains, more in ("0", {}), ("1", {}), ("0", {"POSIXLY_CORRECT": "1"}):
            folder = self.folder()
            reading, writing = os.pipe()
            os.set_blocking(writing, False)
            environment = self.environment(folder, {"STACK_EXPLAIN": explains, "PLAYS": "loud"} | more)
            running = subprocess.Popen([self.played, "check", "S"], stdin=subprocess.DEVNULL, stdout=writing, stderr=subprocess.PIPE, cwd=folder, env=environment)
            # A reader that comes late: until then a pipe holds 64 KB.
            time.sleep(1)
            stays = not os.get_blocking(writing)
            os.close(writing)
            with os.fdopen(reading, "rb") as pipe:
                printed = pipe.read()
            ended = running.wait(), running.stderr.read()
            self.note("streams", ended == (0, b"") and printed == wanted and stays, ("a pipe that doesn't block", explains, more), (ended, len(printed), stays))

    def own_output(self):
        """What is stored isn't written over by what is printed."""
        for name in "/dev/stdout", "/dev/fd/1", "out":
            for explains in "01":
                for old in b"", b"what was there":
                    folder = self.folder()
                    (folder / "out").write_bytes(old)
                    with open(folder / "out", "ab") as out:
                        ended = self.run(folder, ["build", "S", "20", "20", name], explains=explains, stdout=out)
                    self.note("own output", ended[0] == 70 and b"is standard output too" in ended[2] and (folder / "out").read_bytes() == old, (name, explains, old), ended)
        folder = self.folder()
        with open(folder / "out", "wb") as out:
            ended = self.run(folder, ["build", "S", "20", "20", "/dev/stderr"], stderr=out)
        self.note("own output", (folder / "out").read_bytes() == IMAGE and ended[1] == b"built 1\n", "/dev/stderr", ended)

    # ---- Words that ask Python ----

    def statuses(self):
        """Files that can't be read or stored, and output that can't be written, have the documented statuses."""
        rows = {
            "trace": lambda source: ["trace", source, "V", "20", "20"], "listing": lambda source: ["listing", source, "20", "20"],
            "page": lambda source: ["page", source, "V", "20", "20", "100", "page.html"], "try": lambda source: ["try", source],
            "values": lambda source: ["values", source], "end": lambda source: ["end", source, "V", "9"],
        }
        for name, row in rows.items():
            for source, status in ("nowhere", 9), ("tmp", 10), ("S/x", 10), ("x" * 256, 10):
                ended = self.run(self.folder(), row(source), self.stack)
                self.note("statuses", ended[0] == status and ended[1].startswith((b"missing ", b"shelf fault ")) and b"Traceback" not in ended[2], row(source), ended)
        for words in rows["trace"]("S"), rows["listing"]("S"), rows["try"]("S"), rows["values"]("S"), rows["page"]("S"), ["help"], ["--version"]:
            folder = self.folder()
            with open("/dev/full", "wb") as full:
                ended = self.run(folder, words, self.stack, stdout=full)
            self.note("statuses", ended[0] == 11 and b"Traceback" not in ended[2] and b"Exception" not in ended[2], (words, "/dev/full"), ended)
            if words[0] not in ("page", "--version"):
                closed = subprocess.run(["bash", "-c", 'exec >&-; exec "$0" "$@"', self.stack, *words], cwd=folder, stderr=subprocess.PIPE, check=False)
                self.note("statuses", closed.returncode == 11, (words, "closed"), closed)
        folder = self.folder()
        ended = self.run(folder, rows["page"]("S")[:-1] + ["tmp"], self.stack)
        self.note("statuses", ended[:2] == (10, b"shelf fault tmp\n"), "a page that is a folder", ended)
        ended = self.run(folder, ["try", "S", b"x=\xff"], self.stack)
        self.note("statuses", ended[0] == 3 and b"Traceback" not in ended[2], "a value that is no text", ended)

    def sources(self):
        """Sources with comments between a list and its first word, and what can't be listed."""
        folder = self.folder()
        (folder / "commented").write_text("(program main (;c\nproc main ((x integer)) () ()()\n(mg-integer-add x x y)))")
        ended = self.run(folder, ["check", "commented"], self.stack)
        self.note("sources", ended[0] == 2 and b"S14" in ended[2] and b"The procedure has x." in ended[2], "a comment before `proc`", ended)
        for kind in "(array integer 100000000)", "(array integer 4_0)", "(array integer 4097)", "(array integer 0)", "((integer))":
            (folder / "large").write_text(f"(program main (proc main ((x {kind})) () () () (no-op)))")
            ended = self.run(folder, ["values", "large"], self.stack)
            self.note("sources", ended[:2] == (1, b"") and b"check says what is wrong" in ended[2] and b"Traceback" not in ended[2], kind, ended)
        (folder / "large").write_text("(program main (proc main ((x (array integer 0003))) () () () (no-op)))")
        ended = self.run(folder, ["values", "large"], self.stack)
        self.note("sources", ended[1] == b"((x (0 0 0)))\n", "zeros before a length", ended)
        for number in "1_0", " 10", "+10", "\uff11\uff10", "1" * 21:
            for words in (["trace", "S", "V", number, "20"], ["listing", "S", number, "20"], ["page", "S", "V", number, "20", "100", "page.html"]):
                ended = self.run(folder, words, self.stack)
                self.note("sources", ended[0] == 1, words, ended)

    def growth(self):
        """A trace is printed as it comes, a page says where it would be too large, and of a long statement no more is read than is shown."""
        folder, endless = self.folder(), {"PLAYS": "endless"}
        running = subprocess.Popen([self.played, "trace", "S", "V", "20", "20", "20000"], cwd=folder, stdout=subprocess.PIPE, env=self.environment(folder, endless), start_new_session=True)
        first = running.stdout.readline() if select.select([running.stdout], [], [], WAIT)[0] else b"nothing"
        os.killpg(running.pid, signal.SIGKILL)
        running.communicate()
        self.note("growth", first.startswith(b"    1 "), "a trace whose run never ends", first)
        limit = lambda: resource.setrlimit(resource.RLIMIT_AS, (3 << 30, 3 << 30))  # noqa: E731
        ended = self.run(folder, ["page", "S", "V", "20", "20", "100", "page.html"], more=endless, preexec_fn=limit)
        self.note("growth", ended[0] == 70 and b"MOMENTS" in ended[2] and b"Traceback" not in ended[2], "a page without an end", ended)
        (folder / "large").write_text(f"(program main (proc main ((b boolean)) () () () (if b (seq {'(no-op) ' * 100_000}) (no-op))))")
        asked = "import sys; sys.path.insert(0, sys.argv[1]); import places; n = 0\ndef counted(*words):\n    global n\n    for it in plain(*words): n += 1; yield it\n"
        asked += "source = places.Source(open('large', 'rb').read()); plain, places.tokens = places.tokens, counted\n"
        asked += "print(source.where(48), source.statement(48), n)"
        ended = subprocess.run([sys.executable, "-c", asked, str(self.top / "guide")], cwd=folder, capture_output=True, text=True, check=False)
        seen = ended.stdout.split()
        self.note("growth", seen[:2] == ["1:49", "(if"] and int(seen[-1]) < 100, "a long statement", ended)

    def pages(self):
        """A page comes whole or not at all, whatever its source is called."""
        folder = self.folder()
        (folder / "page.html").write_text("<!doctype html> of old")
        shutil.copy(folder / "S", os.fsencode(folder) + b"/\xff.gypsy")
        words = [b"page", b"\xff.gypsy", b"V", b"20", b"20", b"5", b"page.html", b"5"]
        ended = self.run(folder, words, self.stack)
        self.note("pages", ended[0] == 0 and (folder / "page.html").stat().st_size > 10_000, "a name that is no text", ended)
        (folder / "page.html").write_text("<!doctype html> of old")
        limit = lambda: resource.setrlimit(resource.RLIMIT_FSIZE, (30_000, 30_000))  # noqa: E731
        ended = self.run(folder, ["page", "S", "V", "20", "20", "5", "page.html", "5"], self.stack, preexec_fn=limit)
        left = sorted(os.listdir(folder))
        self.note("pages", ended[0] == 10 and (folder / "page.html").read_text() == "<!doctype html> of old", "a full disk", ended)
        self.note("pages", not [it for it in left if "partly" in it] and not os.listdir(folder / "tmp"), "nothing is left", left)
        ended = self.on_terminal(folder, ["page", "S", "V", "20", "20", "5", "S", "5"], self.stack, b"n\n", b"go on?")
        self.note("pages", ended[0] == 130 and (folder / "S").read_text() == SOURCE, "a page that is its source", ended)

    # ---- The board ----

    def boards(self):
        """`hardware/run` refuses what `run` refuses, with its line and status, and needs no simulator for that."""
        folder = self.folder()
        self.run(folder, ["build", "S", "20", "20", "image"], self.stack)
        image = (folder / "image").read_bytes()
        slot = image.index(b"\0\0\0\1x")
        images = {
            "an end outside": image[:16] + b"\xff\xff\xff\0" + image[20:], "flags": image[:84] + b"\0\0\0\x10" + image[88:],
            "a condition word outside": image[:88] + b"\xff\xff\xff\0" + image[92:], "a slot above": image[:slot + 13] + b"\0\x10\0\0" + image[slot + 17:],
            "a name": image[:slot + 4] + b"(" + image[slot + 5:], "bytes behind": image + b"x", "a part": image[:200], "a length": image[:slot] + b"\xff\xff\xff\xff",
            "one name twice": image[:slot - 4] + b"\0\0\0\2" + image[slot:slot + 17] + image[slot:],
        }
        values = ["((x\f5))", "((x\x1c5))", "((x\xa05))", "((x 1_0))", "((x 1) (x 2))", "((y 1))", "()", "((x 2147483648))", "((x #5))", "((x 5)) y"]
        for name, data, text in [*((name, it, "((x 5))") for name, it in images.items()), *((it, image, it) for it in values)]:
            (folder / "I").write_bytes(data)
            (folder / "W").write_bytes(text.encode("latin-1"))
            ended, wanted = (self.run(folder, ["run", "I", "W", "0"][first:], stack, explains="0") for first, stack in ((1, self.top / "hardware/run"), (0, self.stack)))
            self.note("boards", wanted[0] in (3, 4) and ended[:2] == wanted[:2] and b"Traceback" not in ended[2], name, (ended, wanted))

    # ---- What is told ----

    def terminals(self):
        """No line has a character that moves the cursor or turns the order, whoever prints it."""
        for name in NAMES:
            folder = self.folder()
            (folder / name).write_text("what is there")
            rows = [["build", "S", "20", "20", name], ["check", f"{name} nowhere"], ["pack", name]]
            for words in rows:
                ended = self.on_terminal(folder, words, self.played if words[0] != "check" else self.stack, b"y\n", b"go on?")
                self.note("terminals", not any(it in ended[2] for it in RAW) and b"?" in ended[2], words, ended)
            (folder / name).write_text(f"(program main (proc main (({name} integer)) () () () (no-op)))")
            for words in ["values", name], ["try", name], ["trace", f"{name} nowhere", "V", "20", "20"], ["help", name]:
                ended = self.on_terminal(folder, words, self.stack)
                told = ended[2].replace(b"\x1b[1m", b"").replace(b"\x1b[0m", b"").replace(b"\x1b[1;31m", b"")
                self.note("terminals", not any(it in told for it in RAW) and told, words, ended)

    def signals(self):
        """What is stopped leaves nothing, and says nothing of its own."""
        for words in ["page", "S", "V", "20", "20", "100", "page.html"], ["trace", "S", "V", "20", "20"], ["try", "S"]:
            for number in signal.SIGTERM, signal.SIGHUP, signal.SIGINT:
                folder = self.folder()
                # Who starts the rows may ignore a signal, as nohup does; a shell can't notice it then.
                noticing = lambda: [signal.signal(it, signal.SIG_DFL) for it in (signal.SIGTERM, signal.SIGHUP, signal.SIGINT)]  # noqa: E731
                running = subprocess.Popen([self.played, *words], cwd=folder, env=self.environment(folder, {"PLAYS": "slow"}), stdin=subprocess.DEVNULL, stdout=subprocess.PIPE, stderr=subprocess.PIPE, preexec_fn=noticing, start_new_session=True)
                late = time.monotonic() + WAIT
                while not asked_slowly(running.pid) and time.monotonic() < late:
                    time.sleep(0.05)
                running.send_signal(number)
                try:
                    told = running.communicate(timeout=WAIT)
                except subprocess.TimeoutExpired:
                    told = b"", b"it goes on"
                left = os.listdir(folder / "tmp"), asked_slowly(running.pid)
                if left[1]:
                    os.killpg(running.pid, signal.SIGKILL)
                holds = running.returncode == -number and not left[0] and not left[1] and b"Traceback" not in told[1]
                self.note("signals", holds, (words, number), (running.returncode, told, left))

    # ---- A release ----

    def releases(self):
        """What is packed and installed comes whole, beside what others have there."""
        folder, stack = self.folder(), self.played
        for name, more in ("one", {}), ("two", {"TAR_OPTIONS": "--exclude=*.md", "GZIP": "-1", "GIT_DIR": str(folder), "POSIXLY_CORRECT": "1"}):
            ended = self.run(folder, ["pack", f"{name}.tar.gz"], stack, more=more)
            self.note("releases", ended[0] == 0, more, ended)
        self.note("releases", (folder / "one.tar.gz").read_bytes() == (folder / "two.tar.gz").read_bytes(), "the same bytes in any environment")
        few = lambda: resource.setrlimit(resource.RLIMIT_FSIZE, (20_000, 20_000))  # noqa: E731
        old = (folder / "one.tar.gz").read_bytes()
        ended = self.run(folder, ["pack", "one.tar.gz"], stack, preexec_fn=few)
        self.note("releases", ended[0] not in (0, "hangs") and (folder / "one.tar.gz").read_bytes() == old, "a full disk", ended)
        program = folder / "local/bin/stack"
        for what, how, status in ("installed", {}, 0), ("a full disk", {"preexec_fn": few}, 70), ("installed again", {}, 0):
            ended = self.run(folder, ["install", "local"], stack, **how)
            works = self.run(folder, ["check", "S"], program, explains="0") if program.exists() else None
            parts = os.listdir(folder / "local/lib")
            self.note("releases", ended[0] == status and works == (0, b"ok\n", b"") and parts == ["verified-short-stack"], what, (ended, works, parts))
        self.note("releases", self.run(folder, ["install", ""], stack)[0] == 1, "no folder")
        for name in "bin/stack", "share/man/man1/stack.1", "share/bash-completion/completions/stack":
            other = folder / "other" / name
            other.parent.mkdir(parents=True)
            other.write_text("another program's")
            ended = self.run(folder, ["install", "other"], stack)
            self.note("releases", ended[0] == 70 and other.read_text() == "another program's" and not (folder / "other/lib").exists(), name, ended)
            shutil.rmtree(folder / "other")
        (folder / "other/bin/stack").mkdir(parents=True)
        ended = self.run(folder, ["install", "other"], stack)
        self.note("releases", ended[0] == 70 and not os.listdir(folder / "other/bin/stack"), "a folder", ended)

    # ---- Surroundings ----

    def surroundings(self):
        """Names, links, paths and limits of the system."""
        folder = self.folder()
        (folder / "-x").symlink_to(self.played)
        ended = self.run(folder, ["check", "S"], "./-x")
        self.note("surroundings", ended == (0, b"ok\n", b""), "a link called -x", ended)
        odd = self.lay_out("ends\n")
        ended = self.run(folder, ["check", "S"], odd)
        self.note("surroundings", ended == (0, b"ok\n", b""), "a checkout whose name ends in a line end", ended)
        (folder / "guide").mkdir()
        (folder / "guide/person.sh").write_text("echo of another's\n")
        made = folder / "crates/cli_stack/out"
        made.mkdir(parents=True)
        (made / "cli_stack").write_text("#!/bin/sh\necho of another's\n")
        (made / "cli_stack").chmod(0o755)
        ended = self.run(folder, [self.played, "check", "S"], shutil.which("bash"), more={"PATH": "/nowhere"})
        self.note("surroundings", ended[0] == 70 and ended[1] == b"", "a PATH without commands", ended)
        for name in "find", "cd", "sort", "sha256sum":
            ended = self.run(folder, ["check", "S"], explains="0", more={f"BASH_FUNC_{name}%%": "() { echo another; }"})
            self.note("surroundings", ended == (0, b"ok\n", b""), ("a function", name), ended)
        for count, status, printed, told in (5, 70, b"", b"fewer than 8 descriptors"), (7, 70, b"", b"fewer than 8 descriptors"), (11, 0, b"ok\n", b""):
            for explains in "01":
                few = lambda: resource.setrlimit(resource.RLIMIT_NOFILE, (count, count))  # noqa: B023, E731
                ended = self.run(folder, ["check", "S"], explains=explains, preexec_fn=few)
                self.note("surroundings", ended[:2] == (status, printed) and told in ended[2], (count, "descriptors", explains), ended)


def asked_slowly(session):
    """Whether a process of a session sleeps, as the played program does."""
    return subprocess.run(["pgrep", "-s", str(session), "-x", "sleep"], stdout=subprocess.DEVNULL, check=False).returncode == 0


def main():
    parser = parser_of(__doc__)
    parser.add_argument("stack", type=executable, help="the script `stack` of a checkout in which the program is built")
    parser.add_argument("--only", help="the rows of this method alone")
    words = parser.parse_args()
    with tempfile.TemporaryDirectory() as room:
        rows = Rows(words.stack, room)
        themes = (rows.sessions, rows.bytes, rows.blocking, rows.own_output, rows.statuses, rows.sources, rows.growth, rows.pages, rows.boards, rows.terminals, rows.signals, rows.releases, rows.surroundings)
        for theme in themes:
            if words.only in (None, theme.__name__):
                theme()
    print(", ".join(f"{theme}: {count}" for theme, count in rows.counts.items()))
    return 1 if rows.failed else 0


if __name__ == "__main__":
    sys.exit(main())
