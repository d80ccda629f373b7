"""Editors that are played: one that asks the language server, one that asks the debug adapter, and a person at the debugger of a terminal."""
import os
import pty
import re
import select
import signal
import subprocess
import sys
import tempfile
import time
from pathlib import Path

TOP = Path(__file__).resolve().parents[2]
EXAMPLES = TOP / "examples"
sys.path.insert(0, str(TOP / "editor"))

import beside  # noqa: E402, F401
from positions import Text  # noqa: E402
from wire import Wire  # noqa: E402

# So long an answer may take, in seconds.
SECONDS = 60


class Silent(Exception):
    """What serves an editor has ended in place of an answer."""


class Client:
    """An editor: what it says, and what it is told. What is served with may have further variables of the environment."""

    # What was said on standard error, of all clients.
    aside = []

    def __init__(self, script, program, **variables):
        self.error, line = tempfile.TemporaryFile(), [sys.executable, "-B", TOP / f"editor/{script}.py", program]
        self.process = subprocess.Popen(line, stdin=subprocess.PIPE, stdout=subprocess.PIPE, stderr=self.error, env=os.environ | variables)
        self.wire, self.last, self.notes = Wire(self.process.stdout.fileno(), self.process.stdin.fileno()), 0, []

    def __enter__(self):
        return self

    def __exit__(self, *_):
        self.leave()

    def leave(self):
        """Says nothing more. The status is that of what serves, or None if it doesn't end by itself."""
        if not self.process.stdin.closed:
            self.process.stdin.close()
        try:
            status = self.process.wait(SECONDS)
        except subprocess.TimeoutExpired:
            self.process.kill()
            self.process.wait()
            status = None
        if not self.error.closed:
            self.process.stdout.close()
            self.error.seek(0)
            self.aside.append(self.error.read().decode(errors="replace"))
            self.error.close()
        return status

    def receive(self):
        """The next message."""
        message = self.wire.receive(SECONDS)
        if message is None:
            raise Silent
        return message

    def write(self, content):
        """Writes bytes that may be no message."""
        self.process.stdin.write(content)
        self.process.stdin.flush()


class Language(Client):
    """An editor that asks the language server."""

    def __init__(self, program, **variables):
        super().__init__("server", program, **variables)
        self.ask("initialize", capabilities={})
        self.note("initialized")

    def note(self, method, **params):
        self.wire.send({"jsonrpc": "2.0", "method": method, "params": params})

    def ask(self, method, **params):
        self.last += 1
        self.wire.send({"jsonrpc": "2.0", "id": self.last, "method": method, "params": params})
        while (message := self.receive()).get("id") != self.last:
            self.notes.append(message)
        return message.get("result", message.get("error"))

    def open(self, path):
        self.note("textDocument/didOpen", textDocument={"uri": path.as_uri(), "languageId": path.suffix[1:], "version": 1, "text": path.read_text()})

    def found(self, path):
        """What is wrong with a text, as it is told next."""
        while True:
            for number, it in enumerate(self.notes):
                if it.get("method") == "textDocument/publishDiagnostics" and it["params"]["uri"] == path.as_uri():
                    return self.notes.pop(number)["params"]["diagnostics"]
            self.notes.append(self.receive())

    def at(self, method, path, place, **more):
        return self.ask(f"textDocument/{method}", textDocument={"uri": path.as_uri()}, position=Text(path.read_bytes()).position(place), **more)


class Debugged(Client):
    """An editor that asks the debug adapter."""

    def __init__(self, executable_path, **options):
        super().__init__("adapter", executable_path)
        # What the events of output have told.
        self.told = ""
        self.ask("initialize", adapterID="stack", linesStartAt1=True, columnsStartAt1=True)
        self.launched = self.ask("launch", **options)

    def ask(self, command, **arguments):
        self.last += 1
        self.wire.send({"seq": self.last, "type": "request", "command": command, "arguments": arguments})
        while True:
            message = self.receive()
            if message["type"] == "response" and message["request_seq"] == self.last:
                return message.get("body") if message["success"] else message
            self.notes.append(message)

    def stop(self):
        """Why the run stopped next."""
        while True:
            message = self.notes.pop(0) if self.notes else self.receive()
            if message.get("event") == "stopped":
                return message["body"]["reason"]
            self.told += message["body"]["output"] if message.get("event") == "output" else ""

    def go(self, command, **arguments):
        self.ask(command, threadId=1, **arguments)
        return self.stop()

    def stack(self):
        return self.ask("stackTrace", threadId=1)["stackFrames"]

    def variables(self, reference):
        return {it["name"]: it["value"] for it in self.ask("variables", variablesReference=reference)["variables"]}


def programs_of(process):
    """The processes that a process has started, by any of its threads."""
    return [int(it) for thread in Path(f"/proc/{process}/task").iterdir() for it in (thread / "children").read_text().split()]


def is_running(process):
    """Whether a process hasn't ended. One that nobody has asked for its status has."""
    try:
        return Path(f"/proc/{process}/stat").read_text().rpartition(")")[2].split()[0] != "Z"
    except OSError:
        return False


def have_ended(processes):
    """Whether some processes end in time."""
    end = time.time() + SECONDS
    while any(map(is_running, processes)) and time.time() < end:
        time.sleep(0.05)
    return not any(map(is_running, processes))


def session(program, run, level, script):
    source, values, *sizes = run
    line = [program, "debug", level, source, values, *map(str, sizes), "/dev/stdin"]
    return subprocess.run(line, input=script, capture_output=True, text=True, check=True).stdout


class Screen:
    """A terminal on which the debugger runs."""

    def __init__(self, program, *words):
        self.child, self.terminal = pty.fork()
        if self.child == 0:
            os.environ |= {"TERM": "xterm", "COLUMNS": "150", "LINES": "40"}
            os.execv(sys.executable, [sys.executable, "-B", str(TOP / "editor/terminal.py"), str(program), *words])

    def until(self, wanted, keys=""):
        """Presses keys, and waits until something is drawn."""
        # Ctrl-L has all drawn anew.
        os.write(self.terminal, keys.encode() + b"\x0c")
        drawn, end = "", time.time() + SECONDS
        while time.time() < end and wanted not in drawn:
            if select.select([self.terminal], [], [], 0.2)[0]:
                try:
                    drawn += re.sub(r"\x1b[\[(][0-9;?]*[A-Za-z]", " ", os.read(self.terminal, 65536).decode(errors="replace"))
                except OSError:
                    break
        return wanted in drawn

    def hang_up(self):
        """Takes the terminal away."""
        os.close(self.terminal)
        return self.wait()

    def close(self):
        """Leaves the debugger. The status is how it ended."""
        os.write(self.terminal, b"q")
        return self.wait()

    def wait(self):
        end = time.time() + SECONDS
        while time.time() < end:
            ended, status = os.waitpid(self.child, os.WNOHANG)
            if ended:
                return status
            time.sleep(0.05)
        os.kill(self.child, signal.SIGKILL)
        return os.waitpid(self.child, 0)[1]
