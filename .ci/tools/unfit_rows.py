"""What serves an editor, if an editor, the program or a text isn't as it should be: it says so in a sentence, and the next message is answered."""
import json
import os
import shutil
import signal
import tempfile
import time
from pathlib import Path

from editor_clients import EXAMPLES, Client, Debugged, Language, Screen, have_ended, programs_of

NOTHING = "(program main (proc main () () () () (no-op)))\n"
# Bytes in place of a message, and whether a message may come behind them.
UNFIT = [
    (b"Content-Length: 9\r\n\r\n{\"id\": 1 ", True), (b"Content-Length: 2\r\n\r\n[]", True), (b"content-length:4\r\n\r\n\xff\xfe{}", True),
    (b"Content-Length: 200000\r\n\r\n" + b"[" * 200000, True), (b"Content-Length: -1\r\n\r\n{}", False), (b"Content-Type: x\r\n\r\n{}", False),
    (b"x" * 5000, False), (b"Content-Length: 99999999999\r\n\r\n{}", False), (b"Content-Length: 999999999\r\n\r\n{}", False),
]


def framed(content):
    return b"Content-Length: %d\r\n\r\n%b" % (len(content), content)


def of_messages(program):
    """Of bytes that are no message it is told, or both sides part; half a message isn't waited for once the editor has left."""
    for script in ("server", "adapter"):
        fields = {"method": "initialize", "params": {}} if script == "server" else {"type": "request", "command": "initialize", "arguments": {}}
        asked = framed(json.dumps({"id": 7, "seq": 7} | fields).encode())
        for content, goes_on in UNFIT:
            with Client(script, program) as editor:
                editor.write(content)
                if goes_on:
                    editor.write(asked)
                    if not any(it.get("id") == 7 or it.get("request_seq") == 7 for it in (editor.receive(), editor.receive())):
                        yield f"{script}: behind {content[:40]!r} nothing is answered"
                elif editor.wire.receive(5) is not None:
                    yield f"{script}: behind {content[:40]!r} something is answered"
        for content in (asked[:10], asked[:-5]):
            editor = Client(script, program)
            editor.write(content)
            if editor.leave() is None:
                yield f"{script}: it waits for the rest of {content!r}"


def of_requests(program):
    """A request that lacks something is refused in a sentence, and a note that does is told of; the next one is answered."""
    with Language(program) as editor:
        for method in ("textDocument/didOpen", "textDocument/didChange", "textDocument/didClose", "nothing"):
            editor.note(method)
        for method in ("textDocument/hover", "textDocument/rename", "textDocument/codeAction", "nothing", "textDocument/completion"):
            answer = editor.ask(method, textDocument={"uri": "file:///nowhere.gypsy"})
            if not isinstance(answer, dict) or "message" not in answer or "Traceback" in answer["message"]:
                yield f"{method} without its parts: {answer}"
        answer = editor.ask("textDocument/hover", textDocument=5)
        if "another form" not in answer["message"]:
            yield f"with a part of another form: {answer}"
        logged = [it["params"]["message"] for it in editor.notes if it.get("method") == "window/logMessage"]
        if len(logged) != 3 or not all("it has no 'textDocument'" in it for it in logged):
            yield f"of notes without their parts it is told: {logged}"
    with Debugged(program, program=str(EXAMPLES / "calls/down.gypsy")) as editor:
        for command in ("setBreakpoints", "scopes", "variables", "evaluate", "disassemble", "readMemory", "source", "launch", "nothing"):
            answer = editor.ask(command)
            if answer.get("success") is not False or "Traceback" in answer["message"]:
                yield f"{command} without its parts: {answer}"
        answer = editor.ask("setBreakpoints", source=5)
        if "another form" not in answer["message"]:
            yield f"with a part of another form: {answer}"
        many = editor.ask("disassemble", memoryReference="0x0", instructionCount=10 ** 12)["instructions"]
        if len(many) > 65536 or not editor.ask("threads")["threads"]:
            yield f"disassembled are {len(many)} words"


# What a program does in place of its work: a signal ends it, or it has no memory.
ENDED, NO_MEMORY = "kill -9 $$\n", "echo memory; exit 14\n"


def failing(room, program):
    """A program that is PROGRAM until the file `fails` is there; then it does what that says."""
    path = Path(room) / "program"
    path.write_text(f'#!/bin/sh\n[ ! -e "{room}/fails" ] || . "{room}/fails"\nexec "{program}" "$@"\n')
    path.chmod(0o755)
    return path


def end_sessions(editor):
    """Ends the sessions that the adapter has open."""
    for it in programs_of(editor.process.pid):
        os.kill(it, signal.SIGKILL)


def of_program(program):
    """If the program is ended, or is gone, no text is said to be right, a run stands where it stood, and nothing waits."""
    with tempfile.TemporaryDirectory() as room:
        path, source = failing(room, program), Path(room) / "a.gypsy"
        source.write_text(NOTHING)
        with Language(path) as editor:
            editor.open(source)
            before = editor.found(source)
            (Path(room) / "fails").write_text(ENDED)
            rows = []
            for prepare in (lambda: None, path.unlink):
                prepare()
                editor.open(source)
                rows += [(it["severity"], it["message"]) for it in editor.found(source)]
        reasons = ("the program was ended by signal 9", "the program can't be started: No such file or directory")
        wanted = [(3, f"This text isn't judged: {it}") for it in reasons]
        if before or rows != wanted:
            yield f"of a text that isn't judged it is told: {before}, {rows}"


def of_sessions(program):
    """If a session is ended, that is told, and the run goes on from where it stood by another one."""
    with tempfile.TemporaryDirectory() as room:
        path, fails = failing(room, program), Path(room) / "fails"
        with Debugged(path, program=str(EXAMPLES / "calls/down.gypsy"), values={"n": "3"}) as editor:
            editor.ask("configurationDone")
            editor.stop()
            editor.go("stepIn")
            # The first question that fails is of the session that was open, which a signal has ended.
            for text, wanted in ((ENDED, (3, 0)), (NO_MEMORY, (1, 2))):
                fails.write_text(text)
                end_sessions(editor)
                editor.told = ""
                for command in ("continue", "stepIn", "next"):
                    if editor.go(command) != "goto":
                        yield f"{command} without a program is told as something else"
                if tuple(map(editor.told.count, ("the program was ended by signal 9", "Memory ran out"))) != wanted:
                    yield f"a program that was ended is told as {editor.told!r}"
                fails.unlink()
                before = editor.variables(1)["steps, gypsy"]
                if editor.go("stepIn") != "step" or int(editor.variables(1)["steps, gypsy"]) != int(before) + 1:
                    yield f"behind a session that was ended the run goes on from {before} to {editor.variables(1)}"
            end_sessions(editor)
            path.unlink()
            editor.go("next")
            editor.go("next")
            if "No such file" not in editor.told:
                yield f"a program that is gone is told as {editor.told!r}"


def of_leaving(program):
    """Whether a run stands or goes on, and however what serves an editor ends: no session stays, and no folder where it can be removed."""
    run = {"program": str(EXAMPLES / "counting/clock.gypsy"), "values": str(EXAMPLES / "counting/odd.values")}
    for goes_on in (False, True):
        for is_killed in (False, True):
            with Debugged(program, **run) as editor:
                editor.ask("configurationDone")
                editor.stop()
                editor.go("stepIn")
                editor.variables(1)
                if goes_on:
                    editor.ask("continue")
                    time.sleep(0.5)
                sessions = programs_of(editor.process.pid)
                folder = Path(f"/proc/{sessions[0]}/cwd").readlink()
                if is_killed:
                    editor.process.kill()
                editor.leave()
                if not have_ended(sessions):
                    yield f"sessions stay: {sessions}, goes_on={goes_on}, is_killed={is_killed}"
                if is_killed:
                    shutil.rmtree(folder)
                elif folder.exists():
                    yield f"{folder} stays, goes_on={goes_on}"
    for leave in (Screen.close, Screen.hang_up):
        screen = Screen(program, run["program"])
        screen.until("[gypsy 1]", "s")
        sessions = programs_of(screen.child)
        leave(screen)
        if not sessions or not have_ended(sessions):
            yield f"of the debugger of a terminal sessions stay: {sessions}"


def of_names(program):
    """Control characters of names, comments and texts move no cursor; a text may be nested deeply, and end anywhere."""
    with tempfile.TemporaryDirectory() as room, Language(program) as editor:
        path = Path(room) / "a.gypsy"
        path.write_text("(program m\x1b[2J\n(proc m\x1b[2J ((x\x9b1m integer)) () () () (call m\u202e () ())))")
        editor.open(path)
        told = editor.found(path)[0]["message"], editor.ask("textDocument/documentSymbol", textDocument={"uri": path.as_uri()})
        told += tuple(editor.at("hover", path, place) for place in (10, path.read_text().index("call m") + 5)), editor.at("completion", path, 30)
        strange = [it for it in json.dumps(told, ensure_ascii=False) if not it.isprintable()]
        if strange or "m?[2J" not in str(told):
            yield f"what would move a cursor is told: {strange}, {told[1]}"
        values = path.with_name("x\x1by.values")
        values.with_suffix(".gypsy").write_text(NOTHING)
        values.write_text("((z 1))")
        editor.open(values)
        told = editor.found(values)[0]["message"]
        if "Judged for x?y.gypsy." not in told:
            yield f"of values for a source with a control character in its name it is told: {told!r}"
        deep = "(program main (proc main () () () () " + "(seq " * 20000
        path.write_text(deep)
        editor.open(path)
        told = editor.found(path), editor.at("references", path, 22, context={}), editor.at("completion", path, len(deep))
        if not all(told) or not all(isinstance(it, list) for it in told):
            yield f"of a text that is nested deeply it is told: {str(told)[:200]}"
        path.write_text("; \x1b[2J \x9b\0\t here\n" + NOTHING)
        screen = Screen(program, str(path))
        if not screen.until("; ?[2J ??  here") or screen.close():
            yield "a comment with control characters isn't drawn without them"


def of_unproved(program):
    """A program that a trial built is told to be unproved."""
    with Language(program, STACK_TRIED="1") as editor:
        editor.ask("nothing")
        shown = [it["params"]["message"] for it in editor.notes if it.get("method") == "window/showMessage"]
    if not shown or "unproved" not in shown[0]:
        yield f"of an unproved program an editor is told {shown}"
