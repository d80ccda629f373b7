"""What the debug adapter and the debugger of a terminal show, beside what sessions of the program print."""
import re
import subprocess
import tempfile
import time
from pathlib import Path

from editor_clients import EXAMPLES, Debugged, Screen, session
from moments import SIZE
from positions import Text

# A source and its values, sizes of its stacks, and how many moments are compared.
RUNS = [("calls/down.gypsy", "calls/down.values", 24, 10, 100), ("arrays/sum.gypsy", "arrays/sum.values", 100, 100, 40)]

# Main calls p and that q, which has written an item of main's array when it comes to its second statement.
WAITS = """(program main
(proc main ((a (array integer 3)) (c character) (i integer)) () ((y integer -3)) ()
(seq (no-op)
(call p (a i) ())))
(proc p ((b (array integer 3)) (k integer)) () ((w (array boolean 2) (true false))) ()
(seq (no-op)
(call q (b k) ())))
(proc q ((d (array integer 3)) (j integer)) () ((x integer 5)) ()
(seq (mg-array-element-assignment d j x)
(no-op))))
"""


def of_runs(program):
    """At each moment the adapter shows what a session prints, on and back, and its activations are those that a trace has."""
    for name, values, *sizes, most in RUNS:
        source = EXAMPLES / name
        with Debugged(program, program=str(source), values=str(EXAMPLES / values), control=sizes[0], temporary=sizes[1]) as editor:
            editor.ask("configurationDone")
            editor.stop()
            printed = session(program, (source, EXAMPLES / values, *sizes), "gypsy", "show\n" + "step 1\nshow\n" * most)
            blocks = re.split(r"^stepped \d+(?: ended)?\n", printed, flags=re.M)
            text, seen = Text(source.read_bytes()), []
            for number, block in enumerate(blocks):
                first, _, *rest = block.splitlines()
                frames, shown = editor.stack(), editor.variables(100)
                seen.append((frames, shown))
                if [f"{one} = {value}" for one, value in shown.items()] != rest:
                    yield f"{name}, moment {number}: {shown} is shown, and {rest} is printed"
                if first == "ended":
                    break
                at, depth = re.fullmatch(r"at (\d+) depth (\d+)", first).groups()
                if frames[0]["line"] - 1 != text.line_of(int(at)) or len(frames) != int(depth):
                    yield f"{name}, moment {number}: {len(frames)} activations at line {frames[0]['line']}, wanted {first}"
                if number + 1 < len(blocks):
                    editor.go("stepIn", granularity="statement")
            for number in range(len(seen) - 2, max(len(seen) - 8, -1), -1):
                editor.go("stepBack")
                if (editor.stack(), editor.variables(100)) != seen[number]:
                    yield f"{name}, back at moment {number}: something else is shown than on the way on"


def of_waiting(program):
    """An activation that waits stands at its call, and has what its callee has written so far."""
    with tempfile.NamedTemporaryFile("w", suffix=".gypsy") as source:
        source.write(WAITS)
        source.flush()
        with Debugged(program, program=source.name, values={"a": "(7 8 9)", "c": "#65", "i": "1"}) as editor:
            editor.ask("setBreakpoints", source={"path": source.name}, breakpoints=[{"line": 10}])
            editor.ask("configurationDone")
            editor.stop()
            editor.go("continue")
            frames = [(it["name"], it["line"]) for it in editor.stack()]
            if frames != [("q", 10), ("p", 7), ("main", 4)]:
                yield f"the activations are {frames}"
            # A frame has a word for each variable and two links, from the top on; the stack has all variables.
            stacks = [len(editor.variables(it)) for it in (4, 5)]
            if stacks != [6 + 2 + 1, (4 + 2) + (3 + 2) + (3 + 2)]:
                yield f"the stacks have {stacks} words"
            shown = [editor.variables(100 + it) for it in range(3)]
            wanted = [{"d": "(7 5 9)", "j": "1", "x": "5"}, {"b": "(7 5 9)", "k": "1", "w": "(true false)"}]
            wanted.append({"a": "(7 5 9)", "c": "#65", "i": "1", "y": "-3"})
            if shown != wanted:
                yield f"their variables are {shown}, wanted {wanted}"


def of_many_stops(program):
    """More breakpoints than a line of a script has room for are reached in the order of the run; a procedure may be called `or`."""
    many = 40
    with tempfile.NamedTemporaryFile("w", suffix=".gypsy") as source:
        source.write("(program main\n(proc main () () () ()\n(seq (call or () ())\n" + "(seq (no-op)\n" * many + "(no-op)" + ")" * (many + 2))
        source.write("\n(proc or () () () () (no-op)))\n")
        source.flush()
        with Debugged(program, program=source.name) as editor:
            first, last = 4, 4 + many
            editor.ask("setBreakpoints", source={"path": source.name}, breakpoints=[{"line": it} for it in range(last, first - 1, -1)])
            editor.ask("configurationDone")
            editor.stop()
            seen = [(editor.go("continue"), editor.stack()[0]["line"]) for _ in range(first, last + 1)]
            if seen != [("breakpoint", it) for it in range(first, last + 1)]:
                yield f"with many breakpoints the run stops at {seen}"
            editor.ask("setBreakpoints", source={"path": source.name}, breakpoints=[])
            editor.go("reverseContinue")
            piton = editor.ask("loadedSources")["sources"][1]["path"]
            lines = Path(piton).read_text().splitlines()
            heads = [next(number for number, it in enumerate(lines, 1) if it.startswith(f"({name} ")) for name in ("main", "or")]
            editor.ask("setBreakpoints", source={"path": piton}, breakpoints=[{"line": it + 2} for it in heads])
            seen = [(editor.go("continue"), editor.stack()[0]["name"].split()[:2]) for _ in range(2)]
            if seen != [("breakpoint", ["main", "1"]), ("breakpoint", ["or", "1"])]:
                yield f"in the Piton of main and of or the run stops at {seen}"


def of_infix(program):
    """A step of an infix program is a statement of it, and its variables are those of the lowered source."""
    source, values = EXAMPLES / "infix/squares.mini", EXAMPLES / "infix/squares.values"
    with tempfile.TemporaryDirectory() as room, Debugged(program, program=str(source), values=str(values), control=300, temporary=300) as editor:
        lowered = Path(room) / "lowered.gypsy"
        subprocess.run([program, "mini", source, lowered], capture_output=True, check=True)
        editor.ask("setBreakpoints", source={"path": str(source)}, breakpoints=[{"line": 5}])
        editor.ask("configurationDone")
        editor.stop()
        lines = []
        for command in ("next", "next", "next", "stepIn", "stepBack", "continue", "reverseContinue"):
            editor.go(command)
            lines.append(editor.stack()[0]["line"])
            steps = editor.variables(1)["steps, gypsy"]
            printed = session(program, (lowered, values, 300, 300), "gypsy", f"step {steps}\nshow\n").splitlines()[3:]
            shown = [f"{name} = {value}" for name, value in editor.variables(100).items()]
            if shown != [it for it in printed if "$" not in it]:
                yield f"after {command}: {shown} is shown, and {printed[:2]} is printed"
        if lines != [4, 5, 3, 4, 3, 5, 5]:
            yield f"the lines are {lines}"
    with tempfile.NamedTemporaryFile("w", suffix=".mini") as source:
        source.write("int x;\n")
        source.flush()
        with Debugged(program, program=source.name, values={"x": "4"}, control=200, temporary=200) as editor:
            editor.ask("configurationDone")
            editor.stop()
            seen = editor.stack()[0]["line"], editor.variables(100), editor.go("stepIn"), editor.variables(100)
            if seen != (1, {"x": "4"}, "goto", {"x": "4"}):
                yield f"of a program without statements {seen} is shown"


def of_stops(program):
    """Breakpoints, calls, returns and levels of one run."""
    source = EXAMPLES / "calls/down.gypsy"
    with Debugged(program, program=str(source), values={"n": "3"}) as editor:
        told = editor.ask("setBreakpoints", source={"path": str(source)}, breakpoints=[{"line": 4}, {"line": 5, "condition": "n = 1"}, {"line": 99}])
        wanted = [(True, 4), (True, 5), (False, None)]
        if [(it["verified"], it.get("line")) for it in told["breakpoints"]] != wanted:
            yield f"breakpoints are {told}, wanted {wanted}"
        editor.ask("configurationDone")
        rows = [editor.stop()]
        for command in ("continue", "continue", "continue", "continue"):
            rows.append((editor.go(command), editor.stack()[0]["line"], editor.variables(100)["n"], len(editor.stack())))
        wanted = ["entry", ("breakpoint", 4, "3", 2), ("breakpoint", 4, "2", 3), ("breakpoint", 4, "1", 4), ("breakpoint", 5, "1", 4)]
        if rows != wanted:
            yield f"the run stops at {rows}, wanted {wanted}"
        backs = [(editor.go("reverseContinue"), editor.stack()[0]["line"], editor.variables(100)["n"]) for _ in range(3)]
        wanted = [("breakpoint", 4, "1"), ("breakpoint", 4, "2"), ("breakpoint", 4, "3")]
        if backs != wanted:
            yield f"back it stops at {backs}, wanted {wanted}"
        editor.ask("setBreakpoints", source={"path": str(source)}, breakpoints=[])
        editor.go("stepOut")
        if len(editor.stack()) != 1:
            yield f"out of p there are {len(editor.stack())} activations"
        editor.go("reverseContinue")
        rows = []
        for grain in ("instruction", "instruction", "statement"):
            editor.go("stepIn", granularity=grain)
            counts = editor.variables(1)
            rows.append((counts["steps, gypsy"], counts["steps, fm9001"]))
        if rows[:2] != [("0", "1"), ("0", "2")] or rows[2][0] != "1":
            yield f"two instructions and a statement lead to {rows}"
        editor.go("reverseContinue")
        if editor.variables(1)["steps, fm9001"] != "0" or editor.go("next") == "" or len(editor.stack()) != 1:
            yield "over the call of p something else is shown"
        if editor.variables(100)["n"] != "0":
            yield f"behind the call n is {editor.variables(100)['n']}"
        editor.go("reverseContinue")
        yield from of_levels(program, editor, source)


def of_levels(program, editor, source):
    """The levels below agree with sessions of theirs."""
    sizes = SIZE, SIZE
    with tempfile.NamedTemporaryFile("w", suffix=".values") as values:
        values.write("((n 3))")
        values.flush()
        run = (source, values.name, *sizes)
        editor.ask("evaluate", expression="level piton")
        editor.stop()
        while "(call p)" not in editor.stack()[0]["name"]:
            editor.go("stepIn")
        rows = [(editor.go(it), editor.stack()[0]["name"].split()[0], len(editor.stack())) for it in ("stepIn", "stepOut", "stepBack", "stepBack")]
        # Behind the return of Piton the step of the source isn't done yet.
        if rows != [("step", "p", 3), ("step", "main", 3), ("step", "p", 3), ("step", "p", 3)]:
            yield f"into a call of Piton, out of it and back: {rows}"
        editor.go("reverseContinue")
        for level in ("piton", "fm9001"):
            editor.ask("evaluate", expression=f"level {level}")
            editor.stop()
            for _ in range(12):
                editor.go("stepIn", granularity="instruction")
                counts = editor.variables(1)
                printed = session(program, run, level, f"step {counts[f'steps, {level}']}\nshow\n").splitlines()[1:]
                if level == "fm9001":
                    shown = [f"{name} {value}" for name, value in editor.variables(3).items()]
                    wanted = printed[1:]
                else:
                    shown = [f"{name} = {value}" for name, value in editor.variables(2).items() if name != "stack"]
                    wanted = [it for it in printed if " = " in it]
                if shown != wanted:
                    yield f"{level}: {shown} is shown, and {wanted} is printed"
        frames = [it["source"]["name"].rpartition(".")[2] for it in editor.stack()]
        if frames[:3] != ["listing", "piton", "gypsy"]:
            yield f"the frames are those of {frames}"
        address = editor.stack()[0]["instructionPointerReference"]
        words = editor.ask("disassemble", memoryReference=address, instructionOffset=-2, instructionCount=5)["instructions"]
        if int(words[2]["address"], 16) != int(address, 16) or words[2]["instruction"] not in editor.stack()[0]["name"]:
            yield f"disassembled is {words}"
        memory = editor.ask("readMemory", memoryReference=address, count=4)
        if int(memory["address"], 16) != int(address, 16) or not memory["data"]:
            yield f"memory is {memory}"


def of_long_runs(program):
    """A run that never ends is stopped where somebody asks; one call of many steps is passed over."""
    with Debugged(program, program=str(EXAMPLES / "counting/clock.gypsy"), values=str(EXAMPLES / "counting/odd.values"), stopOnEntry=False) as editor:
        editor.ask("configurationDone")
        time.sleep(0.5)
        reason = editor.go("pause")
        if reason != "pause" or int(editor.variables(1)["steps, gypsy"]) < 10_000:
            yield f"stopped by {reason} after {editor.variables(1)}"
    with tempfile.NamedTemporaryFile("w", suffix=".gypsy") as source:
        source.write((EXAMPLES / "calls/down.gypsy").read_text())
        source.flush()
        with Debugged(program, program=source.name, values={"n": "5000"}, control=60000, temporary=30000) as editor:
            editor.ask("configurationDone")
            editor.stop()
            editor.go("next")
            frames = editor.stack()
            if len(frames) != 1 or editor.variables(100)["n"] != "0":
                yield f"over a call of many steps there are {len(frames)} activations, and n is {editor.variables(100)}"


def of_watches(program):
    """A run stops where a variable changes, and goes back to where it did."""
    with Debugged(program, program=str(EXAMPLES / "arrays/sum.gypsy"), values=str(EXAMPLES / "arrays/sum.values"), control=100, temporary=100) as editor:
        editor.ask("configurationDone")
        editor.stop()
        name = editor.ask("dataBreakpointInfo", name="sum", variablesReference=100)["dataId"]
        editor.ask("setDataBreakpoints", breakpoints=[{"dataId": name}])
        rows = [(editor.go("continue"), editor.variables(100)["sum"]) for _ in range(6)]
        # The items are 3 1 4 1 5; at last the run ends.
        wanted = [*(("data breakpoint", it) for it in ("3", "4", "8", "9", "14")), ("goto", "14")]
        if rows != wanted:
            yield f"the sum changes so: {rows}, wanted {wanted}"
        rows = [(editor.go("reverseContinue"), editor.variables(100)["sum"]) for _ in range(6)]
        wanted = [*(("data breakpoint", it) for it in ("14", "9", "8", "4", "3")), ("goto", "0")]
        if rows != wanted:
            yield f"back the sum changes so: {rows}, wanted {wanted}"


def of_console(program):
    """What the console answers."""
    with Debugged(program, program=str(EXAMPLES / "calls/down.gypsy"), values=["n=2"], control=100, temporary=100) as editor:
        editor.ask("configurationDone")
        editor.stop()
        editor.ask("evaluate", expression="goto 4")
        editor.stop()
        rows = [("n", "1"), ("one", "1"), ("up", "top"), ("until 183 9", r"arrived \d"), ("words 149 2", r"00000095 [0-9a-f]{8}\n00000096 [0-9a-f]{8}")]
        for text, wanted in rows:
            told = editor.ask("evaluate", expression=text, frameId=100)
            if not re.fullmatch(wanted, str(told.get("result"))):
                yield f"{text}: {told}, wanted {wanted}"
        for text, wanted in (("nothing", "no variable here"), ("step -1", "D3"), ("until p 1 1", "D7")):
            told = editor.ask("evaluate", expression=text)
            if wanted not in told.get("message", ""):
                yield f"{text}: {told}, wanted {wanted}"


def of_refusals(program):
    """What can't be started is told in the sentence of its rule."""
    with tempfile.NamedTemporaryFile("w", suffix=".gypsy") as source:
        source.write("(program main (proc main () () () () (signal c)))")
        source.flush()
        with Debugged(program, program=source.name) as editor:
            if "S10" not in str(editor.launched.get("message")):
                yield f"a source that is refused: {editor.launched}"
            for command in ("configurationDone", "stackTrace", "continue", "evaluate"):
                if editor.ask(command).get("success") is not False:
                    yield f"{command} is answered without a run"


def of_terminal(program):
    """Keys of the debugger of a terminal."""
    screen = Screen(program, str(EXAMPLES / "calls/down.gypsy"), "n=2")
    rows = [
        ("", "[gypsy 0]"), ("s", "[gypsy 1]"), ("2", "[piton"), ("s", "piton"), ("1", "[gypsy"), ("wn\n", "watched: n of p"), ("c", "a variable changed"),
        ("wn\n", "watched: nothing"), ("c", "the end of the run"), ("b", "gypsy"),
    ]
    for keys, wanted in rows:
        if not screen.until(wanted, keys):
            yield f"after the key {keys!r} {wanted!r} isn't drawn"
    if screen.close():
        yield "the debugger doesn't end well"
