#!/usr/bin/env python3
"""Tries `./stack trace` and `./stack listing`: what they print against what other commands of the program say.

    python3 .ci/tools/asking_rows.py PROGRAM

A trace has as many steps as `mean` counts, and ends as it reports; its last values of main's formals are those. A listing has each word of the source's own
code once, in order, and each mark's statement where the mark is. Of infix programs both have the program's own statements, without temporaries, and
`try` tells where one of them raised a condition. Words that are no row and refusals have their statuses. The exit status is 1 where something differed.
"""
import re
import subprocess
import sys
import tempfile
from pathlib import Path

sys.path.append(str(Path(__file__).resolve().parents[2] / "tools"))

from arguments import parser_of  # noqa: E402
from arguments import program as executable  # noqa: E402

TOP = Path(__file__).resolve().parent.parent.parent
EXAMPLES = TOP / "examples"
# A source, its values, and the sizes of the two stacks.
RUNS = [
    ("first/seven.gypsy", "first/nine.values", 7, 3), ("calls/down.gypsy", "calls/down.values", 24, 10),
    ("conditions/count.gypsy", "conditions/count.values", 13, 5), ("arrays/sum.gypsy", "arrays/sum.values", 100, 100),
]
# Words, and the status and the first line that they end with.
ENDS = [
    (["trace", "examples/first/seven.gypsy", "examples/first/nine.values", "7", "2"], 12, "size temporary 3"),
    (["trace", "examples/first/seven.gypsy", "nowhere.values", "7", "3"], 9, "missing nowhere.values"),
    (["trace", "examples/first/seven.gypsy", "examples/first/nine.values", "7"], 1, ""),
    (["trace", "examples/infix/gcd.mini", "examples/infix/gcd.values", "200", "200", "1"], 0, r" *1 .*"),
    (["listing", "examples/first/nine.values", "7", "3"], 2, r"refused M1 at 0"),
    (["listing", "examples/first/seven.gypsy", "seven", "3"], 1, ""),
    (["page", "examples/first/seven.gypsy", "examples/first/nine.values", "7", "3", "many", "page.html"], 1, ""),
]


# A variable may be named as the word before a procedure's name, behind which a comment may stand.
NAMED = """(program main
(proc main ((proc integer)) () () () (call p (proc) ()))
(proc ; adds
p ((proc integer)) () () () (mg-integer-add proc proc proc)))
"""
NAMED_TRACE = """    1     2:38  (call p (proc) ())                                            in p:  proc = 4
    2     4:29    (mg-integer-add proc proc proc)                             proc = 8
    3      3:1    end of p                                                    in main:  proc = 8
    4      2:1  end of main
ended after 4 steps: condition normal  proc = 8
"""


# An infix program with its values, in which a condition is false, is true, and is never known; and a while without statements.
INFIX = """int x; bool b;
b := x <= 3;
while b { x := x * 100000; b := x <= 3; }
while x = 3 { }
if b { } else { x := x + 2147483647; }
"""
INFIX_TRACE = """    1      2:1  b := x <= 3;                                                  b = true
    2      3:1  while b                                                       true
    3     3:11    x := x * 100000;                                            x = 300000
    4     3:28    b := x <= 3;                                                b = false
    5      3:1  while b                                                       false
    6      4:1  while x = 3                                                   false
    7      5:1  if b                                                          false
    8     5:17    x := x + 2147483647;                                        condition routineerror
ended after 8 steps: condition routineerror  x = 300000  b = false
"""
INFIX_HEADS = [
    "2:1  b := x <= 3;", "3:1  while b", "3:11  x := x * 100000;", "3:28  b := x <= 3;", "3:1  while b", "4:1  while x = 3", "5:1  if b",
    "5:17  x := x + 2147483647;", "5:1  if b",
]
INFIX_TOLD = """stack: the condition routineerror was raised here:
    5:17  x := x + 2147483647;
    x = 300000, b = false
"""
# In its first rounds the while is all that there is.
ROUNDS = "while 0 <= 1 { }"
ROUNDS_TRACE = """    1      1:1  while 0 <= 1                                                  true
    2      1:1  while 0 <= 1                                                  true
    3      1:1  while 0 <= 1                                                  true
not ended after 3 steps: condition normal
"""


def answer(*words):
    return subprocess.run([str(it) for it in words], cwd=TOP, capture_output=True, text=True, check=False)


def script(program, name, *words):
    return answer(sys.executable, TOP / f"guide/{name}.py", program, *words)


def of_trace(program, source, values, sizes):
    lines = script(program, "trace", source, values, *sizes, 10000).stdout.splitlines()
    steps, _, *state = answer(program, "mean", source, values, *sizes, 10000).stdout.splitlines()
    wanted = f"ended after {steps.split()[1]} steps: {'  '.join(state)}"
    if lines[-1] != wanted:
        yield f"trace ends with {lines[-1]!r}, wanted {wanted!r}"
    numbers = [int(it.split()[0]) for it in lines[:-1]]
    if numbers != list(range(1, int(steps.split()[1]) + 1)):
        yield f"trace numbers its steps {numbers}"
    text = source.read_text().splitlines()
    for line in lines[:-1]:
        row, column, statement = re.match(r" *\d+ +(\d+):(\d+) +(\(\S*|end)", line).groups()
        found = text[int(row) - 1][int(column) - 1:]
        if not found.startswith("(proc " if statement == "end" else statement):
            yield f"trace has {statement} where there is {found!r}"


def of_names(program, room):
    (room / "named").write_text(NAMED)
    (room / "values").write_text("((proc 4))")
    told = script(program, "trace", room / "named", room / "values", 100, 100).stdout
    if told != NAMED_TRACE:
        yield f"where a variable is named proc the trace is {told!r}"


def of_infix(program, room):
    """What is told otherwise of infix programs, and whether the words of a listing are those of the lowered source's."""
    (room / "program").write_text(INFIX)
    (room / "values").write_text("((x 3) (b false))")
    (room / "rounds").write_text(ROUNDS)
    (room / "none").write_text("()")
    rows = [("program", "values", 20, INFIX_TRACE), ("rounds", "none", 3, ROUNDS_TRACE)]
    for name, values, steps, wanted in rows:
        told = script(program, "trace", room / name, room / values, 300, 300, steps).stdout
        if told != wanted:
            yield f"the trace of {name} is {told!r}, wanted {wanted!r}"
    listed = script(program, "listing", room / "program", 300, 300).stdout
    if re.findall(r"^\d+:.*", listed, re.M) != INFIX_HEADS:
        yield f"the statements of the listing are {re.findall(r'^[0-9]+:.*', listed, re.M)}"
    answer(program, "mini", room / "program", room / "lowered")
    words = re.findall(r"^    [0-9a-f]{8}  .*$", script(program, "listing", room / "lowered", 300, 300).stdout, re.M)
    if re.findall(r"^    [0-9a-f]{8}  .*$", listed, re.M) != words or not words:
        yield "the listing has other words than that of the lowered source"
    told = answer(sys.executable, TOP / "guide/trying.py", program, "try", room / "program", "x=3").stderr
    if not told.startswith(INFIX_TOLD):
        yield f"try tells of the infix program {told!r}"


def of_listing(program, source, sizes, room):
    lines = script(program, "listing", source, *sizes).stdout.splitlines()
    answer(program, "build", source, *sizes, room / "image")
    shown = answer(program, "show", room / "image").stdout
    words = re.findall(r"^([0-9a-f]{8} [0-9a-f]{8}) (.*)$", shown, re.M)
    marks = {it[1]: int(it[2]) for it in re.finditer(r"^mark ([0-9a-f]{8}) \S+ (\d+)$", shown, re.M)}
    listed = [re.fullmatch(r"    ([0-9a-f]{8})  ([0-9a-f]{8})  (.*)", it) for it in lines]
    found = [it for it in listed if it]
    if [f"{it[1]} {it[2]}" for it in found] != [it for it, _ in words[:len(found)]]:
        yield "the words of the listing aren't the first ones of `show`"
    texts = dict(words)
    for it in found:
        literal = it[3].startswith("= ")
        if not literal and it[3] != texts[f"{it[1]} {it[2]}"]:
            yield f"{it[1]} is {it[3]!r}, wanted {texts[f'{it[1]} {it[2]}']!r}"
        if literal and int(it[3][2:], 16 if len(it[3]) == 10 and "-" not in it[3] else 10) % 2 ** 32 != int(it[2], 16):
            yield f"{it[1]} is {it[3]!r}, and the word is {it[2]}"
    if not set(marks) <= {it[1] for it in found}:
        yield "not every mark is in the listing"
    text = source.read_text()
    for before, line in zip(lines, listed[1:]):
        head = re.match(r"(\d+):(\d+)  ", before)
        if bool(head) != bool(line and line[1] in marks):
            yield f"{before!r} stands before {line and line[1]}"
        elif head:
            place = marks[line[1]]
            where = (text.count("\n", 0, place) + 1, place - text.rfind("\n", 0, place))
            if where != (int(head[1]), int(head[2])):
                yield f"{before!r} stands before the mark of {place}"


def of_ends(program):
    for (name, *words), status, line in ENDS:
        ran = script(program, name, *words)
        first = (ran.stdout.splitlines() or [""])[0]
        if ran.returncode != status or not re.fullmatch(line, first):
            yield f"{name} {' '.join(words)}: status {ran.returncode} and {first!r}, wanted {status} and {line!r}"


def main():
    parser = parser_of(__doc__)
    parser.add_argument("program", type=executable, help="cli_stack")
    program = parser.parse_args().program
    differing = list(of_ends(program))
    with tempfile.TemporaryDirectory() as room:
        differing += [*of_names(program, Path(room)), *of_infix(program, Path(room))]
        for source, values, *sizes in RUNS:
            source, values = EXAMPLES / source, EXAMPLES / values
            found = [*of_trace(program, source, values, sizes), *of_listing(program, source, sizes, Path(room))]
            differing += [f"{source.name}: {it}" for it in found]
    for it in differing:
        print(it)
    print(f"trace and listing: {len(RUNS)} sources and {len(ENDS)} ends compared, {len(differing)} differed")
    return 1 if differing else 0


if __name__ == "__main__":
    sys.exit(main())
