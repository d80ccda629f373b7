"""Files at their limits, texts at the limits of each layer, and long runs. bench/limits.py times the texts and the runs. A text is a
function, since some have 16 MiB. In the words of a command line `t` is the text and `v` the values; `i` and `o` are files that are stored.
"""
from rows import TOP, Row, Run

NEVER_SPENT = 1 << 40


def numbered(before, between, after, count):
    """So many times a number, from 0 on, twice: what precedes it, is between, and follows it."""
    return "".join(f"{before}{number}{between}{number}{after}" for number in range(count))


def of_one_program(instructions):
    return f"(piton main 2 1 0 () () (main () (){instructions}))"


def of_programs(programs, main="main", areas="", stack=""):
    return f"(piton {main} 2 1 0 ({areas}) ({stack}){programs})"


def of_one_call(actuals, variables="(x integer)"):
    """A source of one procedure with these variables, which calls one that is missing."""
    return f"(program p (proc p ({variables}) () () () (call q ({actuals}) ())))"


def of_one_handler(conditions):
    return f"(program p (proc p () (c) () () (begin (no-op) ({conditions}) (no-op))))"


def of_calls(statements, procedures=""):
    """A source whose first procedure does one statement after the other."""
    return f"(program p (proc p () () () () (seq{statements})){procedures})"


# Six steps a round.
LOOP = """(program main
(proc main ((n integer)) () ((b boolean false) (one integer 1)) ()
(loop (seq (mg-simple-constant-eq b n 0) (if b (signal leave) (mg-integer-subtract n n one))))))
"""

# A product in each round.
PRODUCTS = (
    "(program main\n(proc main ((n integer) (x integer)) () ((b boolean false) (zero integer 0) (one integer 1) (three integer 3)) ()\n"
    "(loop (seq (mg-integer-le b n zero) (if b (signal leave) (no-op))\n(mg-integer-multiply x one three) (mg-integer-subtract n n one)))))\n"
)

# So many times, calls that are so many deep.
RECURSION = """(program main
(proc main ((times integer) (depth integer)) () ((b boolean false) (one integer 1) (n integer 0)) ()
(loop (seq (mg-simple-constant-eq b times 0) (if b (signal leave) (no-op))
(mg-simple-variable-assignment n depth) (call p (n) ()) (mg-integer-subtract times times one))))
(proc p ((n integer)) () ((b boolean false) (one integer 1)) ()
(seq (mg-simple-constant-eq b n 0) (if b (no-op) (seq (mg-integer-subtract n n one) (call p (n) ()))))))
"""

# So many arrays of 4,096 integers.
NAMES = " ".join(f"a{number}" for number in range(15))
FORMALS = " ".join(f"({name} (array integer 4096))" for name in NAMES.split())
LOCALS = " ".join(f"({name} (array integer 4096) ({'0 ' * 4096}))" for name in NAMES.split())

# A procedure that hands them on to itself, until a call has no room.
HANDED_ON = f"""(program main
(proc main () () ({LOCALS}) () (call p ({NAMES}) ()))
(proc p ({FORMALS}) () () () (call p ({NAMES}) ())))
"""

# 200 integers.
VARIABLES = numbered(" (x", " integer) (y", " integer)", 100)

# 999 procedures, each of which calls itself.
CALLEES = numbered(" (proc p", " () () () () (call p", " () ()))", 999)

# A call that raises one condition for each of five.
RAISES = " (call p () (z z z z z))"

# The conditions that each list of handlers has.
HANDLED = " ".join(f"c{number}" for number in range(199))


def inside_handlers(statement, count):
    """A source with so many of these statements inside lists of handlers that have none of their conditions."""
    opened, closed = "(begin " * 195, f" ({HANDLED}) (no-op))" * 195
    body = f"{opened}(seq{statement * count}){closed}"
    return f"(program main (proc main () () () ({HANDLED} z) {body}) (proc p () (a b c d e) () () (no-op)))"


# What is no text of either language, with the words of the command that reads it.
TREES = [
    ("one list of 300,000 atoms", "check t", lambda: "(" + "a " * 300000 + ")", 2, "refused M1 at 0"),
    ("one list of 500,000 empty lists", "check t", lambda: "(" + "()" * 500000 + ")", 2, "refused M1 at 0"),
    ("one atom", "check t", lambda: "a" * (1 << 20), 2, "refused M1 at 0"),
    ("one list of 349,000 comments", "check t", lambda: "(" + ";;\n" * 349000 + ")", 2, "refused M1 at 0"),
    ("one comment after an atom", "check t", lambda: "a;" + "(" * ((1 << 20) - 2), 2, "refused M1 at 0"),
    ("500,000 atoms inside 200 lists", "check t", lambda: "(" * 200 + " a" * 500000 + ")" * 200, 2, "refused M1 at 0"),
    ("`(` over and over", "check t", lambda: "(" * (1 << 20), 2, "refused G4 at 200"),
    ("`(` once more", "check t", lambda: "(" * ((1 << 20) + 1), 12, "size file 1048576"),
    ("spaces after an atom", "pcheck t", lambda: "a" + " " * ((1 << 24) - 1), 2, "refused P1 at 0"),
]

def pushes():
    return numbered(" (push-constant (nat ", ")) (push-constant (int -", "))", 262144)


def area():
    return "(a" + numbered(" (nat ", ") (int ", ")", 500000) + ")"


# Texts of Piton, which `pbuild` checks and links.
PITON = [
    ("a program of 1,048,576 instructions `(ret)`", lambda: of_one_program(" (ret)" * 1048576), 12, "size words 5242886"),
    ("one instruction more", lambda: of_one_program(" (ret)" * 1048577), 2, "refused P9 at 24"),
    ("671,087 times `(push-constant (int -7))`", lambda: of_one_program(" (push-constant (int -7))" * 671087), 2, "refused Q12 at 16777186"),
    ("883,009 times `(dl l () (jump l))`", lambda: of_one_program(" (dl l () (jump l))" * 883009), 2, "refused Q6 at 59"),
    ("an initial stack of 1,398,097 words", lambda: of_programs(" (main () () (ret))", stack="(nat 12345) " * 1398097), 2, "refused Q14 at 14"),
    ("1,100 programs of one name", lambda: of_programs(" (p (x) ((y (bool t))) (push-local x) (ret))" * 1100), 2, "refused Q3 at 7"),
    ("one program more", lambda: of_programs(" (p () () (ret))" * 1101), 2, "refused P9 at 0"),
    ("524,288 labels, each with a jump to it", lambda: of_one_program(numbered(" (dl l", " () (jump l", "))", 524288)), 12, "size words 1048582"),
    ("524,288 words in instructions", lambda: of_one_program(pushes() + " (ret)"), 12, "size words 1048587"),
    ("an area of 1,000,000 words", lambda: of_programs(" (main () () (ret))", areas=area()), 0, "built 1000011"),
    ("1,100 programs with a call each", lambda: of_programs(numbered(" (p", " () () (call p", ") (ret))", 1100), main="p0"), 0, "built 12104"),
    ("a million instructions `(no-op)` and a return", lambda: of_one_program(" (no-op)" * 1000000 + " (ret)"), 0, "built 1000011"),
    ("the most that can be linked", lambda: of_one_program(" (no-op)" * 1048565 + " (ret)"), 0, "built 1048576"),
    ("one instruction more than that", lambda: of_one_program(" (no-op)" * 1048566 + " (ret)"), 12, "size words 1048577"),
]

# Sources, which `check` judges.
SOURCES = [
    ("a call with 300,000 actuals of one name", lambda: of_one_call(" x" * 300000), 2, "refused S16 at 48"),
    ("a call with 150,000 different actuals", lambda: of_one_call(numbered(" x", " y", "", 75000)), 2, "refused S16 at 48"),
    ("a handler of 300,000 conditions of one name", lambda: of_one_handler(" c" * 300000), 2, "refused S13 at 51"),
    ("a handler of 150,000 different conditions", lambda: of_one_handler(numbered(" c", " d", "", 75000)), 2, "refused S12 at 49"),
    ("the last of 200 variables as 250,000 actuals", lambda: of_one_call(" y99" * 250000, VARIABLES), 2, "refused S16 at 2817"),
    ("130,000 statements", lambda: of_calls(" (no-op)" * 130000), 0, "ok"),
    ("45,000 predefined calls", lambda: "(program p (proc p ((x integer)) () () () (seq" + " (mg-integer-add x x x)" * 45000 + ")))", 0, "ok"),
    ("60,000 calls of a procedure that is missing", lambda: of_calls(" (call q (x) (c))" * 60000), 2, "refused S16 at 42"),
    ("55,000 calls of the last of 1,000 procedures", lambda: of_calls(" (call p998 () ())" * 55000, CALLEES), 0, "ok"),
    ("1,000 procedures of one name", lambda: "(program p" + " (proc p () () () () (no-op))" * 1000 + ")", 2, "refused S1 at 46"),
    ("one procedure more", lambda: "(program p" + " (proc p () () () () (no-op))" * 1001 + ")", 2, "refused M12 at 0"),
]

# Sources from which a text is generated, with the words.
GENERATED = [
    ("16,000 calls of the last of 1,000 procedures, generated", "pit t 9 9 o", lambda: of_calls(" (call p998 () ())" * 16000, CALLEES), 0, "written o"),
    ("10,000 calls inside 195 lists of 199 handlers, generated", "pit t 999 9 o", lambda: inside_handlers(RAISES, 10000), 0, "written o"),
]


def of_parts(formals="()", conditions="()", variables="()", local="()", body="(no-op)"):
    """A source of one procedure, from the texts of its parts."""
    return f"(program m\n(proc m {formals} {conditions} {variables} {local} {body}))\n"


# As many parts as a source may have, and one more: the name, the text, and what `check` prints.
SOURCE_COUNTS = [
    ("100,000 actuals", lambda: of_parts(body="(call p (x" + " x" * 99999 + ") ())"), "refused S16 at 37"),
    ("200 formals", lambda: of_parts("((x integer)" + " (x integer)" * 199 + ")"), "refused S4 at 33"),
    ("and a local", lambda: of_parts("((x integer)" + " (x integer)" * 199 + ")", variables="((y integer 1))"), "refused M12 at 11"),
    ("201 formals that are none", lambda: of_parts("(x" + " x" * 200 + ")", variables="y"), "refused M12 at 11"),
    ("200 conditions", lambda: of_parts(conditions="(c" + " c" * 199 + ")"), "refused S5 at 25"),
    ("and a local one", lambda: of_parts(conditions="(c" + " c" * 199 + ")", local="(d)"), "refused M12 at 11"),
    ("local conditions that are no list", lambda: of_parts(conditions="(c" + " c" * 150 + ")", local="c"), "refused M5 at 329"),
    ("4,096 items", lambda: of_parts(variables="((a (array integer 4096) (1" + " 2" * 4095 + ")))"), "ok"),
    ("1,000 arguments", lambda: of_parts(body="(mg-integer-add" + " x" * 1000 + ")"), "refused S22 at 31"),
]

# The same of systems: what `pcheck` prints.
SYSTEM_COUNTS = [
    ("1,000 areas of one name", lambda: of_programs("(m () () (ret))", main="m", areas="(a (nat 1))" * 1000), "refused Q2 at 27"),
    ("one area more", lambda: of_programs("(m () () (ret))", main="m", areas="(a (nat 1))" * 1001), "refused P9 at 0"),
    ("400 formals of one name", lambda: of_programs("(m (" + " x" * 400 + ") () (ret))", main="m"), "refused Q4 at 23"),
    ("one formal more", lambda: of_programs("(m (" + " x" * 401 + ") () (ret))", main="m"), "refused P9 at 20"),
    ("2 formals and 398 temporaries", lambda: of_programs("(m (x y) (" + "(t (nat 1))" * 398 + ") (ret))", main="m"), "refused Q14 at 9"),
    ("one temporary more", lambda: of_programs("(m (x y) (" + "(t (nat 1))" * 399 + ") (ret))", main="m"), "refused P9 at 20"),
    ("400 temporaries", lambda: of_programs("(m x (" + "(t (nat 1))" * 400 + ") (ret))", main="m"), "refused P3 at 23"),
    ("401 temporaries", lambda: of_programs("(m x (" + "(t (nat 1))" * 401 + ") (ret))", main="m"), "refused P9 at 20"),
]

COUNTS = [
    *(("check t", *row) for row in SOURCE_COUNTS),
    *(("pcheck t", *row) for row in SYSTEM_COUNTS),
]

# All of them: the layer, the name, the words, the text, the exit status and what is printed.
TEXTS = [
    *(("trees", *row) for row in TREES),
    *(("piton", name, "pbuild t i", *row) for name, *row in PITON),
    *(("gypsy", name, "check t", *row) for name, *row in SOURCES),
    *(("gypsy", *row) for row in GENERATED),
]

# Runs: the layer, the name, the words, the source, the values, and what is printed.
RUNS = [
    (
        "meaning",
        "a loop of 200,000 rounds",
        f"mean t v 65536 65536 {NEVER_SPENT}",
        LOOP,
        "((n 200000))",
        "steps 1200005\ncounted 21800058\ncondition normal\nn = 0",
    ),
    (
        "meaning",
        "calls 13,000 deep, 10 times",
        f"mean t v 65536 65536 {NEVER_SPENT}",
        RECURSION,
        "((times 10) (depth 13000))",
        "steps 780145\ncounted 20672438\ncondition normal\ntimes = 0\ndepth = 13000",
    ),
    (
        "meaning",
        "calls 13 deep, 10,000 times",
        f"mean t v 65536 65536 {NEVER_SPENT}",
        RECURSION,
        "((times 10000) (depth 13))",
        "steps 920005\ncounted 23050058\ncondition normal\ntimes = 0\ndepth = 13",
    ),
    (
        "meaning",
        "fifteen arrays, handed on 3,854 deep",
        f"mean t v 65536 65536 {NEVER_SPENT}",
        HANDED_ON,
        "()",
        "steps 7710\ncounted 385430\ncondition spaceerror",
    ),
    (
        "meaning",
        "the first loop as an image",
        f"go t v 65536 65536 {NEVER_SPENT} i",
        LOOP,
        "((n 200000))",
        "finished 21800058\ncondition normal\nn = 0",
    ),
    (
        "meaning",
        "a loop of 20,000 products",
        f"mean t v 65536 65536 {NEVER_SPENT}",
        PRODUCTS,
        "((n 20000) (x 0))",
        "steps 160005\ncounted 54320065\ncondition normal\nn = 0\nx = 3",
    ),
    (
        "meaning",
        "the same as an image",
        f"go t v 65536 65536 {NEVER_SPENT} i",
        PRODUCTS,
        "((n 20000) (x 0))",
        "finished 54320065\ncondition normal\nn = 0\nx = 3",
    ),
]

SEVEN = (TOP / "examples/first/seven.gypsy").read_text()
# An image of one word, in version 1.
EMPTY_IMAGE = (
    "464d3931000000010000000000000001000000000000000000000000000000000000000000000000000000000000000000000000000000000000000000000000"
    "000000000000000000000000000000000000000100000000ffffffff000000000000000000000000"
)
# Whole files, and the byte that they are padded with.
WHOLE = {
    "s": (SEVEN.encode(), b" "),
    "v": (b"((x 0))", b" "),
    "i": (bytes.fromhex(EMPTY_IMAGE), b"\0"),
    "p": (b"(piton main 2 1 0 () () (main () () (ret)))", b")"),
    "d": (b"up", b"\n"),
    "a": (b".base 0\n.size 4\n.final 1\n.start 0\nMOVE r3,#5\nDEC r15,r15\n", b" "),
    "c": (b"((main 2 4))", b" "),
    "m": (b"int x; while 1 <= x { x := x - 1; }\n", b" "),
}

# Files at their limits and one byte over: how long they are; the status and what is printed.
FILES = [
    ("go s v 7 3 28 o", {"s": 1_048_576, "v": 1_048_576}, 0, "finished 28\ncondition normal\nx = 7"),
    ("go s v 7 3 28 o", {"s": 1_048_577}, 12, "size file 1048576"),
    ("go s v 7 3 28 o", {"v": 1_048_577}, 12, "size file 1048576"),
    ("run i v 28", {"i": 33_554_432}, 4, "image I4 at 104"),
    ("run i v 28", {"i": 33_554_433}, 12, "size file 33554432"),
    ("run i v 28", {"v": 1_048_577}, 12, "size file 1048576"),
    ("check s", {"s": 1_048_576}, 0, "ok"),
    ("check s", {"s": 1_048_577}, 12, "size file 1048576"),
    ("pcheck p", {"p": 16_777_216}, 2, "refused G5 at 43"),
    ("pcheck p", {"p": 16_777_217}, 12, "size file 16777216"),
    ("debug gypsy s v 7 3 d", {"d": 1_048_576}, 0, "top"),
    ("debug gypsy s v 7 3 d", {"d": 1_048_577}, 12, "size file 1048576"),
    ("pdebug p d", {"p": 16_777_217}, 12, "size file 16777216"),
    ("pdebug p d", {"d": 1_048_577}, 12, "size file 1048576"),
    ("idebug i v d", {"i": 33_554_432}, 4, "image I4 at 104"),
    ("idebug i v d", {"i": 33_554_433}, 12, "size file 33554432"),
    ("idebug i v d", {"v": 1_048_577}, 12, "size file 1048576"),
    ("idebug i v d", {"d": 1_048_577}, 12, "size file 1048576"),
    ("asm a o", {"a": 33_554_432}, 2, "refused A1 at 57"),
    ("asm a o", {"a": 33_554_433}, 12, "size file 33554432"),
    ("mini m o", {"m": 1_048_576}, 0, "written o"),
    ("mini m o", {"m": 1_048_577}, 12, "size file 1048576"),
    ("cert s c 7 3", {"c": 1_048_576}, 0, "yes"),
    ("cert s c 7 3", {"c": 1_048_577}, 12, "size file 1048576"),
]


def many_locals(calls, count):
    """Main calls a procedure so many times, which has so many locals of 4,096 words each."""
    local = "(a{} (array integer 4096) (0" + " 0" * 4095 + "))"
    locals_ = "".join(local.format(number) for number in range(count))
    return "(program main (proc main () () () () (seq" + " (call p () ())" * calls + f")) (proc p () () ({locals_}) () (no-op)))"


def many_formals(count):
    """Main has so many integers and so many conditions, and signals the last condition."""
    formals = " ".join(f"(x{number} integer)" for number in range(count))
    conditions = " ".join(f"c{number}" for number in range(count))
    return f"(program main (proc main ({formals}) ({conditions}) () () (signal c{count - 1})))"


def many_values(count):
    return "(" + " ".join(f"(x{number} {number - 7})" for number in range(count)) + ")"


def many_read(count):
    """What memory is read as after a run of many_formals on many_values."""
    return f"condition c{count - 1}" + "".join(f"\nx{number} = {number - 7}" for number in range(count))


def formals_at_the_end():
    """Main's index of each formal and two words more, and each formal and the number of the condition: main's stacks. The signal is 4
    instructions, and the way out of main 4."""
    for count in (7, 60, 200):
        source, values, sizes = many_formals(count), many_values(count), f"{count + 2} {count + 1}"
        yield f"{count} formals", f"go t v {sizes} 8 i", source, values, 0, f"finished 8\n{many_read(count)}"
        yield f"{count} formals", f"mean t v {sizes} 2", source, values, 0, f"steps 2\ncounted 8\n{many_read(count)}"


def large():
    """Programs with many words, and texts with many lines."""
    # Main's 14 words of code and 8,256 for each of 130 calls, and the procedure's 16.
    yield "130 calls", "build t 100 100 i", many_locals(130, 1), "", 12, "size words 1073310"
    yield "130 calls", "quick t 100 100 i", many_locals(130, 1), "", 12, "size words 1073310"
    # 44 for a call of a procedure without locals, 61,440 constants, and 4 for each local.
    yield "fifteen arrays", "go t v 19 61455 61544 i", many_locals(1, 15), "()", 0, "finished 61544\ncondition normal"
    area = " (nat 0)" * 20_000
    yield "a long area", "prun t 1", of_programs(" (main () () (ret))", areas=f"(a{area})"), "", 0, f"halted 1\ncounted 4\na{area}\nstack"
    linked = of_one_program(" (no-op)" * 1048565 + " (ret)")
    yield "the most words of a Piton text's session", "pdebug t d", linked, "", 0, "stepped 5", "step 5"
    yield "one word more", "pdebug t d", linked.replace(" (ret)", " (no-op) (ret)"), "", 12, "size words 1048577", "jump"
    words = "debug gypsy t v 7 3 d"
    yield "a long script", words, SEVEN, "((x 0))", 13, "script D6 at line 174763", "\nshow\r" * 174762


def many_lines():
    """Scripts with very many of each line, in sessions of a source of 20,000 statements."""
    source = "(program main\n(proc main ((x integer)) () () ()\n(seq" + " (mg-simple-constant-assignment x 7)" * 20_000 + ")))\n"
    first = source.index("(mg-simple")
    listed = "condition normal\nx = 0"
    said = {
        "piton": {
            "up": f"in main at {first}\n{listed}",
            "show": "at main 0 frames 1\nx = (nat 0)\nstack (int 0)",
            "until main 0 5": "arrived 0",
            "step 0": "stepped 0",
        },
        "fm9001": {"up": f"in main at {first}\n{listed}", "words 4294967295 1": "ffffffff outside"},
        "gypsy": {"up": "top", "show": f"at {first} depth 1\n{listed}", f"until {first} 5": "arrived 0"},
    }
    for level, lines in said.items():
        for line, answer in lines.items():
            yield f"{level}: {line!r} over and over", f"debug {level} t v 100 100 d", source, "((x 0))", 0, "\n".join([answer] * 30_000), f"{line}\n" * 30_000


def run_of(words, status, printed):
    """A run that stores its last word where its command stores a file."""
    parts = words.split()
    stored = parts[-1] if parts[0] in ("go", "build", "pit", "pbuild", "asm", "mini", "quick") else None
    return Run(words.encode(), printed.encode() + b"\n", status, stored)


def rows():
    for words, lengths, status, printed in FILES:
        files = {name: text + byte * (lengths.get(name, 0) - len(text)) for name, (text, byte) in WHOLE.items()}
        yield Row(f"large.py: files of {lengths} bytes", files, [run_of(words, status, printed)])
    for _, name, words, text, status, printed in TEXTS:
        yield Row(f"large.py: {name}", {"t": lambda text=text: text().encode()}, [run_of(words, status, printed)])
    for words, name, text, printed in COUNTS:
        yield Row(f"large.py: {name}", {"t": lambda text=text: text().encode()}, [Run(words.encode(), printed.encode() + b"\n")])
    for _, name, words, text, values, printed in RUNS:
        yield Row(f"large.py: {name}", {"t": text.encode(), "v": values.encode()}, [run_of(words, 0, printed)])
    for name, words, text, values, status, printed, *script in [*formals_at_the_end(), *large(), *many_lines()]:
        files = {"t": text.encode(), "v": values.encode()} | ({"d": script[0].encode()} if script else {})
        yield Row(f"large.py: {name}", files, [run_of(words, status, printed)])
