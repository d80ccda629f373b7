#!/usr/bin/env python3
"""Compares docs/pictures/quick.html, ten statements with their quick code beside the plain one, with what it is now. Prints a line if it differs.

    python3 tools/quick_pictures.py PROGRAM [--write]

The program compiles each statement by `build` and by `quick`, lists both images and runs them; so each word and each count is the program's. With --write
the page is written anew. The exit status is 1 if it differs.
"""
import re
import sys
import tempfile
from html import escape
from pathlib import Path

from arguments import parser_of
from arguments import program as executable

TOP = Path(__file__).resolve().parents[1]
sys.path.append(str(TOP / "guide"))

from generated import Code, Image  # noqa: E402
from program import Program  # noqa: E402

PAGE = TOP / "docs/pictures/quick.html"
SIZES = 60, 60
BUDGET = 1_000_000
# A statement as one says it, and as Micro-Gypsy has it; main's formals; its locals; the values; what there is to see.
PICTURES = [
    ("x := 7", "(mg-simple-constant-assignment x 7)", "(x integer)", "", "(x 0)",
     "A register has the variable's address, so one instruction writes it. The plain code pushes an index and a value, and calls a procedure."),
    ("x := y", "(mg-simple-variable-assignment x y)", "(x integer) (y integer)", "", "(x 0) (y 7)",
     "A word of memory is moved to another one, through no register and no stack."),
    ("b := x = 7", "(mg-simple-constant-eq b x 7)", "(b boolean) (x integer)", "", "(b false) (x 7)",
     "The exclusive or of two words is zero exactly if they are the same. Its flag decides whether 1 is written over 0."),
    ("b := x <= y", "(mg-integer-le b x y)", "(b boolean) (x integer) (y integer)", "", "(b false) (x 3) (y 7)",
     "A difference sets the flags, and the last instruction is carried out if they say that the order holds, also if the difference overflows."),
    ("x := y + z", "(mg-integer-add x y z)", "(x integer) (y integer) (z integer)", "", "(x 0) (y 3) (z 4)",
     "If the sum overflows, the run goes on at the exit of routineerror, before anything is written."),
    ("b := c or d", "(mg-boolean-or b c d)", "(b boolean) (c boolean) (d boolean)", "", "(b false) (c true) (d false)",
     "A Boolean is a word, 0 or 1, so the processor's OR is the operation."),
    ("x := a[i]", "(mg-index-array x a i)", "(x integer) (a (array integer 3)) (i integer)", "", "(x 0) (a (5 6 7)) (i 1)",
     "The last index less i has a borrow exactly if i is not in the array, also if i is negative. The items stand in memory from the last one on."),
    ("x := y * z", "(mg-integer-multiply x y z)", "(x integer) (y integer) (z integer)", "", "(x 0) (y 6) (z -7)",
     "A loop over the binary digits of the second factor, which ends with the highest one. All its jumps are relative to r15."),
    ("if b then x := 1 else x := 2", "(if b (mg-simple-constant-assignment x 1) (mg-simple-constant-assignment x 2))",
     "(b boolean) (x integer)", "", "(b true) (x 0)",
     "A move sets the flag, and the jump to the second arm is carried out if the Boolean is 0."),
    ("while i < n do i := i + 1",
     "(loop (seq (mg-integer-le b n i) (if b (signal leave) (no-op)) (mg-integer-add i i one)))",
     "(n integer) (i integer)", "(b boolean false) (one integer 1)", "(n 2) (i 0)",
     "Leaving a loop is a jump, since it is known where it leads. No frame and no stack is touched."),
]
STYLE = """
:root { color-scheme: light dark; --soft: #565c66; --line: #d4d6d0; --name: #0b5cad; }
@media (prefers-color-scheme: dark) { :root { --soft: #b4bbc6; --line: #3a3f46; --name: #7db8f5; } }
body { font: 15px/1.45 system-ui, sans-serif; max-width: 75rem; margin: 0 auto; padding: 0 1rem 2rem; }
section { border-top: 1px solid var(--line); }
h2 code { font-size: 1.1em; }
.both { display: flex; flex-wrap: wrap; gap: 1rem 3rem; align-items: flex-start; }
.both > div { flex: 1 1 20rem; min-width: 0; overflow-x: auto; }
code, table { font-family: ui-monospace, "DejaVu Sans Mono", Consolas, monospace; font-size: 13px; }
td { padding: 0 0.9rem 0 0; white-space: pre; }
td:first-child, p.note, .head { color: var(--soft); }
.head td { padding-top: 0.35rem; }
.name { color: var(--name); }
"""


def source_of(statement, formals, local):
    """A source whose main is one statement."""
    return f"(program main\n(proc main ({formals}) () ({local}) ()\n{statement}))\n"


def number_of(word):
    """A word as a signed number."""
    return word.number - 2 ** 32 if word.number >= 2 ** 31 else word.number


def registers(shown):
    """What the registers of an image begin with."""
    return {name: int(value, 16) for name, value in re.findall(r"^(r\d+) (\w{8})$", shown, re.M)}


def names_of(shown):
    """The variables whose addresses registers have, as far as the image has names for them."""
    slots = {int(address, 16): name for name, address in re.findall(r"^slot (\S+) \S+ \d+ (\w{8})$", shown, re.M)}
    return {register: slots[value] for register, value in registers(shown).items() if value in slots and register not in ("r1", "r2")}


def row(address, text, note=""):
    return f'<tr><td>{address:04x}</td><td>{escape(text)}</td><td class="name">{escape(note)}</td></tr>'


def is_literal(text):
    """Whether an instruction takes the word behind it: a literal, or the address that it jumps to."""
    return "(r15)+" in text or text.endswith("r15,(r15)")


def quick_rows(shown):
    """The code of main's body: from where the image begins to its final program counter."""
    image, names, rows, operand = Image(shown), names_of(shown), [], False
    for address in range(registers(shown)["r15"], image.final):
        word = image.word(address)
        if operand:
            rows.append(row(address, f"= {number_of(word)}"))
        else:
            used = [names[it] for it in re.findall(r"\((r\d+)\)", word.text) if it in names]
            rows.append(row(address, word.text, ", ".join(used)))
        operand = not operand and is_literal(word.text)
    return rows


def plain_rows(code):
    """The code of main's body, each instruction of Piton above its words."""
    rows = []
    for it in code.programs["main"][:-1]:
        rows.append(f'<tr class="head"><td colspan="3">{escape(it.text)}</td></tr>')
        for address in range(it.address, it.address + it.words):
            shown = code.image.word(address)
            rows.append(row(address, shown.text if code.is_instruction(address) else f"= {number_of(shown)}"))
    return rows


def count_of(report):
    return int(re.match(r"finished (\d+)\n", report)[1])


def picture(path, said, statement, formals, local, values, note):
    """One statement with both codes."""
    with tempfile.TemporaryDirectory() as room:
        source, start = Path(room) / "s", Path(room) / "v"
        source.write_text(source_of(statement, formals, local))
        start.write_text(f"({values})")
        with Program(path, source, start, *SIZES) as program:
            plain = count_of(program.ask("go", "s", "v", *program.sizes, BUDGET, "i"))
            program.ask("quick", "s", *program.sizes, "q")
            quick, listed = count_of(program.ask("run", "q", "v", BUDGET)), program.ask("show", "q")
            program.ask("pit", "s", *program.sizes, "p")
            code = Code((program.folder / "p").read_bytes(), program.ask("show", "i"))
    return f"""<section>
<h2><code>{escape(said)}</code></h2>
<p><code>{escape(statement)}</code> with {escape(values)}</p>
<p class="note">{escape(note)}</p>
<div class="both">
<div><p>Quick code. Instructions carried out: {quick:,}</p><table>{''.join(quick_rows(listed))}</table></div>
<div><p>Plain code. Instructions carried out, with those of the predefined procedure: {plain:,}</p><table>{''.join(plain_rows(code))}</table></div>
</div>
</section>
"""


def page(path):
    """The page."""
    pictures = "".join(picture(path, *it) for it in PICTURES)
    return f"""<!doctype html>
<html lang="en">
<head>
<meta charset="utf-8">
<meta name="viewport" content="width=device-width, initial-scale=1">
<title>Quick code beside plain code</title>
<style>{STYLE}</style>
</head>
<body>
<h1>Quick code beside plain code</h1>
<p>Each statement is the whole body of a main procedure. On the left is what <code>quick</code> makes of it, on the right what <code>build</code> makes of it,
with each instruction of Piton above its words. The page quick.md says what is proved of both. Beside a word of quick code stand the variables whose
addresses its registers have.</p>
{pictures}</body>
</html>
"""


def main():
    parser = parser_of(__doc__)
    parser.add_argument("program", type=executable, help="cli_stack")
    parser.add_argument("--write", action="store_true", help="write the page anew")
    words = parser.parse_args()
    made = page(words.program)
    if words.write:
        PAGE.write_text(made)
    elif not PAGE.exists() or PAGE.read_text() != made:
        print(f"{PAGE.relative_to(TOP)} isn't what the program makes now: run  python3 tools/quick_pictures.py PROGRAM --write")
        return 1
    return 0


if __name__ == "__main__":
    sys.exit(main())
