"""The code of each instruction of Piton, as the tables of docs/languages/fm9001.md have it: its words in the image of a system that has the instruction, and its
text in the listing of that image.
"""
import re
from functools import partial

from rows import TOP, Row, Run

PAGE = "docs/languages/fm9001.md"

# The instructions of each row of a table whose first cell has other words than operations; a prelude is a program's.
TESTS = {"zero": ["int", "nat"], "not-zero": ["int", "nat"], "f": ["bool"], "t": ["bool"], "all-zero": ["bitv"], "not-all-zero": ["bitv"]}
ARGUMENTS = {
    "push-constant": "(nat 77)", "push-local": "v", "pop-local": "v", "set-local": "v", "push-global": "b", "pop-global": "b", "set-global": "b",
    "push-temp-stk-index": "3", "pop*": "5", "jump": "l", "jump-if-temp-stk-full": "l", "jump-if-temp-stk-empty": "l", "jump-case": "l l", "pushj": "l",
    "call": "p",
}
# How many words the instruction's table has.
TABLE = {"jump-case": 2}
MAIN_PRELUDE, FIRST_WORD = 6, 104
# How many words the label's instruction, a return and the prelude of p have.
LABELLED, RETURN, OF_P = 1, 5, 8
PRELUDE = {"r0": "00e08400", "temporary": "00e0843f", "formal": "00e08432", "frame": "00e00001"}


def system(instruction):
    """A system whose main program has this instruction at its place 0; from place 1 on a label, and a program p behind it."""
    main = f"(main () ((u (nat 0)) (v (nat 0))) ({instruction}) (dl l () (no-op)) (ret))"
    return f"(piton main 100 50 0 ((a (nat 1)) (b (nat 2))) () {main} (p (x y) ((s (int 5)) (t (int 6))) (ret)))".encode()


def numbers_of(length):
    """What the names in the tables stand for, where an instruction has so many words and stands behind the prelude of main."""
    after = MAIN_PRELUDE + length
    entry = after + LABELLED + RETURN
    # Behind p stand the word at which a run ends, two areas, and both stacks.
    areas = entry + OF_P + RETURN + 1
    control, temporary, end = areas + 2, areas + 102, areas + 152
    return {
        "word": 77, "offset": 1, "address": areas + 1, "index": 3, "n": 5, "locals": 2, "target": after, "after": after, "entry": entry,
        "lowest": temporary, "control": control, "end": end, "end-1": end - 1, "end-1-index": end - 4,
    }  # fmt: skip


def table_rows():
    """The rows of the three tables: the names in the first cell, the code and the words; `the same` is the code of the row before."""
    text = (TOP / PAGE).read_text().split("## The code of Piton's instructions")[1].split("### What is proved of it")[0]
    last = None
    for line in text.splitlines():
        cells = [it.strip() for it in line.strip("|").split("|")]
        if len(cells) != 3 or not cells[0].startswith(("`", "a test")):
            continue
        names, code, words = re.findall("`([^`]+)`", cells[0]), cells[1], cells[2]
        if code.startswith("the same"):
            changed = re.search("`(.*)`", code).group(1)
            code, words = last[0].replace("MOVE[vs] (r2),#1", changed), last[1].replace("00304a01", re.search("`(.*)`", words).group(1))
        last = code, words
        yield names, code.strip("`"), [it.strip("`") for it in words.split()]


def instructions_of(name):
    """The instructions that a name in the first cell of a row stands for."""
    if name in TESTS or name in ("neg", "not-neg", "pos", "not-pos"):
        return [f"test-{kind}-and-jump {name} l" for kind in TESTS.get(name, ["int"])]
    return [f"{name} {ARGUMENTS.get(name, '')}".strip()]


def words_wanted(instruction, words):
    """The words of an instruction, as numbers."""
    operation = instruction.split(" ")[0]
    numbers = numbers_of(len(words) + TABLE.get(operation, 0))
    numbers |= {"table": MAIN_PRELUDE + len(words), "lowest": numbers["control" if operation == "push-ctrl-stk-free-size" else "lowest"]}
    made = [int(it, 16) if re.fullmatch("[0-9a-f]{8}", it) else numbers[it] for it in words]
    return made + [numbers["target"]] * TABLE.get(operation, 0)


def has_words(place, wanted, files):
    """Whether the image i has these words from a place on."""
    start = FIRST_WORD + 4 * place
    return files["i"][start : start + 4 * len(wanted)] == b"".join(it.to_bytes(4) for it in wanted)


def lists(place, code, printed):
    """Whether a listing has this code from an address on: a word that an operand takes is passed over."""
    lines = [line.split(" ", 2)[2] for line in printed.decode().splitlines() if line.startswith("0000") and line[8:9] == " "]
    wanted = []
    for text in code.split("; "):
        operand = re.search("[=@].*", text)
        wanted += [re.sub("=.*", "(r15)+", re.sub("@.*", "(r15)", text)), *([None] if operand else [])]
    return len(lines) > 20 and all(line in (text, line if text is None else text) for text, line in zip(wanted, lines[place:]))


def rows():
    count = 0
    for names, code, words in table_rows():
        for instruction in (it for name in names for it in instructions_of(name)):
            wanted = words_wanted(instruction, words)
            build = Run(b"pbuild t i", b"built *\n", stored="i", content=partial(has_words, MAIN_PRELUDE, wanted))
            yield Row(f"templates.py: {instruction}", {"t": system(instruction)}, [build, Run(b"show i", partial(lists, MAIN_PRELUDE, code), 0)])
            count += 1
    # Of the 63 operations four are tests, of which there are twelve.
    assert count == 63 - 4 + 12, f"{PAGE} has {count} instructions"
    # The prelude of p, which has two temporaries, the last one first, and two formals.
    temporaries = [int(PRELUDE["temporary"], 16), 6, int(PRELUDE["temporary"], 16), 5]
    wanted = [int(PRELUDE["r0"], 16), *temporaries, *[int(PRELUDE["formal"], 16)] * 2, int(PRELUDE["frame"], 16)]
    build = Run(b"pbuild t i", b"built *\n", stored="i", content=partial(has_words, MAIN_PRELUDE + 1 + LABELLED + RETURN, wanted))
    yield Row("templates.py: a prelude", {"t": system("no-op")}, [build])
