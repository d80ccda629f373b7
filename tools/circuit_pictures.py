#!/usr/bin/env python3
"""Draws the phases and the data paths of the processor, from its Verilog text: docs/pictures/phases.svg and data-paths.svg.

    python3 tools/circuit_pictures.py [--check]

Where boxes and lines are is said here; that there are these phases, boxes and lines and no others is read from the text, and the script
stops where the two differ. --check compares the files and stores nothing.
"""
import re
import sys
from collections.abc import Iterator
from pathlib import Path
from xml.sax.saxutils import escape

sys.dont_write_bytecode = True
TOP = Path(__file__).resolve().parents[1]
sys.path.insert(0, str(TOP / "hardware"))
from arguments import parser_of
from simulation import PROCESSOR

SPECS = TOP / "crates/fm_circuit/specs"
PICTURES = TOP / "docs/pictures"
Point = tuple[int, int]

STYLE = """
  .ground { fill: #ffffff } .box { fill: #eef3fa; stroke: #3b5b85 } .kept { fill: #dbe8d3; stroke: #4a7a35 }
  .stop { fill: #f6dcdc; stroke: #a23b3b } .word { stroke: #3b5b85; fill: none } .bit { stroke: #9a6a00; fill: none }
  .word-tip { fill: #3b5b85 } .bit-tip { fill: #9a6a00 } text { fill: #1b1f24 } .small { fill: #57606a }
  @media (prefers-color-scheme: dark) {
    .ground { fill: #0d1117 } .box { fill: #17263c; stroke: #7fa6d9 } .kept { fill: #1c3217; stroke: #85bb6c }
    .stop { fill: #3d1b1b; stroke: #e08585 } .word { stroke: #7fa6d9 } .bit { stroke: #e0b04c }
    .word-tip { fill: #7fa6d9 } .bit-tip { fill: #e0b04c } text { fill: #e6edf3 } .small { fill: #9da7b3 }
  }
  text { font: 14px sans-serif; text-anchor: middle } .small { font-size: 12px } .left { text-anchor: start } .right { text-anchor: end }
  .box, .kept, .stop { stroke-width: 1.5 } .word { stroke-width: 2.5 } .bit { stroke-width: 1.3; stroke-dasharray: 5 3 }
"""


class Differs(Exception):
    """The text has what isn't drawn, or lacks what is."""


# The text.

def drivers() -> dict[str, str]:
    """What drives each wire and each register."""
    text = PROCESSOR.read_text()
    found = dict(re.findall(r"^assign (\w+) = (.*);$", text, re.M))
    return found | dict(re.findall(r"always @\(posedge clk\) (\w+) <= reset \? \S+ : (\w+);", text))


def phase_names() -> dict[int, str]:
    """The phases by their numbers, as the definitions name them."""
    for page in sorted(SPECS.glob("*.antt")):
        if found := re.findall(r"^abbrev pub (\w+) : ℕ\n\1 = (\d+)$", page.read_text(), re.M):
            names = {int(number): name for name, number in found if name != "levels"}
            if names.get(0) == "fetch":
                return names
    raise Differs("no page of definitions has the numbers of the phases")


def choices(driver: str) -> Iterator[tuple[str, int, str]]:
    """The rows of a choice: the wire that chooses, its number, and what is chosen."""
    for by, number, pin in re.findall(r"(\S+) == \d+'d(\d+) \? (\S+) :", driver):
        yield by, int(number), pin


def next_phases() -> set[tuple[int, int, str]]:
    """From which phase which one follows, and by which wire: `outside`, `not outside`, or nothing."""
    wires, found, known = drivers(), set(), phase_names()
    for _, phase, pin in choices(wires["next_phase"]):
        if phase not in known:
            continue
        if "'d" in pin:
            found.add((phase, int(pin.split("'d")[1]), ""))
            continue
        for by, value, after in choices(wires[pin]):
            found.add((phase, int(after.split("'d")[1]), by if value else f"not {by}"))
    return found


# Drawing.

def label(x: int, y: int, text: str, kind: str = "") -> str:
    return f'<text x="{x}" y="{y}"{f" class={chr(34)}{kind}{chr(34)}" if kind else ""}>{escape(text)}</text>'


def box(x: int, y: int, width: int, height: int, kind: str, *lines: str) -> Iterator[str]:
    """A box with a title and lines below it."""
    yield f'<rect x="{x}" y="{y}" width="{width}" height="{height}" rx="6" class="{kind}"/>'
    top = y + height // 2 + 5 - 8 * (len(lines) - 1)
    for number, line in enumerate(lines):
        yield label(x + width // 2, top + 16 * number, line, "small" if number else "")


def line(kind: str, *points: Point) -> str:
    """A line through points, with a tip at its end."""
    path = " ".join(f"{x},{y}" for x, y in points)
    return f'<polyline points="{path}" class="{kind}" marker-end="url(#{kind}-tip)"/>'


def picture(width: int, height: int, title: str, parts: list[str]) -> str:
    tips = "".join(f'<marker id="{kind}-tip" viewBox="0 0 8 8" refX="7" refY="4" markerWidth="9" markerHeight="9" '
                   f'markerUnits="userSpaceOnUse" orient="auto"><path d="M0,0 L8,4 L0,8 z" class="{kind}-tip"/></marker>'
                   for kind in ("word", "bit"))
    return "\n".join([f'<svg xmlns="http://www.w3.org/2000/svg" viewBox="0 0 {width} {height}" width="{width}" height="{height}" role="img">',
                      f"<title>{escape(title)}</title>", f"<style>{STYLE}</style>", f"<defs>{tips}</defs>",
                      f'<rect width="{width}" height="{height}" class="ground"/>', *parts, "</svg>", ""])


# The phases.

PHASES: dict[int, tuple[int, int, str]] = {     # where its box begins, and what is done
    0: (20, 40, "r15 is asked for"), 1: (180, 40, "ir takes the word"), 2: (340, 40, "A is taken or asked for"),
    4: (540, 40, "B is taken or asked for"), 6: (740, 40, "result, flags, r(B)"),
    3: (440, 150, "a takes the word"), 5: (640, 150, "b takes the word"), 7: (820, 150, "was it stored?"), 8: (490, 260, "stops, at = address"),
}
PHASE_BOX = (150, 52)
# Each step: its line, where its label stands, and what it says.
STEPS: dict[tuple[int, int, str], tuple[list[Point], Point, str]] = {
    (0, 1, ""): ([(170, 66), (180, 66)], (0, 0), ""),
    (1, 2, "not outside"): ([(330, 66), (340, 66)], (0, 0), ""),
    (1, 8, "outside"): ([(255, 92), (255, 286), (490, 286)], (300, 280), "outside"),
    (2, 4, "not in_memory"): ([(490, 66), (540, 66)], (0, 0), ""),
    (2, 3, "in_memory"): ([(460, 92), (460, 150)], (450, 125), "in memory"),
    (3, 4, "not outside"): ([(570, 150), (570, 92)], (0, 0), ""),
    (3, 8, "outside"): ([(520, 202), (520, 260)], (550, 236), "outside"),
    (4, 6, "not loads_b"): ([(690, 66), (740, 66)], (0, 0), ""),
    (4, 5, "loads_b"): ([(660, 92), (660, 150)], (667, 125), "read in memory"),
    (5, 6, "not outside"): ([(780, 150), (780, 92)], (0, 0), ""),
    (5, 8, "outside"): ([(690, 202), (690, 274), (640, 274)], (720, 236), "outside"),
    (6, 0, "not stores"): ([(800, 40), (800, 18), (95, 18), (95, 40)], (450, 2), "the next instruction"),
    (6, 7, "stores"): ([(860, 92), (860, 150)], (868, 125), "stored in memory"),
    (7, 0, "not outside"): ([(970, 176), (985, 176), (985, 8), (60, 8), (60, 40)], (0, 0), ""),
    (7, 8, "outside"): ([(880, 202), (880, 298), (640, 298)], (840, 292), "outside"),
    (8, 8, ""): ([(530, 312), (530, 330), (600, 330), (600, 312)], (0, 0), ""),
}


def check_same(what: str, drawn: set, found: set) -> None:
    if drawn != found:
        raise Differs(f"{what}: drawn and not in the text {sorted(drawn - found)}, in the text and not drawn {sorted(found - drawn)}")


def phases_picture() -> str:
    names = phase_names()
    check_same("phases", set(PHASES), set(names))
    check_same("the phase after each", set(STEPS), next_phases())
    parts: list[str] = []
    for points, _, _ in STEPS.values():
        parts.append(line("word", *points))
    for number, (x, y, does) in PHASES.items():
        parts += box(x, y, *PHASE_BOX, "stop" if names[number] == "fault" else "box", f"{number} {names[number]}", does)
    sides = {"in memory": "right", "read in memory": "left", "stored in memory": "left"}
    parts += [label(x, y, text, f"small {sides.get(text, '')}".strip()) for _, (x, y), text in STEPS.values() if text]
    return picture(1000, 360, "The phases of an instruction", ['<g transform="translate(0,12)">', *parts, "</g>"])


# The data paths.

BLOCKS = {      # the wires of each box
    "memory": "read outside", "file": "own", "ir": "ir next_ir", "at": "at next_at", "a": "a next_a", "b": "b next_b",
    "phase": "phase next_phase after_fetched after_read_a after_got_a after_read_b after_got_b after_execute after_stored reads_b loads_b",
    "operand": "mode_a mode number delta moved address in_memory", "first": "sign immediate first",
    "adder": "left right carry_in sum sum_carry left_turns right_turns overflow", "logic": "ror asr lsr a_xor_b a_or_b a_and_b",
    "result": "out out_c out_v out_z", "flags": "c v n z set_c set_v set_n set_z next_c next_v next_n next_z",
    "condition": "hi ls lt ge gt le holds stores keeps file_write memory_write", "written": "file_data",
}
STEERING = {"phase", "ir", "mode", "number", "in_memory", "outside"}    # their lines would lead almost everywhere
DRAWN_STEERING = {("ir", "first")}      # an immediate is a part of the instruction
PORTS = {"bus_address": "memory", "bus_data": "memory", "bus_write": "memory"}
BOXES: dict[str, tuple[int, int, int, int, str, list[str]]] = {
    "memory": (200, 24, 560, 54, "kept", ["memory, beside the processor", "one word in a cycle; it comes a cycle after its address"]),
    "ir": (50, 150, 110, 50, "kept", ["ir", "the instruction"]),
    "file": (240, 150, 190, 60, "kept", ["r0 to r15", "one is read, one written"]),
    "written": (490, 152, 120, 56, "box", ["file_data", "what is written"]),
    "at": (50, 280, 90, 56, "kept", ["at", "last address"]),
    "operand": (190, 280, 160, 56, "box", ["address, moved", "the operand's register"]),
    "first": (480, 280, 150, 56, "box", ["first", "r(A) or immediate"]),
    "a": (480, 400, 110, 44, "kept", ["a", "operand A"]),
    "b": (640, 400, 110, 44, "kept", ["b", "operand B"]),
    "adder": (440, 500, 160, 60, "box", ["sum", "left + right + carry"]),
    "logic": (640, 500, 160, 60, "box", ["ror asr lsr", "xor or and"]),
    "result": (530, 616, 180, 54, "box", ["out", "by the operation"]),
    "flags": (850, 616, 100, 54, "kept", ["c v n z", "the flags"]),
    "condition": (850, 430, 110, 54, "box", ["holds", "store condition"]),
    "phase": (50, 400, 110, 50, "kept", ["phase", "see the phases"]),
}
LINES: dict[tuple[str, str], tuple[str, list[list[Point]]]] = {
    ("memory", "ir"): ("word", [[(700, 110), (105, 110), (105, 150)]]),
    ("memory", "a"): ("word", [[(700, 366), (560, 366), (560, 400)]]),
    ("memory", "b"): ("word", [[(700, 78), (700, 400)]]),
    ("file", "operand"): ("word", [[(290, 210), (290, 280)]]),
    ("file", "first"): ("word", [[(290, 246), (530, 246), (530, 280)]]),
    ("file", "b"): ("word", [[(530, 246), (665, 246), (665, 400)]]),
    ("ir", "first"): ("word", [[(105, 200), (105, 228), (590, 228), (590, 280)]]),
    ("first", "a"): ("word", [[(515, 336), (515, 400)]]),
    ("operand", "memory"): ("word", [[(220, 280), (220, 78)]]),
    ("operand", "at"): ("word", [[(190, 308), (140, 308)]]),
    ("operand", "written"): ("word", [[(350, 308), (455, 308), (455, 190), (490, 190)]]),
    ("written", "file"): ("word", [[(490, 170), (430, 170)]]),
    ("a", "adder"): ("word", [[(500, 444), (500, 500)]]),
    ("a", "logic"): ("word", [[(555, 444), (555, 462), (670, 462), (670, 500)]]),
    ("a", "result"): ("word", [[(500, 462), (410, 462), (410, 588), (560, 588), (560, 616)]]),
    ("b", "adder"): ("word", [[(720, 480), (575, 480), (575, 500)]]),
    ("b", "logic"): ("word", [[(720, 444), (720, 500)]]),
    ("adder", "result"): ("word", [[(585, 560), (585, 616)]]),
    ("logic", "result"): ("word", [[(670, 560), (670, 616)]]),
    ("result", "memory"): ("word", [[(710, 632), (825, 632), (825, 60), (760, 60)]]),
    ("result", "written"): ("word", [[(825, 180), (610, 180)]]),
    ("result", "flags"): ("bit", [[(710, 652), (850, 652)]]),
    ("flags", "adder"): ("bit", [[(870, 590), (620, 590), (620, 540), (600, 540)]]),
    ("flags", "logic"): ("bit", [[(870, 616), (870, 530), (800, 530)]]),
    ("flags", "condition"): ("bit", [[(915, 616), (915, 484)]]),
    ("condition", "memory"): ("bit", [[(905, 430), (905, 40), (760, 40)]]),
    ("condition", "file"): ("bit", [[(905, 132), (340, 132), (340, 150)]]),
}
NAMES: list[tuple[int, int, str, str]] = [      # of words on their lines
    (704, 98, "read", "left"), (216, 140, "address", "right"), (410, 242, "own", ""), (445, 300, "moved", "right"), (100, 222, "ir[8:0]", "right"),
    (831, 340, "out", "left"), (876, 576, "c", "left"), (911, 300, "memory_write", "left"), (560, 128, "file_write", ""),
]


def inverted(wires: dict[str, str]) -> dict[str, str]:
    """The wires that are others inverted, whose lines are drawn from those."""
    return {wire: driver[1:] for wire, driver in wires.items() if wire.startswith("not_") and re.fullmatch(r"~\w+", driver)}


def text_lines() -> set[tuple[str, str]]:
    """From which box to which one a wire leads that doesn't steer."""
    wires, found = drivers(), set()
    plain = inverted(wires)
    box_of = {wire: name for name, members in BLOCKS.items() for wire in members.split()} | PORTS
    if strange := [wire for wire in wires if wire not in box_of and wire not in plain]:
        raise Differs(f"these wires belong to no box: {strange}")
    for wire, driver in wires.items():
        chosen = re.sub(r"\w+(\[\d+:\d+\])? == \d+'d\d+ \?", "", driver)
        for name in re.findall(r"[a-z]\w*", chosen):
            name = plain.get(name, name)
            start, end = "file" if name == "file" else box_of.get(name), box_of.get(wire)
            if start and end and start != end and (name not in STEERING or (start, end) in DRAWN_STEERING):
                found.add((start, end))
    if "if (file_write && !reset) file[number] <= file_data;" not in PROCESSOR.read_text():
        raise Differs("the register file takes something else")
    return found | {("written", "file"), ("condition", "file")}


def joins() -> Iterator[str]:
    """A dot where a line begins at another one, and not at a box."""
    for kind, paths in LINES.values():
        for x, y in (points[0] for points in paths):
            if not any(left <= x <= left + width and top <= y <= top + height for left, top, width, height, _, _ in BOXES.values()):
                yield f'<circle cx="{x}" cy="{y}" r="4" class="{kind}-tip"/>'


def data_picture() -> str:
    check_same("boxes", set(BOXES), set(BLOCKS))
    check_same("lines", set(LINES), text_lines())
    parts = [line(kind, *points) for kind, paths in LINES.values() for points in paths] + list(joins())
    for x, y, width, height, kind, lines in BOXES.values():
        parts += box(x, y, width, height, kind, *lines)
    parts += [label(x, y, text, f"small {side}".strip()) for x, y, text, side in NAMES]
    parts.append(label(40, 560, "green: what is kept from cycle to cycle", "small left"))
    parts.append(label(40, 580, "full lines: words of 32 bits", "small left"))
    parts.append(label(40, 600, "broken lines: single bits", "small left"))
    parts.append(label(40, 620, "not drawn: what ir, phase and the", "small left"))
    parts.append(label(40, 640, "operand's mode and number choose", "small left"))
    return picture(1010, 690, "The data paths of the processor", parts)


def main() -> int:
    parser = parser_of(__doc__)
    parser.add_argument("--check", action="store_true", help="compare the files, and store nothing")
    is_check = parser.parse_args().check
    try:
        pictures = {"phases.svg": phases_picture(), "data-paths.svg": data_picture()}
    except Differs as fault:
        print(f"circuit_pictures: {fault}")
        return 1
    failed = False
    for name, text in pictures.items():
        path = PICTURES / name
        if not is_check:
            path.write_text(text)
        elif not path.is_file() or path.read_text() != text:
            print(f"{path.relative_to(TOP)} isn't current: run  python3 tools/circuit_pictures.py")
            failed = True
    return 1 if failed else 0


if __name__ == "__main__":
    sys.exit(main())
