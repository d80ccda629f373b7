"""Where in a line of an assembly text what is refused stands, and what belongs there, by docs/languages/asm.md."""
import re
from difflib import get_close_matches

OPERATIONS = "MOVE INC ADDC ADD NEG DEC SUBB SUB ROR ASR LSR XOR OR AND NOT M15".split()
CONDITIONS = "cc cs vc vs nc ns zc zs hi ls ge lt gt le nv".split()
HEADER = {".base": ".base N", ".size": ".size N", ".final": ".final X", ".start": ".start X"}
NAME = r"[A-Za-z][A-Za-z0-9_*$-]{0,63}"
REGISTER = r"r(?:[0-9]|1[0-5])"
PLACE = re.compile(rf"{REGISTER}|\({REGISTER}\)\+?|-\({REGISTER}\)")
IMMEDIATE = re.compile(r"#-?\d+")
VALUE = re.compile(rf"\d+|0x[0-9A-Fa-f]{{8}}|{NAME}")
LITERAL = "A word is a line of its own: MOVE r1,(r15)+ and then .word X."
JUMP = "A jump is MOVE r15,(r15)+ and then .word LABEL; MOVE[zs] r15,(r15)+ jumps if z is set."
HALT = "A program ends where the program counter comes to the address of .final, as at end: DEC r15,r15 with .final end."
# What other assemblers have, by its name in capitals.
ELSEWHERE = {
    **dict.fromkeys("JMP JUMP J B BR BEQ BNE BLT BGT BGE BLE JE JNE JZ JNZ CALL JSR".split(), JUMP),
    **dict.fromkeys("HALT HLT STOP END RET".split(), HALT),
    **dict.fromkeys("LOAD LD LDR LW STORE ST STR SW LI LA LDA STA".split(), "MOVE (r1),r2 writes to the address in r1, and MOVE r2,(r1) reads from it."),
    **dict.fromkeys("CMP TEST TST".split(), "SUB{z} r3,r4 sets z if both are equal; it writes the difference to r3."),
    **dict.fromkeys("MUL DIV".split(), "There is no product and no quotient: a loop adds."),
    **dict.fromkeys("SHL LSL ASL SLL".split(), "There is no shift to the left: ADD r1,r1 doubles."),
    **dict.fromkeys("PUSH POP".split(), "MOVE -(r1),r2 pushes r2 on a stack at r1, and MOVE r2,(r1)+ pops it."),
    "NOP": "MOVE r1,r1 does nothing.",
    **dict.fromkeys(".ORG ORG .TEXT .DATA".split(), "The window begins at .base N, in the first line."),
    **dict.fromkeys(".LONG .INT .DW DW DC .BYTE .ASCII .SPACE .SKIP".split(), "Each word is a .word X of its own; the rest of the window is zero."),
}


class Line:
    """The line of a text that begins at a place: its label, and its statement with where that begins in the line."""

    def __init__(self, data, place):
        end = data.find(b"\n", place)
        text = data[place:len(data) if end < 0 else end].decode("latin-1")
        body = text.split(";")[0].rstrip(" ")
        found = re.match(rf" *(?:({NAME}):(?: +|$))?", body)
        self.whole, self.label, self.at, self.statement = text, found[1], found.end(), body[found.end():]

    @property
    def word(self):
        return self.statement.split(" ")[0]


def lines_before(data, place):
    """The lines of a text before a place."""
    at = 0
    while at < place:
        yield Line(data, at)
        at = data.find(b"\n", at) + 1 or len(data)


def all_lines(data):
    return list(lines_before(data, len(data)))


def where(rule, data, place):
    """Where in its line what breaks the rule begins, in bytes."""
    return place + (found(rule, data, place)[0] if place < len(data) else 0)


def wanted(rule, data, place):
    """What belongs there, in sentences."""
    return filter(None, found(rule, data, place)[1:])


def found(rule, data, place):
    """The column of what breaks the rule, counted from 0, and sentences on it."""
    line = Line(data, place)
    if rule == "A1":
        return strange(line.whole)
    if rule == "A2":
        return formless(line, [it.word for it in lines_before(data, place) if it.word in HEADER], place == len(data))
    if rule == "A3":
        number = re.search(r"-?\d+$|(?<=#)-?\d+", line.statement)
        return line.at + (number.start() if number else 0),
    if rule == "A4":
        return len(line.whole) - len(line.whole.lstrip(" ")),
    if rule == "A5":
        labels = [it.label for it in all_lines(data) if it.label]
        name = line.statement[len(line.word) + 1:]
        meant = get_close_matches(name, labels, 2, 0.6)
        return line.at + len(line.word) + 1, f"Was {' or '.join(meant)} meant?" if meant else ""
    return line.at,


def strange(text):
    """Of a byte that no line has, or a line that is too long."""
    at = next((it for it, sign in enumerate(text[:257]) if not " " <= sign <= "~"), min(len(text), 256))
    said = {"\t": "Here is a tab: write spaces.", "\r": "Here is a carriage return: lines end with a line feed alone."}
    return at, said.get(text[at:at + 1], "")


def formless(line, header, is_end):
    """Of a line that has no form here."""
    missing = [form for word, form in HEADER.items() if word not in header]
    if missing and (is_end or line.word != missing[0].split()[0] and (line.word in HEADER or line.word == ".word" or named(line.word) in OPERATIONS)):
        return 0 if is_end else line.at, f"A text begins with .base N, .size N, .final X and .start X, in this order. {missing[0]} comes next."
    if line.word in header:
        return line.at, f"{line.word} stands once, before all words."
    is_label = re.fullmatch(rf"({NAME})(?: .*)?", line.statement) and (" " not in line.statement or named(line.statement.split(" ")[1]) in [*OPERATIONS, ".word"])
    if ":" in line.statement or (is_label and named(line.word).upper() not in [*OPERATIONS, *ELSEWHERE]):
        return line.at, "A label is a name and a :, with a space before what follows: begin: MOVE r1,r2."
    at, *said = in_directive(line) if line.word in HEADER or line.word == ".word" else in_instruction(line.statement)
    return line.at + at, *said


def named(word):
    """The operation in the first word of an instruction."""
    return re.split(r"[\[{]", word)[0]


def in_directive(line):
    """Of a word with a dot in front."""
    value = line.statement[len(line.word):]
    at = len(line.word) + len(value) - len(value.lstrip(" "))
    if not value.startswith(" ") or value.startswith("  "):
        return len(line.word), f"Behind {line.word} stand one space and one value."
    value = value[1:]
    if line.word in (".base", ".size"):
        return at, f"{HEADER[line.word]}: N is decimal digits."
    said = "X is decimal digits, 0x and eight hexadecimal digits, or a label."
    if re.fullmatch(r"-\d+", value) and int(value) >= -2 ** 31:
        said += f" {value} is 0x{int(value) % 2 ** 32:08x}."
    elif re.fullmatch(r"0[xX][0-9A-Fa-f]{1,8}", value):
        said += f" Was 0x{int(value, 16):08x} meant?"
    return at, said


def in_instruction(statement):
    """Of an instruction: the place of its first part that has no form."""
    word, _, operands = statement.partition(" ")
    name = named(word)
    if name not in OPERATIONS:
        meant = [name.upper()] if name.upper() in OPERATIONS else get_close_matches(name.upper(), [*OPERATIONS, ".WORD"], 2, 0.6)
        meant = [it if it in OPERATIONS else ".word" for it in meant]
        return 0, ELSEWHERE.get(name.upper(), "") or (f"Was {' or '.join(meant)} meant?" if meant else f"The operations are {' '.join(OPERATIONS)}.")
    form = re.fullmatch(r"\w+(?:\[(.*?)\])?(?:\{(.*?)\})?", word)
    if not form:
        return len(name), "Behind the operation may stand a condition and flags to set: MOVE[zc]{z} r1,r2."
    if form[1] is not None and form[1] not in CONDITIONS:
        return form.start(1), f"The conditions are {' '.join(CONDITIONS)}; without one it is always."
    if form[2] is not None and not (form[2] and re.fullmatch("c?v?n?z?", form[2])):
        return form.start(2), "The flags to set are of c, v, n and z, in this order; without flags there are no braces."
    return in_operands(operands, len(word) + 1)


def in_operands(operands, start):
    """Of what stands behind the operation."""
    if not operands:
        return start - 1, "An instruction has two operands, the target first: MOVE r1,r2."
    space = operands.find(" ")
    if space >= 0:
        return start + space, "One space stands before the operands, and none within them: MOVE r1,r2."
    target, comma, source = operands.partition(",")
    if not PLACE.fullmatch(target):
        return start, *operand_lines(target, True)
    if not comma:
        return start + len(target), "A comma and the second operand are missing: MOVE r1,r2."
    return start + len(target) + 1, *operand_lines(source, False)


def operand_lines(text, is_target):
    """What belongs in place of an operand."""
    if is_target and IMMEDIATE.fullmatch(text):
        yield "The first operand is written, so it is a place: r3, (r3), -(r3) or (r3)+."
    elif PLACE.fullmatch(text.lower()):
        yield f"Was {text.lower()} meant?"
    elif re.search(r"r(1[6-9]|[2-9]\d|\d{3,}|0\d)", text.lower()):
        yield "The registers are r0 to r15, without a zero in front."
    elif re.fullmatch(r"-?\d+", text):
        yield f"Was #{text} meant? An immediate is # and a number from -256 to 255." if abs(int(text)) < 256 else LITERAL
    elif re.fullmatch(r"#-?0x[0-9A-Fa-f]+", text):
        yield f"An immediate is # and a decimal number: here #{int(text[1:], 16)}." if abs(int(text[1:], 16)) < 256 else LITERAL
    elif text.startswith("=") or re.fullmatch(NAME, text):
        yield LITERAL
    else:
        yield f"{'A target' if is_target else 'An operand'} is r3, (r3), -(r3){'' if is_target else ', #5'} or (r3)+."
