"""Images by their fields: those that are refused, those cut short, the largest, words as instructions, readings, and those of docs/languages/image-file.md
and of `build`. Places and texts were worked out by hand from the format of image files.
"""
import re
import struct

from rows import TOP, Row, Run

NO_CONDITION = 0xFFFFFFFF


def numbers(*values):
    return struct.pack(f">{len(values)}I", *values)


def name(text):
    return numbers(len(text)) + text.encode()


def slot(text, kind, length, address):
    """A slot: 0 is an integer, 1 a Boolean and 2 a character; the length of a simple one is 0."""
    return name(text) + numbers(kind, length, address)


# The fields after the magic of the image that the text of a single return is linked to.
FIELDS = [1, 0, 11, 7, 8, 8, 11, *[0] * 12, 2, 0, NO_CONDITION, 0, 0, 10]
WORDS = [0x00E08400, 0x00E00001, 0x00E00400, 0x03E0043F, 0, 0x00E00031, 0x00E03C31, 0x05E03C0F, 0, 7]


def returning(*changes):
    """The image of a single return, with other numbers at these indices of its fields."""
    fields = list(FIELDS)
    for index, number in changes:
        fields[index] = number
    return b"FM91" + numbers(*fields, *WORDS)


# 1. Images that are refused, and a few that aren't: rule and place, or nothing.

OPENINGS = [
    (b"FM92", (1, 0)),
    (b"fm91\0\0\0\x02", (1, 0)),
    (b"GM9", (3, 3)),
    (b"FM91\0\0\0\x02", (3, 8)),
    (b"FM91\0\0\0\x03", (2, 4)),
    (b"FM91\0\0\0\0", (2, 4)),
]

# Another number at an index of the fields.
NUMBERS = [
    (0, 3, (2, 4)),
    (0, 2, (3, 144)),
    (1, 1, None),
    (1, 4294967285, (5, 12)),
    (1, 4294967284, (5, 16)),
    (2, 0, (5, 12)),
    (2, 1048576, None),
    (2, 1048577, (5, 12)),
    (3, 10, None),
    (3, 11, (5, 16)),
    (20, 15, None),
    (20, 16, (5, 84)),
    (21, 10, None),
    (21, 11, (7, 88)),
    (21, 4294967294, (7, 88)),
    (22, 200, (6, 96)),
    (22, 201, (5, 92)),
    (23, 201, (5, 96)),
    (24, 9, (4, 140)),
    (24, 11, (3, 144)),
    (24, 12, (5, 100)),
]

# The same in version 2.
NUMBERS_IN_2 = [
    (22, 201, (6, 96)),
    (22, 202, (5, 92)),
]

# Other bytes after the condition address, from place 92 on.
TAILS = [
    # Names of conditions.
    (numbers(NO_CONDITION), (5, 92)),
    (numbers(1, 0), (6, 96)),
    (numbers(1, 65), (6, 96)),
    (numbers(1) + name("true"), (6, 96)),
    (numbers(1, 4) + b"tru", (3, 103)),
    (numbers(2) + name("a") + name("("), (6, 101)),
    (numbers(2) + name("a") + name("a"), (8, 101)),
    # Slots: a simple one in the window, and one past it on either side.
    (numbers(0, 1) + slot("a", 0, 0, 10) + numbers(0), None),
    (numbers(0, 1) + slot("a", 0, 0, 11), (7, 113)),
    # Kinds and lengths.
    (numbers(0, 1) + slot("a", 3, 0, 10), (5, 105)),
    (numbers(0, 1) + slot("a", 2, 4097, 10), (5, 109)),
    (numbers(0, 1) + slot("a", 1, 4096, 10), (7, 113)),
    # An array of all words of the window, and the same one address too low.
    (numbers(0, 1) + slot("a", 2, 11, 10) + numbers(0), None),
    (numbers(0, 1) + slot("a", 0, 11, 9), (7, 113)),
    # Two slots of one name; a condition and a slot of one name.
    (numbers(0, 2) + slot("a", 0, 0, 10) + name("a"), (8, 117)),
    (numbers(1) + name("a") + numbers(1) + slot("a", 0, 0, 10) + numbers(0), None),
]

# What stands behind the words in version 2, from place 144 on.
ONE = numbers(1) + name("p") + numbers(0, 0)
TABLES = [
    (numbers(0, 0), None),
    # Procedures: their number, names, conditions and variables.
    (numbers(1001), (5, 144)),
    (numbers(1, 0), (6, 148)),
    (numbers(1) + name("p") + numbers(202), (5, 153)),
    (numbers(1) + name("p") + numbers(2) + name("a") + name("a"), (8, 162)),
    (numbers(1) + name("p") + numbers(0, 201), (5, 157)),
    (numbers(1) + name("p") + numbers(0, 1) + slot("x", 0, 0, 200), (5, 174)),
    (numbers(1) + name("p") + numbers(0, 1) + slot("x", 3, 0, 0), (5, 166)),
    (numbers(1) + name("p") + numbers(0, 1) + slot("x", 0, 4097, 0), (5, 170)),
    (numbers(1) + name("p") + numbers(0, 2) + slot("x", 0, 0, 199) + name("x"), (8, 178)),
    (numbers(2) + name("p") + numbers(0, 0) + name("p"), (8, 161)),
    # Marks: their number, addresses, procedures and places.
    (numbers(0, 1048577), (5, 148)),
    (numbers(0, 1048576), (3, 152)),
    (ONE + numbers(1, 11, 0, 0), (7, 165)),
    (ONE + numbers(1, 10, 1, 0), (5, 169)),
    (ONE + numbers(1, 10, 0, 1048576), (5, 173)),
    (ONE + numbers(2, 3, 0, 0, 3, 0, 0), (9, 177)),
    (ONE + numbers(2, 3, 0, 0, 11, 0, 0), (7, 177)),
    (ONE + numbers(2, 3, 0, 0, 4, 0, 1048575), None),
]

# An image of version 2 with a window of 20 words from 100 on, no slots and no words, the procedure `main` with a variable, and two marks.
AT_100 = (
    b"FM91"
    + numbers(2, 100, 20, 102, *range(1, 17), 9, NO_CONDITION, 0, 0, 0, 1)
    + name("main")
    + numbers(0, 1)
    + slot("x", 0, 0, 5)
    + numbers(2, 100, 0, 48, 103, 0, 14)
)

# Another number at a place of it.
NUMBERS_AT_100 = [
    (4, 3, (2, 4)),
    (4, 1, (4, 104)),
    (104, 1001, (5, 104)),
    (108, 0, (6, 108)),
    (116, 202, (5, 116)),
    (120, 201, (5, 120)),
    (137, 200, (5, 137)),
    (141, 1048577, (5, 141)),
    (141, 3, (3, 169)),
    (145, 99, (7, 145)),
    (149, 1, (5, 149)),
    (153, 1048576, (5, 153)),
    (157, 100, (9, 157)),
    (157, 99, (7, 157)),
    (157, 120, (7, 157)),
    (165, 1048576, (5, 165)),
    (165, 1048575, None),
]

# 2. The largest image: a window of 2^20 words that ends at the last address, all of its words, 200 conditions and 200 slots under the
# longest names, and an array of 4,096 items. It has ended where it begins, and its condition word, the first, says the last condition.

SIZE = 1 << 20
BASE = 0xFFFFFFFF - SIZE
LAST = 0xFFFFFFFE


def long_name(number):
    return "n" * 61 + f"{number:03}"


def largest():
    slots = [slot(long_name(0), 0, 4096, LAST)]
    slots += [slot(long_name(it), it % 3, 0, LAST - 4096 - it) for it in range(1, 200)]
    head = numbers(1, BASE, SIZE, LAST, *range(15), LAST, 15, BASE, 200) + b"".join(name(long_name(it)) for it in range(200))
    return b"FM91" + head + numbers(200) + b"".join(slots) + numbers(SIZE, 3 + 199, *range(1, SIZE))


# The value of each slot, as values files and reports have it.
LARGEST_VALUES = ["(0" + "".join(f" -{it}" for it in range(1, 4096)) + ")"]
LARGEST_VALUES += [("-2147483648", "true", "#127")[it % 3] for it in range(1, 200)]
LARGEST_TEXT = "(" + "\n".join(f"({long_name(it)} {value})" for it, value in enumerate(LARGEST_VALUES)) + ")"
LARGEST_REPORT = f"finished 0\ncondition {long_name(199)}\n" + "".join(f"{long_name(it)} = {value}\n" for it, value in enumerate(LARGEST_VALUES))


def largest_listing(printed):
    """Whether this lists all of it: the last line is that of its last word."""
    lines = printed.splitlines()
    return len(lines) == 3 + 16 + 1 + 1 + 200 + 200 + SIZE and lines[-1] == b"fffffffe 000fffff MOVE[cc]{cvnz} (r15)+,#-1"


# 3. Words as instructions: those that docs/languages/fm9001.md explains, each operation, each store condition, each set of flags, and modes, registers
# and immediates. In the last, bits 28 to 31, and without an immediate bits 6 to 8, are passed over.


def letters(flags):
    return "".join(letter for bit, letter in zip((8, 4, 2, 1), "cvnz") if flags & bit)


OPERATIONS = "MOVE INC ADDC ADD NEG DEC SUBB SUB ROR ASR LSR XOR OR AND NOT M15".split()
CONDITIONS = "cc cs vc vs nc ns zc zs hi ls ge lt gt le".split()
LISTED = [
    (0x00E00E05, "MOVE r3,#5"),
    (0x00E08400, "MOVE -(r1),r0"),
    (0x05E03C0F, "DEC r15,r15"),
    (0x07E00C33, "SUB r3,(r3)+"),
    (0x0379883F, "ADD[zs]{cz} -(r2),(r15)+"),
    (0x0FFF7F00, "M15[nv]{cvnz} (r15),#-256"),
    *((0x00E00402 | number << 24, f"{operation} r1,r2") for number, operation in enumerate(OPERATIONS)),
    *((0x00000402 | number << 20, f"MOVE[{condition}] r1,r2") for number, condition in enumerate(CONDITIONS)),
    (0x00F00402, "MOVE[nv] r1,r2"),
    *((0x00E00402 | number << 16, f"MOVE{{{letters(number)}}} r1,r2") for number in range(1, 16)),
    (0x03E00412, "ADD r1,(r2)"),
    (0x03E00422, "ADD r1,-(r2)"),
    (0x03E00432, "ADD r1,(r2)+"),
    (0x03E04402, "ADD (r1),r2"),
    (0x03E08402, "ADD -(r1),r2"),
    (0x03E0C402, "ADD (r1)+,r2"),
    (0x03E0C432, "ADD (r1)+,(r2)+"),
    (0x03E0280B, "ADD r10,r11"),
    (0x03E00600, "ADD r1,#0"),
    (0x03E006FF, "ADD r1,#255"),
    (0x03E00700, "ADD r1,#-256"),
    (0x03E007FF, "ADD r1,#-1"),
    (0xF3E005C2, "ADD r1,r2"),
]


def listed():
    """An image of these words alone, and how its listing ends."""
    words = [word for word, _ in LISTED]
    image = b"FM91" + numbers(1, 0, len(words), 0, *[0] * 17, NO_CONDITION, 0, 0, len(words), *words)
    lines = "".join(f"{at:08x} {word:08x} {text}\n" for at, (word, text) in enumerate(LISTED)).encode()
    return Row("images.py: words as instructions", {"i": image}, [Run(b"show i", lambda text: text.endswith(b"flags ----\n" + lines), 0)])


# 4. Readings: slots of each kind from 30 downwards, with the condition word at 31, the condition `mine`, and four instructions at 32 that store
# registers where other registers point.

SLOTS = [slot("x", 0, 0, 30), slot("b", 1, 0, 29), slot("c", 2, 0, 28), slot("a", 0, 3, 27), slot("d", 1, 1, 24)]
VALUES = b"((x -2147483648) (b false) (c #65) (a (10 -10 30)) (d (true)))"
READ = "x = -2147483648\nb = false\nc = #65\na = (10 -10 30)\nd = (true)\n"


def storing(condition, pc, *stored):
    """The image with this condition word, which begins at a place, and stores these words at these addresses."""
    registers = [0, *(number for pair in stored for number in pair)]
    registers += [0] * (15 - len(registers)) + [pc]
    words = [0x00E04000 | (2 * place + 1) << 10 | (2 * place + 2) for place in range(4)]
    head = numbers(1, 16, 32, 36, *registers, 0, 31, 1) + name("mine") + numbers(len(SLOTS)) + b"".join(SLOTS)
    return b"FM91" + head + numbers(20, *[0] * 15, condition, *words)


def readings():
    """Each condition, and words that no value has."""
    for condition, text in ((0, "leave"), (1, "routineerror"), (2, "normal"), (3, "mine"), (4, "?4")):
        run = Run(b"run i v 0", f"finished 0\ncondition {text}\n{READ}".encode())
        yield Row(f"images.py: condition {text}", {"i": storing(condition, 36), "v": VALUES}, [run])
    image = storing(2, 32, (31, 4), (29, 0xFFFFFFFF), (28, 128), (24, 2))
    run = Run(b"run i v 4", b"finished 4\ncondition ?4\nx = -2147483648\nb = ?4294967295\nc = ?128\na = (10 -10 30)\nd = (?2)\n")
    yield Row("images.py: words that no value has", {"i": image, "v": VALUES}, [run])


# 5. The image of an assignment, for CTRL 7 and TEMP 3.

SEVEN = (TOP / "examples/first/seven.gypsy").read_bytes()
# A place or an address, how often, and the bytes, in a line of that example.
PIECE = re.compile(r"^ *((?:0x)?[0-9a-f]+)  (?:(twelve|four) times )?((?:[0-9a-f]{2})+(?: (?:[0-9a-f]{2})+)*)  ", re.M)


def documented():
    """The bytes of the example in docs/languages/image-file.md: each place of the file with what stands there. The words are listed by their addresses."""
    text = (TOP / "docs/languages/image-file.md").read_text().split("## An example, byte by byte")[1].split("\n## ")[0]
    for place, times, content in PIECE.findall(text):
        start, base, factor = (135, 16, 4) if place.startswith("0x") else (0, 10, 1)
        yield start + factor * int(place, base), bytes.fromhex(content) * {"twelve": 12, "four": 4}.get(times, 1)


def fault_line(fault):
    return f"image I{fault[0]} at {fault[1]}\n".encode()


def shown(name, image, fault):
    """An image is refused by this rule at this place, or listed."""
    run = Run(b"show i", fault_line(fault)) if fault else Run(b"show i", lambda text: text.startswith(b"base "), 0)
    return Row(f"images.py: {name}", {"i": image}, [run])


def fields():
    """Fields that break a rule, and a few that don't."""
    for opening, fault in OPENINGS:
        yield shown(f"begins with {opening.hex()}", opening, fault)
    for changes, rows_of_numbers in (((), NUMBERS), (((0, 2),), NUMBERS_IN_2)):
        for index, number, fault in rows_of_numbers:
            yield shown(f"{number} at field {index}", returning(*changes, (index, number)), fault)
    for tail, fault in TAILS:
        yield shown(f"ends with {tail.hex()}", returning()[:92] + tail, fault)
    for tail, fault in TABLES:
        yield shown(f"ends with {tail.hex()} in version 2", returning((0, 2)) + tail, fault)
    for place, number, fault in NUMBERS_AT_100:
        yield shown(f"{number} at place {place} of AT_100", AT_100[:place] + numbers(number) + AT_100[place + 4 :], fault)
    run = Run(b"migrate i o", b"written o\n", stored="o", content=lambda files: files["o"] == files["i"])
    yield Row("images.py: AT_100 is stored as it is", {"i": AT_100}, [run])


def cuts():
    """Each beginning of an image is cut short, and a byte more is too many."""
    for image in (returning(), returning((0, 2)) + TABLES[-1][0], AT_100):
        for length in range(len(image)):
            yield shown(f"cut to {length} of {len(image)} bytes", image[:length], (3, length))
        yield shown("a byte more", image + b"\0", (4, len(image)))


def begins_alike(wanted):
    """Whether a stored image has these bytes at these places."""
    return lambda files: all(files["i"][place : place + len(content)] == content for place, content in wanted)


def built():
    """The image of SEVEN as docs/languages/image-file.md has it, and with two numbers changed; and where NOTHING has its end and its condition."""
    wanted = list(documented())
    assert sum(len(content) for _, content in wanted) > 350, "the page has another form"
    build = Run(b"build s 7 3 i", b"built 849\n", stored="i", content=begins_alike(wanted))
    yield Row("images.py: docs/languages/image-file.md", {"s": SEVEN}, [build])
    places = [(16, numbers(826)), (88, numbers(827))]
    build = Run(b"build s 2 1 i", b"built 831\n", stored="i", content=begins_alike(places))
    yield Row("images.py: the end and the condition's address", {"s": b"(program main\n(proc main () () () () (no-op)))\n"}, [build])


def changed():
    """The image of SEVEN that the program builds, with another number at a place."""
    for what, place, number, fault in (("a slot past the window", 127, 849, (7, 127)), ("two marks at one address", 3586, 4, (9, 3586))):
        change = lambda files, place=place, number=number: {"i": files["i"][:place] + numbers(number) + files["i"][place + 4 :]}
        runs = [
            Run(b"build s 7 3 i", b"built 849\n", stored="i"),
            Run(b"show i", fault_line(fault), change=change),
            Run(b"run i v 9", fault_line(fault)),
        ]
        yield Row(f"images.py: {what}", {"s": SEVEN, "v": b"()"}, runs)


def rows():
    yield from fields()
    yield from cuts()
    yield from built()
    yield from changed()
    yield listed()
    yield from readings()
    runs = [Run(b"run i v 0", LARGEST_REPORT.encode()), Run(b"show i", largest_listing, 0)]
    yield Row("images.py: the largest", {"i": largest(), "v": LARGEST_TEXT.encode()}, runs)
