"""The processor's words by figures from outside: each operation of a few on worked values, each store condition after a difference by Python's own
comparisons, operands in the order in which they are read, and runs at the end of a window whose last page is short.
"""
from images import NO_CONDITION, numbers, slot
from rows import Row, Run

# Operations, and words of instructions: operands are (mode, register), a mode 0 as it is, 1 `(r)`, 2 `-(r)` and 3 `(r)+`.
MOVE, DEC, SUB = 0, 5, 7
CARRY, OVERFLOW, ALWAYS = 1, 3, 14
ALL_FLAGS = 15


def word(operation, target, source, condition=ALWAYS, flags=0):
    """An instruction's word; a source that is a number is an immediate."""
    a = 1 << 9 | source & 511 if isinstance(source, int) else source[0] << 4 | source[1]
    return operation << 24 | condition << 20 | flags << 16 | target[0] << 14 | target[1] << 10 | a


def image(registers, words, base=0, size=None, final=None, flags=0, slots=()):
    """An image whose run begins at the first of its words and ends behind the last, with these registers from r0 on."""
    size = size or len(words) + 1
    registers = [*registers, *[0] * (15 - len(registers)), base]
    final = base + len(words) if final is None else final
    head = numbers(1, base, size, final, *registers, flags, NO_CONDITION, 0, len(slots)) + b"".join(slots)
    return b"FM91" + head + numbers(len(words), *words)


# 1. Operations on worked values: number, whether c is set before, a, b, the result, and c and v after.
OPERATIONS = [
    ("SUBB", 6, True, 1, 0, 0xFFFFFFFE, True, False),
    ("ASR", 9, False, 0x80000001, 0, 0xC0000000, True, False),
    ("ROR", 8, True, 1, 0, 0x80000000, True, False),
    ("NEG", 4, False, 0x80000000, 0, 0x80000000, True, True),
    ("INC", 1, False, 0x7FFFFFFF, 0, 0x80000000, False, True),
    ("M15", 15, True, 0x12345678, 9, 0x12345678, False, False),
]


def signed(number):
    return (number ^ 1 << 31) - (1 << 31)


def boolean(value):
    return "true" if value else "false"


def operations():
    """The operation's result and flags are stored where r3, r4 and r5 point, which is behind the words."""
    for name, number, carry, a, b, result, c, v in OPERATIONS:
        words = [word(number, (0, 1), (0, 2), flags=ALL_FLAGS), word(MOVE, (1, 3), (0, 1))]
        words += [word(MOVE, (1, 4), 1, CARRY), word(MOVE, (1, 5), 1, OVERFLOW)]
        end = len(words)
        slots = [slot("word", 0, 0, end + 1), slot("c", 1, 0, end + 2), slot("v", 1, 0, end + 3)]
        made = image([0, b, a, end + 1, end + 2, end + 3], words, size=end + 4, flags=8 * carry, slots=slots)
        run = Run(b"run i v 9", f"finished 4\nword = {signed(result)}\nc = {boolean(c)}\nv = {boolean(v)}\n".encode())
        yield Row(f"processor.py: {name}", {"i": made, "v": b"((word 0) (c false) (v false))"}, [run])


# 2. Conditions, in the order of their numbers, after a subtraction of a from b.
NUMBERS = [-(1 << 31), -2, -1, 0, 1, 2, (1 << 31) - 1]


def conditions(a, b):
    low, high = a % (1 << 32), b % (1 << 32)
    overflows, negative = not -(1 << 31) <= b - a < 1 << 31, (b - a) % (1 << 32) >= 1 << 31
    return [
        high >= low, high < low, not overflows, overflows, not negative, negative, b != a, b == a,
        high > low, high <= low, b >= a, b < a, b > a, b <= a, True, False,
    ]  # fmt: skip


def differences():
    """The values of x and y are subtracted, and each condition stores 1 in an item of an array, whose items stand at lower and lower addresses."""
    words = [word(MOVE, (0, 1), (1, 4)), word(MOVE, (0, 2), (1, 5)), word(SUB, (0, 1), (0, 2), flags=ALL_FLAGS)]
    for condition in range(16):
        words += [word(MOVE, (1, 3), 1, condition), word(DEC, (0, 3), (0, 3))]
    end, last = len(words), len(words) + 18
    slots = [slot("y", 0, 0, end + 1), slot("x", 0, 0, end + 2), slot("holds", 1, 16, last)]
    made = image([0, 0, 0, last, end + 1, end + 2], words, size=last + 1, slots=slots)
    before = " ".join(["false"] * 16)
    for a in NUMBERS:
        for b in NUMBERS:
            told = " ".join(boolean(it) for it in conditions(a, b))
            run = Run(b"run i v 99", f"finished {end}\ny = {b}\nx = {a}\nholds = ({told})\n".encode())
            values = f"((y {b}) (x {a}) (holds ({before})))".encode()
            yield Row(f"processor.py: {b} less {a}", {"i": made, "v": values}, [run])


# 3. Order, and ends.

SUB_R3_FROM_R3_UP = word(SUB, (0, 3), (3, 3))
MOVE_R2_FROM_R3_UP = word(MOVE, (0, 2), (3, 3))
STORE = word(MOVE, (1, 4), (0, 3))


def orders():
    """The second operand is read last: r3 is 5, goes up to 6, and loses the 2 at 5. In the other image the 5th word is none."""
    words = [SUB_R3_FROM_R3_UP, STORE, word(MOVE, (0, 15), 7), 0, 0, 2, 0]
    made = image([0, 0, 0, 5, 8], words, size=9, final=7, slots=[slot("x", 0, 0, 8)])
    yield Row("processor.py: the second operand is read last", {"i": made, "v": b"((x 0))"}, [Run(b"run i v 9", b"finished 3\nx = 4\n")])
    made = image([0, 0, 0, 5], [SUB_R3_FROM_R3_UP], size=5)
    yield Row("processor.py: the first address outside", {"i": made, "v": b"()"}, [Run(b"run i v 9", b"outside 00000005 after 0\n")])
    # A window of 257 words from 5 on, whose last word is read, and the one behind it isn't there.
    made = image([0, 0, 0, 261], [MOVE_R2_FROM_R3_UP, MOVE_R2_FROM_R3_UP, word(MOVE, (0, 2), (0, 2))], base=5, size=257)
    yield Row("processor.py: behind a short last page", {"i": made, "v": b"()"}, [Run(b"run i v 9", b"outside 00000106 after 1\n")])
    # Three stores across the ends of pages, at 510 to 512.
    stores = [word(MOVE, (3, 3), (0, 2))] * 3
    slots = [slot(name, 0, 0, at) for name, at in (("a", 509), ("b", 510), ("c", 511), ("d", 512), ("e", 513))]
    made = image([0, 0, 7, 510], stores, size=1024, slots=slots)
    run = Run(b"run i v 9", b"finished 3\na = 1\nb = 7\nc = 7\nd = 7\ne = 5\n")
    yield Row("processor.py: stores across pages", {"i": made, "v": b"((a 1) (b 2) (c 3) (d 4) (e 5))"}, [run])


def rows():
    yield from operations()
    yield from differences()
    yield from orders()
