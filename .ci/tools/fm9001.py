"""The FM9001 in Python, by the tables of docs/languages/fm9001.md, with the cycles of docs/proved/circuit.md: what the circuit is compared with."""
from dataclasses import dataclass

WORDS = 2**32
MASK = WORDS - 1
SIGN = 2**31
PC = 15
REGISTER, INDIRECT, PRE_DECREMENT, POST_INCREMENT = range(4)
READS_B = {"ADDC", "ADD", "SUBB", "SUB", "XOR", "OR", "AND"}
OPERATIONS = "MOVE INC ADDC ADD NEG DEC SUBB SUB ROR ASR LSR XOR OR AND NOT M15".split()
CONDITIONS = "cc cs vc vs nc ns zc zs hi ls ge lt gt le al nv".split()


class Outside(Exception):
    """A step needs an address outside the window: for its fetch, for operand A, for operand B or for its result."""

    def __init__(self, address: int, what: str, cycles: int):
        super().__init__(f"{address:08x}")
        self.address, self.what, self.cycles = address, what, cycles


@dataclass(frozen=True)
class Instruction:
    """An instruction's fields. `immediate` is None where A is a place."""
    operation: str
    condition: str
    set_flags: int
    mode_b: int
    register_b: int
    immediate: int | None
    mode_a: int
    register_a: int


def decode(word: int) -> Instruction:
    number = word % 512
    immediate = (number - 512 if number >= 256 else number) if word >> 9 & 1 else None
    return Instruction(OPERATIONS[word >> 24 & 15], CONDITIONS[word >> 20 & 15], word >> 16 & 15, word >> 14 & 3, word >> 10 & 15,
                       immediate, word >> 4 & 3, word & 15)


def signed(word: int) -> int:
    return word - WORDS if word >= SIGN else word


def result_of(operation: str, a: int, b: int, c: int) -> tuple[int, bool, bool]:
    """The result, whether there is a carry, and whether there is an overflow."""
    plain = {"INC": a + 1, "ADDC": a + b + c, "ADD": a + b, "NEG": -a, "DEC": a - 1, "SUBB": b - a - c, "SUB": b - a}
    if operation in plain:
        x, y = signed(a), signed(b)
        wanted = {"INC": x + 1, "ADDC": x + y + c, "ADD": x + y, "NEG": -x, "DEC": x - 1, "SUBB": y - x - c, "SUB": y - x}[operation]
        return plain[operation] & MASK, not 0 <= plain[operation] < WORDS, not -SIGN <= wanted < SIGN
    if operation in ("ROR", "ASR", "LSR"):
        top = {"ROR": c * SIGN, "ASR": a & SIGN, "LSR": 0}[operation]
        return a // 2 + top, a % 2 == 1, False
    return {"MOVE": a, "M15": a, "XOR": a ^ b, "OR": a | b, "AND": a & b, "NOT": a ^ MASK}[operation], False, False


def holds(condition: str, flags: int) -> bool:
    c, v, n, z = (bool(flags & bit) for bit in (8, 4, 2, 1))
    return {"cc": not c, "cs": c, "vc": not v, "vs": v, "nc": not n, "ns": n, "zc": not z, "zs": z, "hi": not c and not z, "ls": c or z,
            "ge": n == v, "lt": n != v, "gt": n == v and not z, "le": n != v or z, "al": True, "nv": False}[condition]


class Machine:
    """A machine: its flags are 8 for c, 4 for v, 2 for n and 1 for z, added. `cycles` counts what the circuit takes for its steps."""

    def __init__(self, base: int, memory: list[int], registers: list[int], flags: int):
        self.base, self.memory, self.registers, self.flags = base, list(memory), list(registers), flags
        self.cycles = 0

    def place(self, address: int, what: str) -> int:
        """The index of an address. An access outside is seen a cycle after it was asked for."""
        if not 0 <= address - self.base < len(self.memory):
            raise Outside(address, what, self.cycles + 2)
        return address - self.base

    def operand(self, what: str, mode: int, register: int, is_read: bool = True) -> tuple[int | None, int]:
        """The address of an operand, None for a register, and its value. Where it's read, the register has moved."""
        if mode == REGISTER:
            self.cycles += 1
            return None, self.registers[register]
        address = (self.registers[register] - (mode == PRE_DECREMENT)) & MASK
        value = self.memory[self.place(address, what)] if is_read else 0
        self.cycles += 2 if is_read else 1
        return address, value

    def move(self, mode: int, register: int) -> None:
        """A register changes as the mode of its operand says."""
        change = {PRE_DECREMENT: -1, POST_INCREMENT: 1}.get(mode, 0)
        self.registers[register] = (self.registers[register] + change) & MASK

    def step(self) -> None:
        """One instruction; Outside leaves the machine somewhere in the middle of it."""
        _, word = self.operand("fetch", POST_INCREMENT, PC)
        self.move(POST_INCREMENT, PC)
        it = decode(word)
        if it.immediate is None:
            _, a = self.operand("A", it.mode_a, it.register_a)
            self.move(it.mode_a, it.register_a)
        else:
            self.cycles += 1
            a = it.immediate & MASK
        address, b = self.operand("B", it.mode_b, it.register_b, it.operation in READS_B)
        result, carry, overflow = result_of(it.operation, a, b, self.flags >> 3)
        stores = holds(it.condition, self.flags)
        if stores and address is not None:
            self.memory[self.place(address, "result")] = result
            self.cycles += 1
        self.cycles += 1
        if address is not None:
            self.move(it.mode_b, it.register_b)
        elif stores:
            self.registers[it.register_b] = result
        made = 8 * carry + 4 * overflow + 2 * (result >= SIGN) + (result == 0)
        self.flags = self.flags & ~it.set_flags | made & it.set_flags

    def run(self, budget: int, final: int | None = None) -> tuple[int, Outside | None]:
        """Steps until the program counter is `final`, at most so many. How many steps were made, and what the next one needs outside, if
        it does; then the machine, but for its cycles, is as before that step."""
        for count in range(budget):
            if self.registers[PC] == final:
                return count, None
            before = list(self.registers), self.flags
            try:
                self.step()
            except Outside as fault:
                (self.registers, self.flags), self.cycles = before, fault.cycles
                return count, fault
        return budget, None


def flag_letters(flags: int) -> str:
    return "".join(letter if flags & bit else "-" for letter, bit in zip("cvnz", (8, 4, 2, 1)))
