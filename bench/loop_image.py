#!/usr/bin/env python3
"""Writes loop.image: the loop of four instructions, with 50,000,000 rounds, which are 200 million steps.

docs/languages/image-file.md has the fields. Run it in this folder.
"""
import struct

from measure import parser_of

ROUNDS = 50_000_000

WORDS = [
    0x03E04C01,  # 0: ADD (r3),r1
    0x00E00813,  # 1: MOVE r2,(r3)
    0x05E10401,  # 2: DEC{z} r1,r1
    0x00603C3F,  # 3: MOVE[zc] r15,(r15)+
    0x00000000,  # 4: the address of the loop
    0x05E03C0F,  # 5: DEC r15,r15, where the run ends
    0x00000000,  # 6: what r3 points at
]

BASE, SIZE, FINAL, NO_CONDITION = 0, len(WORDS), 5, 0xFFFFFFFF
FLAGS, CONDITIONS, SLOTS = 0, 0, 0


def main():
    parser = parser_of(__doc__)
    parser.add_argument("rounds", type=int, nargs="?", default=ROUNDS, help="how many rounds (%(default)s)")
    registers = [0, parser.parse_args().rounds, 0, 6] + [0] * 12
    numbers = [1, BASE, SIZE, FINAL, *registers, FLAGS, NO_CONDITION, CONDITIONS, SLOTS, len(WORDS), *WORDS]
    with open("loop.image", "wb") as file:
        file.write(b"FM91" + struct.pack(f">{len(numbers)}I", *numbers))


if __name__ == "__main__":
    main()
