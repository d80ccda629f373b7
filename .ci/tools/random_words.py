#!/usr/bin/env python3
"""Random words: an image of a million of them as assembly text, and that text as an image again.

`unasm` prints each word as its instruction, where that has no other spelling, and else as `.word`; `asm` has to give each word back. Half of
the words have no bit set that an instruction passes over, so that both kinds of lines come.
"""
import struct
import subprocess
import sys
import tempfile
from pathlib import Path
from random import Random

sys.path.append(str(Path(__file__).resolve().parents[2] / "tools"))

from arguments import drawn_of  # noqa: E402

NO_ADDRESS = 0xFFFFFFFF
IGNORED = 0xF00001C0    # bits of a word that an instruction passes over, where its first operand is no immediate
IMMEDIATE = 1 << 9


def word(rng: Random) -> int:
    it = rng.getrandbits(32)
    if rng.random() < 0.5:
        it &= ~(0xF0000000 if it & IMMEDIATE else IGNORED)
    return it


def plain_image(words: list) -> bytes:
    """An image of version 2 with these words, the last of which isn't zero, and nothing else that text doesn't tell."""
    header = [2, 0, len(words), 1, *[0] * 15, 2, 0, NO_ADDRESS, 0, 0, len(words)]
    return b"FM91" + struct.pack(f">{len(header)}I", *header) + struct.pack(f">{len(words)}I", *words) + struct.pack(">2I", 0, 0)


def run(program: str, folder: str, words: str) -> str:
    return subprocess.run([program, *words.split()], cwd=folder, stdout=subprocess.PIPE, text=True, check=False).stdout


def main() -> int:
    chosen = drawn_of(__doc__, 1_000_000)
    program, how_many, seed = str(chosen.program), chosen.how_many, chosen.seed
    rng = Random(seed)
    words = [word(rng) for _ in range(how_many - 1)] + [1]
    with tempfile.TemporaryDirectory() as folder:
        image, text, again = (Path(folder, name) for name in ("image", "text", "again"))
        image.write_bytes(plain_image(words))
        said = run(program, folder, "unasm image text"), run(program, folder, "asm text again")
        if said != ("written text\n", f"built {how_many}\n") or again.read_bytes() != image.read_bytes():
            print(f"random words, seed {seed}: {said}, or other bytes")
            return 1
        lines = text.read_text(encoding="ascii").splitlines()[4:]
    as_words = sum(line.startswith(".word") for line in lines)
    if len(lines) != how_many or not how_many / 4 < as_words < how_many * 3 / 4:
        print(f"random words, seed {seed}: {len(lines)} lines, {as_words} of them words")
        return 1
    print(f"{how_many} random words, {as_words} of them no instruction's spelling: each is as it was")
    return 0


if __name__ == "__main__":
    sys.exit(main())
