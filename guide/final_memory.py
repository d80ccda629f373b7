"""What memory has at the end of a run of an image.

    final_memory.py PROGRAM IMG VALS BUDGET    what `run` prints, and a line for each word that the run changed: its address, what it was and what it is

`run` prints the values of an image's slots alone. So the program also runs copies of the image, whose slots are the words of the whole window. A copy has
the same words, registers and flags, and its values are the words that are there already. Registers can't be seen: no command prints those of an image.
"""
import argparse
import re
import struct
import subprocess
import sys
import tempfile
from pathlib import Path

sys.path.append(str(Path(__file__).resolve().parent.parent / "hardware"))
import ends  # noqa: E402
from images import NO_ADDRESS, WORDS, loaded, read_image, read_values  # noqa: E402
from program import MOST_TEXT, Refused, is_person, number, read_text  # noqa: E402

# The most items of a slot, the most slots of an image, and the most bytes of an image file.
MOST_ITEMS, MOST_SLOTS, MOST_IMAGE = 4096, 200, 33_554_432


def signed(word):
    """A word as a number with a sign."""
    return word - WORDS if word >= WORDS // 2 else word


def entries(memory):
    """The window in slots of consecutive words: of each where it begins and ends, counted from the base, and its values. A slot's items go down."""
    for first in range(0, len(memory), MOST_ITEMS):
        words = memory[first:first + MOST_ITEMS]
        yield first, first + len(words), f"(w{first} ({' '.join(map(str, map(signed, reversed(words))))}))"


def parts(memory):
    """The slots in lists that one run can tell, by the limits of images and of values."""
    part, size = [], 0
    for entry in entries(memory):
        if part and (len(part) == MOST_SLOTS or size + len(entry[2]) + 3 > MOST_TEXT):
            yield part
            part, size = [], 0
        part.append(entry)
        size += len(entry[2]) + 1
    yield part


def copy_of(image, part):
    """The file of an image of version 1 with the same words, registers and flags, and these slots."""
    fields = [1, image.base, image.size, image.final, *image.registers, image.flags, NO_ADDRESS, 0, len(part)]
    slots = b"".join(
        struct.pack(">I", len(f"w{first}")) + f"w{first}".encode() + struct.pack(">3I", 0, end - first, image.base + end - 1) for first, end, _ in part
    )
    return b"FM91" + struct.pack(f">{len(fields)}I", *fields) + slots + struct.pack(f">{len(image.words) + 1}I", len(image.words), *image.words)


def asked(program, words):
    """What the program prints, where it ends well."""
    ran = subprocess.run([program, *words], stdin=subprocess.DEVNULL, stdout=subprocess.PIPE, text=True, errors="replace", check=False)
    if ran.returncode:
        raise Refused(ran.returncode, ran.stdout.strip())
    return ran.stdout


def memory_after(program, room, image, memory, budget):
    """The words of the window at the end of a run that begins with this memory."""
    words = []
    for part in parts(memory):
        Path(room, "copy").write_bytes(copy_of(image, part))
        Path(room, "copy.values").write_text(f"({' '.join(entry[2] for entry in part)})", encoding="ascii")
        told = asked(program, ["run", str(Path(room, "copy")), str(Path(room, "copy.values")), str(budget)])
        for items in re.findall(r"^w\d+ = \((.*)\)$", told, re.M):
            words += [int(it) % WORDS for it in reversed(items.split(" "))]
    return words


def read(path, most, room, name):
    """A file, read once, as a file of the room that the program reads."""
    data = read_text(path, most)
    Path(room, name).write_bytes(data)
    return data


def ran(program, room, path, values, budget):
    """What `run` prints of an image, the image, and its memory at the beginning and at the end."""
    data, text = read(path, MOST_IMAGE, room, "image"), read(values, MOST_TEXT, room, "values")
    printed = asked(program, ["run", str(Path(room, "image")), str(Path(room, "values")), str(budget)])
    image = read_image(data)
    before = loaded(image, read_values(text, image.slots))
    return printed, image, before, memory_after(program, room, image, before, budget)


def changed(image, before, after, shown=()):
    """A line for each word that a run changed, but for those at the places that are shown."""
    for index, (old, new) in enumerate(zip(before, after)):
        if old != new and index not in shown:
            yield f"{image.base + index:08x} {old:08x} {new:08x}\n"


def words_of(line):
    parser = argparse.ArgumentParser(prog="./stack end", description="Runs an image, and prints each word that the run changed.")
    parser.add_argument("program", help=argparse.SUPPRESS)
    for name, kind in (("image", str), ("values", str), ("budget", number)):
        parser.add_argument(name, metavar={"image": "IMG", "values": "VALS"}.get(name, "BUDGET"), type=kind)
    return parser.parse_args(line)


def main(line):
    try:
        words = words_of(line)
    except SystemExit as ended:
        return 1 if ended.code else 0
    with tempfile.TemporaryDirectory() as room:
        try:
            printed, image, before, after = ran(words.program, room, words.image, words.values, words.budget)
        except Refused as refused:
            print(refused.text, flush=True)
            if is_person():
                from explain import lines_of

                print("\n".join(lines_of(refused.status, refused.text, ["run", words.image, words.values, str(words.budget)])), file=sys.stderr)
            return refused.status
    print(printed + "".join(changed(image, before, after)), end="")
    return 0


if __name__ == "__main__":
    ends.end(lambda: main(sys.argv[1:]))
