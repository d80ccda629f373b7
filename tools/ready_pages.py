#!/usr/bin/env python3
"""Compares the ready pages in docs/pictures with what `./stack page` writes now. Prints a line for each that differs.

    python3 tools/ready_pages.py PROGRAM [--write]

With --write the pages are written anew. Two pages are the same if their texts are and what is packed in them is, however it was packed. The exit status is
1 if a page differs, or has too many bytes.
"""
import base64
import gzip
import re
import subprocess
import sys
import tempfile
from pathlib import Path

from arguments import parser_of
from arguments import program as executable

TOP = Path(__file__).resolve().parents[1]
PAGES = "docs/pictures"
MOST_BYTES = 300_000
# The words of `page` for each, with PAGE for the name of the page.
READY = {
    "sum": "examples/arrays/sum.gypsy examples/arrays/sum.values 15 14 2000 PAGE",
    "sort": "examples/arrays/sort.gypsy examples/arrays/sort.values 100 100 5000 PAGE 5000",
    "call": "examples/calls/down.gypsy examples/calls/down.values 24 10 1000 PAGE",
}
PACKED = re.compile(rb"H4sI[\w+/=]+")


def written(program, name, folder):
    """The page with this name, as it is written now from the top of a repository."""
    page = f"{PAGES}/{name}.html"
    words = READY[name].replace("PAGE", page).split()
    subprocess.run([sys.executable, TOP / "guide/page.py", program, *words], cwd=folder, stdout=subprocess.DEVNULL, check=True)
    return (folder / page).read_bytes()


def unpacked(page):
    """A page with what is packed in it as a text."""
    return PACKED.sub(lambda found: gzip.decompress(base64.b64decode(found.group())), page)


def main():
    parser = parser_of(__doc__)
    parser.add_argument("program", type=executable, help="cli_stack")
    parser.add_argument("--write", action="store_true", help="write the pages anew")
    words = parser.parse_args()
    failed = False
    with tempfile.TemporaryDirectory() as room:
        (Path(room) / PAGES).mkdir(parents=True)
        (Path(room) / "examples").symlink_to(TOP / "examples")
        for name in READY:
            page, path = written(words.program, name, Path(room)), TOP / PAGES / f"{name}.html"
            if words.write:
                path.write_bytes(page)
            elif not path.exists() or unpacked(path.read_bytes()) != unpacked(page):
                print(f"{PAGES}/{name}.html isn't what ./stack page writes: run  python3 tools/ready_pages.py PROGRAM --write")
                failed = True
            if len(page) > MOST_BYTES:
                print(f"{PAGES}/{name}.html has {len(page):,} bytes, and {MOST_BYTES:,} are the most")
                failed = True
    return 1 if failed else 0


if __name__ == "__main__":
    sys.exit(main())
