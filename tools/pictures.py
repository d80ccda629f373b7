#!/usr/bin/env python3
"""Makes the pictures of the documents anew, of pages of runs in a Chromium without a window.

    python3 tools/pictures.py PROGRAM

Each goes to docs/pictures. Where there is a pngquant (Debian has it) they have 128 colours, and are a third as large.
"""
import shutil
import subprocess
import sys
import tempfile
from collections import namedtuple
from pathlib import Path

from arguments import parser_of
from arguments import program as executable
from browsers import Chromium

TOP = Path(__file__).resolve().parents[1]
PICTURES = TOP / "docs/pictures"
MOST_BYTES = 150_000

# A picture's name; the words of `page` before the budget, the values as a text; the moment at which the page is opened; width and height.
Picture = namedtuple("Picture", "name source values control temporary at width height")
ALL = [
    Picture("page", "calls/down.gypsy", "((n 2))", 24, 10, 186, 1180, 985),
    Picture("walk", "conditions/count.gypsy", "((x 0))", 13, 5, 199, 1180, 1275),
    Picture("inc", "conditions/inc.gypsy", "((x 2147483647) (up true))", 14, 6, None, 1180, 1230),
    Picture("infix", "infix/gcd.mini", "((x 12) (y 18))", 200, 200, 700, 1280, 756),
]


def write_page(program, picture, path):
    values = path.with_suffix(".values")
    values.write_text(picture.values)
    words = [TOP / "examples" / picture.source, values, picture.control, picture.temporary, 10000, path]
    subprocess.run([sys.executable, TOP / "guide/page.py", program, *map(str, words)], check=True, capture_output=True)


def take(browser, picture, page):
    """Stores a picture of an opened page, and returns how many bytes it has."""
    path = PICTURES / f"{picture.name}.png"
    browser.window(picture.width, picture.height)
    browser.open(f"{page.as_uri()}#{picture.at or 0}")
    browser.wait_until("document.body.dataset.state === 'shown'")
    if picture.at is None:
        # The last moment before the end at which the source's step machine stands.
        browser.key("End")
        browser.key("ArrowLeft")
    browser.picture(path)
    if shutil.which("pngquant"):
        subprocess.run(["pngquant", "--force", "--strip", "--speed", "1", "--output", path, "128", path], check=True)
    return path.stat().st_size


def main():
    parser = parser_of(__doc__)
    parser.add_argument("program", type=executable, help="cli_stack")
    parser.add_argument("names", nargs="*", help="only these pictures")
    words = parser.parse_args()
    PICTURES.mkdir(exist_ok=True)
    with tempfile.TemporaryDirectory() as room, Chromium() as browser:
        for picture in (it for it in ALL if not words.names or it.name in words.names):
            page = Path(room) / f"{picture.name}.html"
            write_page(words.program, picture, page)
            size = take(browser, picture, page)
            print(f"{picture.name}: {size:,} bytes")
            if size > MOST_BYTES:
                return 1
    return 0


if __name__ == "__main__":
    sys.exit(main())
