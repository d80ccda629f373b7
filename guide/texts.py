"""Says on standard error which texts the arrays of characters are that a command printed.

    texts.py END    END is the end of what was printed
"""
import re
import sys

import ends


def lines_of(end):
    """A line for each array of characters in a report."""
    for name, items in re.findall(r"^(\S+) = \((#[#0-9 ]*)\)$", end, re.M):
        text = "".join(map(chr, map(int, items.replace("#", "").split())))
        shown = text.translate({ord('"'): '\\"', ord("\\"): "\\\\"} | {it: f"\\x{it:02x}" for it in [*range(32), 127]})
        yield f'stack: as a text {name} = "{shown}"'


def main(end):
    print("".join(f"{it}\n" for it in lines_of(end)), file=sys.stderr, end="")
    return 0


if __name__ == "__main__":
    ends.end(lambda: main(*sys.argv[1:]))
