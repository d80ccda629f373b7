#!/usr/bin/env python3
"""Prints where a check from nothing took long: the parts of its proofs, in the order in which they were done, before which most time went by.

The folder has the kept work of one check at one job, as `out/incremental` of a crate, or what quick_check.py leaves under `/tmp`. There each
part of a proof is a file, written when it is done. A line has the seconds since the first one, the gap before it, its size in bytes and its
name; small gaps are left out. Work that an earlier check left there makes the gaps mislead.
"""
from arguments import folder, parser_of


def main():
    parser = parser_of(__doc__)
    parser.add_argument("folder", type=folder, help="the kept work of a check")
    parser.add_argument("seconds", type=float, nargs="?", default=2.0, help="the least gap that is printed (%(default)s)")
    words = parser.parse_args()
    least = words.seconds
    found = [(path.stat(), path.name) for path in words.folder.rglob("*.oantt")]
    parts = sorted((stat.st_mtime, stat.st_size, name) for stat, name in found)
    for before, (time, size, name) in zip(parts, parts[1:]):
        if time - before[0] >= least:
            print(f"{time - parts[0][0]:7.1f} {time - before[0]:6.1f} {size:9} {name.removesuffix('.oantt')}")


if __name__ == "__main__":
    main()
