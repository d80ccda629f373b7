#!/usr/bin/env python3
"""Gives up in place of each public function that takes a heap: none may be proved so.

    python3 tools/giving_up.py [--libraries CLONE] [--asking] CRATE ..

In a copy of each crate the body of such a function is `Err(..)`, out of memory at once, without any answers of its own. The prover checks them
all; it has to find a goal of each open, since memory may run out only where the heap refuses it. (What hands back an item at an error, by
`AllocFailed`, isn't tried.) CLONE has the libraries of the crates below, as for `quick_check.py`. It prints the functions whose contract
lets that body pass, and its status is 0 where there are none.

With `--asking` each of these functions stands there four times more, under other names, and gives up after a request that no machine needs to
grant: all of memory is reserved, or asked for as a new list, or items of 8,000 bytes are, or more items of no size than can be counted. The
prover has to leave open what the request owes: that it is modest, that its items are small. Then it is no evidence that the heap may refuse.
A function whose heap has a bound (`BoundedHeap`) stands there once more, and asks for a list of a million items first: what
is open then is that so many are within the bound. Of a function whose heap has none this isn't tried, because the prover takes it.
"""
import re
import shutil
import subprocess
import sys
import tempfile
from pathlib import Path

from arguments import folder, parser_of
from edits import owner_at

TOP = Path(__file__).resolve().parents[1]
HEAD = re.compile(r"^( *)pub fn (\w+)<[^()]*\bH: (?:Bounded)?Heap\b", re.M)
# out of memory as an error of a type, where it isn't the type's variant Memory
OUT_OF_MEMORY = {
    "Memory": "Memory",
    "AllocError": "AllocError",
    "EarlyEnd": "EarlyEnd::OutOfMemory",
    "StartFault": "StartFault::Build(crate::BuildFault::Memory)",
}
# the mark of a function in a cycle of calls, with the names of both
CYCLE = re.compile(r"^ *#\[cycle\((\w+)\)\]\n(?=(?:.*\n)*?.*\bfn (\w+))", re.M)
# the requests after which a copy of a function gives up: what its name ends with, what is told of it, the request, and what that owes
REQUESTS = [
    ("_reserving", "reserved all of memory", "let mut room: Vec<u8> = Vec::new(heap.handle()); match heap.reserve(&mut room, usize::MAX)", "reserve-requires"),
    ("_asking", "asked for all of memory", "match heap.with_room::<u8>(usize::MAX)", "with_room-requires"),
    ("_large", "asked for items of 8,000 bytes", "match heap.with_room::<[u64; 1000]>(1)", "with_room-requires"),
    ("_no_size", "asked for items of no size", "match heap.with_room::<()>(usize::MAX)", "with_room-requires"),
]
# the same of a function whose heap has a bound
LONGER = ("_longer", "asked for a million items", "let mut room: Vec<u8> = Vec::new(heap.handle()); match heap.resize(&mut room, 1_000_000, 0)", "resize-requires")
RESULT = re.compile(r"\) -> Result<")
# a function, the answers that it wants if it isn't proved, and what is open then
JUDGED = re.compile(r"^fn (\S+): (?:no holes|no proof: expected answers in \./(\S+);(.*))$", re.M)
OPEN = re.compile(r"` of (\S+) must prove: (.*?)(?=\n  names you can use|\nnote: |\nhelp: )", re.S)


def error_of(signature):
    """The type of a signature's error, without its arguments, if the function returns one."""
    found = RESULT.search(signature)
    if not found:
        return None
    depth, at, comma = 1, found.end(), None
    while depth:
        letter = signature[at]
        depth += (letter in "<([") - (letter in ">)]")
        comma = at if letter == "," and depth == 1 else comma
        at += 1
    return signature[comma + 1 : at - 1].split("<")[0].strip(" ,\n")


def requests_of(header):
    """The requests after which a copy of a function of this header gives up."""
    return [*REQUESTS, LONGER] if "H: BoundedHeap" in header else REQUESTS


def asking(header, indent, name, error):
    """The copies of a function that give up after a request, each with an end of its own to its name."""
    made = ""
    for ending, _, request, _ in requests_of(header):
        head = header.replace(f"pub fn {name}<", f"pub fn {name}{ending}<", 1)
        lines = [f"    {request} {{", f"        Ok(_) => Err({error}),", f"        Err(_) => Err({error}),", "    }", "}"]
        made += f"\n{head}" + "".join(f"{indent}{line}\n" for line in lines)
    return made


def given_up(text, is_asking):
    """A file's text in which each public function over a heap gives up, and their names; with copies that ask first, if that is wanted.

    To each name it says what the names of its copies end with.
    """
    names, end = {}, 0
    made = []
    for head in HEAD.finditer(text):
        indent, name = head[1], head[2]
        opening = re.compile(rf"^(?:{indent}\{{\n|{indent}.*\) -> .*[^;] \{{\n)", re.M).search(text, head.start())
        closing = text.find(f"\n{indent}}}\n", opening.end() - 1) if opening else -1
        error = error_of(text[head.start() : opening.end()]) if opening else None
        if closing < 0 or error in (None, "AllocFailed") or HEAD.search(text, head.end(), closing):
            continue
        error, header = OUT_OF_MEMORY.get(error, error + "::Memory"), text[head.start() : opening.end()]
        made += [text[end : opening.end()], f"{indent}    Err({error})\n{indent}}}\n", asking(header, indent, name, error) if is_asking else ""]
        end = closing + len(f"\n{indent}}}\n")
        path = "::".join([*(owner_at(text, head.start()) if indent else []), name])
        names[path] = [ending for ending, *_ in requests_of(header)] if is_asking else []
    return "".join([*made, text[end:]]), names


def spoil(copy, crate, is_asking):
    """Makes the public functions of a crate's copy give up, without answers of their own, and returns the paths of them and their copies."""
    paths, sources = set(), copy / "crates" / crate / "src"
    files = {file: given_up(file.read_text(), is_asking) for file in sorted(sources.rglob("*.rt"))}
    ended = {name.split("::")[-1] for text, names in files.values() for name in names}
    # a cycle through a function that gave up is none any more
    broken = {cycle for text, names in files.values() for cycle, name in CYCLE.findall(text) if name in ended}
    for file, (text, names) in files.items():
        file.write_text(CYCLE.sub(lambda mark: "" if mark[1] in broken else mark[0], text))
        path = file.relative_to(sources).with_suffix("")
        module = [crate, *(part for part in path.parts if part not in ("lib", "mod"))]
        paths |= {(name if "::" in name else "::".join([*module, name])) + ending for name, endings in names.items() for ending in ["", *endings]}
        for name in names:
            for answers in (copy / "crates" / crate / "proofs" / path).rglob(name.split("::")[-1]):
                shutil.rmtree(answers)
    return paths


def give_up_in(crate, libraries, is_asking):
    """What the prover leaves open of each function that gave up, and the goals that say the heap may refuse, by the answers that it wants for them."""
    with tempfile.TemporaryDirectory(prefix="stack-giving-up-") as room:
        copy = Path(room)
        shutil.copy2(TOP / "crates.txt", copy / "crates.txt")
        shutil.copytree(TOP / "tools", copy / "tools")
        shutil.copytree(TOP / "crates", copy / "crates", symlinks=True, ignore=shutil.ignore_patterns("must-fail", "out"))
        paths = spoil(copy, crate, is_asking)
        words = [sys.executable, copy / "tools" / "quick_check.py", *(["--libraries", str(libraries)] if libraries else []), crate, "--allow-holes"]
        for path in sorted(paths):
            words += ["--only", path]
        ran = subprocess.run(words, cwd=copy, capture_output=True, text=True, errors="replace")
    told = ran.stdout + ran.stderr
    judged = {found[1]: found for found in JUDGED.finditer(told) if paths & {found[1], "::".join(found[1].split("::")[-2:])}}
    if not judged:
        sys.exit(f"{crate}: no function was judged\n{told[-3000:]}")
    return judged, {answers for answers, goal in OPEN.findall(told) if "may_refuse" in goal}


def tell(crate, judged, ending, how, is_refused):
    """Prints which functions of this ending were proved, or refused for another reason, and returns whether one was proved."""
    mine = {path: found for path, found in judged.items() if ending_of(path) == ending}
    passed = sorted(path for path, found in mine.items() if not found[2])
    otherwise = sorted(path for path, found in mine.items() if found[2] and not is_refused(found))
    print(f"{crate}: {len(mine)} functions gave up{how}, {len(passed)} passed", *passed, flush=True)
    if otherwise:
        print(f"{crate}: refused by another clause than was meant:", *otherwise, flush=True)
    return bool(passed)


def ending_of(path):
    """What the name of a copy ends with, or nothing."""
    return next((ending for ending, *_ in [*REQUESTS, LONGER] if path.endswith(ending)), "")


def main():
    parser = parser_of(__doc__)
    parser.add_argument("--libraries", type=folder, metavar="CLONE", help="a clone in which `rt ci` was run")
    parser.add_argument("--asking", action="store_true", help="also give up after requests that no machine needs to grant")
    parser.add_argument("crates", nargs="+", metavar="CRATE", help="crates of crates.txt")
    chosen = parser.parse_args()
    failed = False
    for crate in chosen.crates:
        judged, by_heap = give_up_in(crate, chosen.libraries, chosen.asking)
        failed |= tell(crate, judged, "", "", lambda found: found[2] in by_heap)
        for ending, told, _, owed in [*REQUESTS, LONGER] if chosen.asking else []:
            failed |= tell(crate, judged, ending, f" after they {told}", lambda found: f"`{owed}" in found[3])
    return 1 if failed else 0


if __name__ == "__main__":
    sys.exit(main())
