#!/usr/bin/env python3
"""Tries the edits of .ci/edits, which the gate leaves out: each must be refused, as those in the crates' folders must-fail.

    python3 tools/edits.py [CRATE ..]
    python3 tools/edits.py CRATE EDIT

With a crate and the name of one of its edits, which may be one of the gate's too, it makes that edit in a copy of the repository and has the
function that it changes checked, by `rt check --only`. What the prover says is printed whole, with its counterexample where it has one. Crates
below that this checkout has proved aren't proved again. The status is 0 where the edit was refused.

Without an edit it tries those of the crates, or of all. It works on a copy of the repository, in which a crate's folder must-fail has these edits alone,
and lets the kit try them by `rt ci` with the crates' names. So what the gate proved on this machine isn't proved again, the edits of several
crates are tried at a time, and those of a crate that were tried once are kept: a run that is stopped goes on there (`rattle-kit-13b` has no
`rt ci` with names). It prints the kit's line for each edit, and then the edits that weren't refused; its status is 0 where there are none.
"""
import re
import shutil
import subprocess
import sys
import tempfile
from pathlib import Path

from arguments import parser_of

TOP = Path(__file__).resolve().parents[1]
EDITS = TOP / ".ci" / "edits"
PASSED = "refused, as it must be"
START = "rt: must-fail "
AUTHOR = ["-c", "user.name=edits", "-c", "user.email=edits@localhost"]


# the parameters, the trait with its first argument, if there are any, and the type of the methods after such a line
OWNER = re.compile(r"^impl(?:<([^{]*?)>)? (?:(\w+)(?:<(\w+)[^{\n]*?)? for )?(\w+)[^{\n]*\{", re.M)


def owner_at(text, place):
    """What the prover puts before the name of a method round a place of a file, in a list: its type, the trait, and another type as its argument."""
    found = OWNER.findall(text, 0, place)[-1:]
    return [kind + trait + ("" if of == kind or re.search(rf"(^|, ){of}\b", own) else of) for own, trait, of, kind in found]


def crates_with_edits():
    return sorted(folder.name for folder in EDITS.iterdir() if any(folder.glob("*.edit")))


def copy_repository(to):
    """Copies what a check reads; no crate of the copy has an edit."""
    for name in ("crates.txt", "HANDLES"):
        shutil.copy2(TOP / name, to / name)
    shutil.copytree(TOP / "crates", to / "crates", symlinks=True, ignore=shutil.ignore_patterns("must-fail", "out"))


def try_edits(names):
    """Tries the edits of these crates, and returns the lines that the kit printed of them."""
    with tempfile.TemporaryDirectory(prefix="stack-edits-") as room:
        copy = Path(room)
        copy_repository(copy)
        for name in names:
            shutil.copytree(EDITS / name, copy / "crates" / name / "must-fail")
        for words in (["init", "-q"], ["add", "-A"], [*AUTHOR, "commit", "-q", "-m", "edits"]):
            subprocess.run(["git", *words], cwd=copy, check=True)
        ran = subprocess.Popen(["rt", "ci", *names], cwd=copy, stdout=subprocess.PIPE, text=True, errors="replace")
        lines = []
        for line in ran.stdout:
            if line.startswith(START):
                print(line, end="", flush=True)
                lines.append(line.rstrip("\n").removeprefix("rt: "))
        ran.wait()
        return lines


def find_edit(crate, name):
    """The file of an edit of a crate."""
    folders = EDITS / crate, TOP / "crates" / crate / "must-fail"
    there = {path.stem: path for folder in folders if folder.is_dir() for path in folder.glob("*.edit")}
    if name.removesuffix(".edit") not in there:
        sys.exit(f"{crate} has no edit {name}; there are {', '.join(sorted(there)) or 'none'}")
    return there[name.removesuffix(".edit")]


def changes_of(edit):
    """The files that an edit changes, each with its pairs of an old and a new text."""
    changes = {}
    for line in edit.read_text().splitlines():
        word, _, text = line.partition(":")
        text = text.removeprefix(" ")
        if word == "file":
            pairs = changes.setdefault(text.strip(), [])
        elif word == "old":
            old = text
        elif word == "new":
            pairs.append((old, text))
    return changes


def function_at(text, place, path):
    """The path of the function round a place of a file, or the end of a method's, as `rt check --only` takes it; of a file of specs or proofs nothing."""
    if not path.startswith("src/"):
        return ""
    parts = [it for it in Path(path).relative_to("src").with_suffix("").parts if it not in ("lib", "main", "mod")]
    function = re.findall(r"^( *)(?:pub(?:\([a-z]+\))? )?(?:const )?fn (\w+)", text[:place], re.M)
    indent, name = function[-1] if function else ("", "")
    return "::".join([*(owner_at(text, place) if indent else parts), name])


def crates_below(crate):
    """The crates on which one stands, itself among them."""
    lines = (line.split("#")[0] for line in (TOP / "crates.txt").read_text().splitlines())
    uses = {name.split()[0]: rest.split() for name, colon, rest in (line.partition(":") for line in lines) if colon}
    found, waiting = set(), [crate]
    while waiting:
        name = waiting.pop()
        if name in uses and name not in found:
            found.add(name)
            waiting += uses[name]
    return found


def make_edit(crate_folder, edit):
    """Makes an edit in a copy of its crate, and returns the path of the first function that it changes."""
    only = None
    for path, changes in changes_of(edit).items():
        file = crate_folder / path
        text = file.read_text()
        for old, new in changes:
            if text.count(old) != 1:
                sys.exit(f"{edit.name}: this stands {text.count(old)} times in {path}: {old}")
            only = function_at(text, text.index(old), path) if only is None else only
            text = text.replace(old, new)
        file.write_text(text)
    return only


def try_one(crate, edit):
    """Makes one edit in a copy, and lets the prover say what is wrong with it."""
    needed = crates_below(crate)

    def left_out(folder, names):
        return [it for it in names if it == "must-fail" or (it == "out" and Path(folder).name not in needed)]

    with tempfile.TemporaryDirectory(prefix="stack-edit-") as room:
        copy = Path(room)
        for name in ("crates.txt", "HANDLES"):
            shutil.copy2(TOP / name, copy / name)
        shutil.copytree(TOP / "crates", copy / "crates", symlinks=True, ignore=left_out)
        only = make_edit(copy / "crates" / crate, edit)
        words = ["rt", "check", *(["--only", only] if only else [])]
        print(f"{edit.relative_to(TOP)}: {' '.join(words)}", flush=True)
        status = subprocess.run(words, cwd=copy / "crates" / crate, check=False).returncode
    print(f"{edit.stem}: {'refused, as it must be' if status else 'NOT refused'}")
    return 0 if status else 1


def main(words=None):
    parser = parser_of(__doc__)
    parser.add_argument("names", nargs="*", metavar="NAME", help="crates, or a crate and one of its edits")
    words, known = parser.parse_args(words).names, crates_with_edits()
    if len(words) == 2 and words[1] not in known:
        return try_one(words[0], find_edit(*words))
    unknown = [word for word in words if word not in known]
    if unknown:
        sys.exit(f"no edits of {', '.join(unknown)}; there are those of {', '.join(known)}")
    names = words or known
    wanted = {f"{name}/{edit.name}" for name in names for edit in (EDITS / name).glob("*.edit")}
    lines = try_edits(names)
    refused = {line.split(":")[0].split(" ")[1] for line in lines if PASSED in line}
    others = sorted(wanted - refused)
    print(f"{len(wanted & refused)} of {len(wanted)} edits were refused")
    for name in others:
        said = next((line for line in lines if line.startswith(f"must-fail {name}:")), "nothing was said of it")
        print(f"{name}: {said}")
    return 1 if others else 0


if __name__ == "__main__":
    sys.exit(main())
