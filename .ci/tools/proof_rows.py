#!/usr/bin/env python3
"""Compares what guide/new_proof.py writes with the proof of examples/conditions/inc.gypsy, which is proved, and tries it on each example.

    python3 .ci/tools/proof_rows.py

For `inc.gypsy` each part that isn't the person's own has to stand in crates/proved_programs, but for the names of variables. What is written of the other
examples has `?` in the specification and the proof alone, or in the sizes of a recursive source, and no line is too long. docs/proved/verifying.md has
each rule and each fact by its name. The exit status is 1 where something differed.
"""
import re
import sys
from pathlib import Path

TOP = Path(__file__).resolve().parents[2]
sys.path += [str(TOP / "tools"), str(TOP / "guide")]

from arguments import parser_of  # noqa: E402
from imports import apart  # noqa: E402
from new_proof import Crate, needs_of, with_line  # noqa: E402

INC = TOP / "examples/conditions/inc.gypsy"
PROVED = TOP / "crates/proved_programs"
PAGE = TOP / "docs/proved/verifying.md"
# The pages of rules and of facts for whoever proves a program.
RULES = ["gypsy_logic/proofs/*Rules.antt", "gypsy_logic/proofs/*Facts.antt", "program_images/proofs/ImageRules.antt"]
# What the variables are called in the proof that is there.
CALLED = {"x_fits": "fits", "x": "n", "up": "b"}
# What that proof imports for its own cases, and the new one for the room of calls that need less than the largest.
OWN = {"◌+ℤ◌", "pos", "false", "Some", "None", "Declared"}
FURTHER = {"arith"}
ROOM = "(omega (arith, h.0)) (omega (arith, h.1))"


def blocks(text):
    """The parts of a page between blank lines, without comments and imports."""
    return ["\n".join(it for it in part.split("\n") if not re.match(r" *(--|//|use |ghost use )", it)).strip("\n") for part in text.split("\n\n")]


def flat(text):
    return " ".join(text.split())


def imported(text, crate):
    """The names that a page imports, each with its page. That of the text is in a folder in one crate, and beside the specification in the other."""
    lines = [it for it in apart(text).split("\n") if it.startswith(("use ", "ghost use "))]
    return {it.removeprefix("ghost ").rstrip(";").replace(f"Rattle.{crate}.", "").replace("specs.IncText.", "specs.Texts.Inc.") for it in lines}


def names_of(lines):
    return {re.search(r"\{(.*)\}", it)[1] for it in lines}


def of_inc():
    """What is written for inc.gypsy otherwise than it stands."""
    made = dict(Crate(INC, "inc", needs_of(INC), "Increments", "inc_increments").files())
    if made["specs/IncText.antt"] != (PROVED / "specs/Texts/Inc.antt").read_text():
        yield "the text's page isn't specs/Texts/Inc.antt"
    answers = "proofs/laws/inc_increments/Answers.antt"
    if made[answers].replace("Rattle.inc.", "Rattle.proved_programs.") != (PROVED / answers).read_text():
        yield f"{answers} is another"
    for name in ("src/laws.rt", "specs/Inc.antt", "proofs/TextLaws.antt", "proofs/IncLaws.antt"):
        there, compared = (PROVED / name).read_text(), 0
        for block in filter(None, blocks(made[name])):
            if "?" in block:
                continue
            named = re.sub(r"\b(x_fits|x|up)\b", lambda it: CALLED[it[0]], block) if block.startswith("values_fit") else block
            wanted = flat(named).replace(ROOM, "h.0 h.1").split("record { shows =")[0]
            if wanted not in flat(there):
                yield f"{name}: this isn't in the proof that is there: {block}"
            compared += 1
        if not compared:
            yield f"nothing of {name} was compared"
        lost = names_of(imported(made[name], "inc") - imported(there, "proved_programs"))
        if lost - FURTHER:
            yield f"{name} imports {', '.join(sorted(lost - FURTHER))}, and the proof that is there doesn't"
    whole = names_of(imported((PROVED / "proofs/IncLaws.antt").read_text(), "proved_programs") - imported(made["proofs/IncLaws.antt"], "inc"))
    if whole != OWN:
        yield f"of the imports of the proof {', '.join(sorted(whole ^ OWN))} are other ones"
    if not made["specs/Inc.antt"].count("pub record Increments (image : ImageOf) : Type 0 where"):
        yield "the record is missing"


def of_each(path, name):
    """What is wrong with what is written for a source."""
    needs = needs_of(path)
    for file, text in Crate(path, name, needs).files():
        may_be_open = re.fullmatch(r"(specs|proofs)/[A-Z]\w*(?<!Text)\.antt", file) and file != "proofs/TextLaws.antt"
        if "?" in text and not may_be_open and not (file == "src/laws.rt" and needs is None):
            yield f"{file} is open"
        long = [it for it in text.split("\n") if len(it) > 160]
        if long:
            yield f"{file} has a line of {len(long[0])} characters"


def unnamed():
    """The rules and facts that the page doesn't name."""
    page = set(re.findall(r"\w+", PAGE.read_text()))
    for path in sorted(it for pattern in RULES for it in (TOP / "crates").glob(pattern)):
        for name in re.findall(r"^ *pub (?:data |record )?(\w+) [:(]", path.read_text(), re.M):
            if name not in page:
                yield f"{PAGE.name} doesn't name {name} of {path.name}"


def main():
    parser_of(__doc__).parse_args()
    differing = [*of_inc(), *unnamed()]
    lines = (TOP / "crates.txt").read_text().split("\n")
    if [it for it in with_line(lines, "inc") if it not in lines] != [f"inc: program_images {next(it for it in lines if it.startswith('program_images:'))[16:]}"]:
        differing.append("the line of crates.txt is another")
    sources = sorted((TOP / "examples").glob("*/*.gypsy"))
    for path in sources:
        differing += [f"{path.name}: {it}" for it in of_each(path, path.stem.replace("-", "_"))]
    for it in differing:
        print(it)
    print(f"new_proof: inc.gypsy compared with its proof, {len(sources)} sources tried, {len(differing)} differed")
    return 1 if differing else 0


if __name__ == "__main__":
    sys.exit(main())
