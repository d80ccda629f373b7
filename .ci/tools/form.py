#!/usr/bin/env python3
"""Checks the form of definitions, clauses and documents. Prints a line for each finding, which says what to do."""
import re
import subprocess
import sys
import textwrap
from collections import Counter, defaultdict
from functools import cache
from itertools import combinations
from pathlib import Path

sys.path.append(str(Path(__file__).resolve().parents[2] / "tools"))

import crate_table  # noqa: E402
import kit  # noqa: E402
from arguments import parser_of  # noqa: E402
from believe import Walk  # noqa: E402
from imports import apart  # noqa: E402

SPEC_WIDTH = 140
PROOF_WIDTH = 160
CLAUSE_WIDTH = 120
DEFINITION = re.compile(r"^\s*(?:abbrev |unfoldable )?pub (?:record |data |abbrev )?([^\s:({]+)")
LINK = re.compile(r"\]\(([^)\s]+)\)")
LISTING = re.compile(r"^`(crates/[\w./-]+)`:\n\n```\w*\n(.*?^)```$", re.M | re.S)
NAMED_PATH = re.compile(r"`((?:bench|crates|docs|examples|conformance|guide|hardware|tools|\.ci)/[\w./-]+)`")
LEMMA = re.compile(r"(  )?(?:abbrev |unfoldable )?(?:pub )?([^\s:(){}]+) : ")
TOKEN = re.compile(r"[^\s(){};,.:\[\]λ]+")
GHOST_USE = re.compile(r"^ *ghost use [^{;]*\{([^}]*)\};\n", re.M)
ANY_USE = re.compile(r"^ *(?:pub )?(?:ghost )?use [^;]*;\n", re.M)
PAGES_IN_ONE_FOLDER = 8
# The comments in `specs/Lib.antt` under which pages stood that have a folder now.
GROUPS = {
    "Views": re.compile(r"-- (how|what) clauses see\b", re.I),
    "Internal": re.compile(r"-- (internal\b|what (only )?private functions\b)", re.I),
    "Commands": re.compile(r"-- a page for each command\b", re.I),
}
IMPORTED_PAGE = re.compile(r"^ *(?:pub )?(?:ghost )?use Rattle\.(\w+)\.specs\.(Internal\.)?(\w+)", re.M)
ENDINGS = ("ings", "ing", "ed", "es", "e", "s", "er")
# Lemmas that stand for themselves: `outcome_is` joins a run's relation to its function.
KEPT_LEMMAS = {"outcome_is"}
# Pages of rules for whoever proves a program: a rule that is public may be one that no example needs.
PAGES_OF_RULES = re.compile(r"crates/gypsy_logic/proofs/\w*Rules\.antt$")
THEOREM = "stack_build.Implements.Implements"
README = Path("README.md")
README_WORDS = 1300
# The clauses whose lines of definitions the README gives, and the statement of each.
README_FIGURES = {
    "implements": "cli_stack.Implements.StoresImplementation",
    "completes": "cli_stack.Completes.CompletesCommand",
    "decides": "cli_stack.Decides.Decides",
}
LIMITS = Path("docs/working/limits.md")
LIMIT_AT = re.compile(r"`(\w+/(?:specs|src)/[\w/.]+)`: ((?:`\w+`(?:, )?)+)")
LIMIT_AGAIN = re.compile(r"`(\w+)` \(((?:`\w+`(?:, )?)+)\)")
# What is promised, and what has to be read to know what the theorem says.
PROMISES = Path("docs/proved/promises.md")
READING_ROW = re.compile(r"\|[^|]*\|([^|]*/specs/[^|]*)\| ([\d,]+) \|$")
FIGURES_ROW = re.compile(r"\| `(\w+\.[\w.]+\.\w+)` \|.*\| ([\d,]+) \| ([\d,]+) \| ([\d,]+) \|$")

# The names that two crates may have of which one stands on the other, in groups, each under its reason.
SAME_NAMES = Path(".ci/tools/same_names.txt")
NAMES_WIDTH = 160

findings = []


def say(place, text):
    findings.append(f"{place}: {text}")


def tracked(*patterns):
    out = subprocess.run(["git", "ls-files", *patterns], capture_output=True, text=True, check=True).stdout
    return [Path(line) for line in out.splitlines() if Path(line).is_file()]


@cache
def definitions():
    """The places where each crate defines each name."""
    names = defaultdict(list)
    for path in tracked("crates/*/specs/*.antt"):
        for number, line in enumerate(path.read_text().splitlines(), 1):
            found = DEFINITION.match(line)
            if found and not line.startswith("  ") and not re.match(r"\s*pub (mod|use) ", line) and found.group(1) != "◌>>=◌":
                names[path.parts[1], found.group(1)].append(f"{path}:{number}")
    return names


def check_specs():
    for path in tracked("crates/*/specs/*.antt"):
        for number, line in enumerate(path.read_text().splitlines(), 1):
            if len(line) > SPEC_WIDTH:
                say(f"{path}:{number}", f"{len(line)} characters; break the line, at most {SPEC_WIDTH}")
    for (crate, name), places in definitions().items():
        if len(places) > 1:
            say(f"crates/{crate}/specs", f"{name} is defined at {', '.join(places)}; give each its own name, or keep one")


def names_twice():
    """The names that a crate and one that it stands on both define, with the places."""
    _, below = crate_table.read_crates()
    homes = defaultdict(dict)
    for (crate, name), places in definitions().items():
        homes[name][crate] = places[0]
    for name, places in homes.items():
        held = {crate for crate in places if crate in below}
        twice = {it for crate in held for lower in crate_table.reach_of(crate, below) & held for it in (crate, lower)}
        if twice:
            yield name, [places[it] for it in sorted(twice)]


def check_same_names():
    """One name means one thing in a crate and in those that it stands on, but for those that are agreed on."""
    agreed = [word for line in SAME_NAMES.read_text().splitlines() if not line.startswith(("#", "==")) for word in line.split()]
    twice = dict(names_twice())
    for name, places in twice.items():
        if name not in agreed:
            say(places[0], f"{name} is defined at {', '.join(places[1:])} too; give one of them another name")
    for name, times in Counter(agreed).items():
        if name not in twice or times > 1:
            say(SAME_NAMES, f"{name} {'is there twice' if times > 1 else 'has one meaning now'}; remove it")


def renew_same_names():
    """Leaves in the list what is still twice, and fills its lines."""
    twice, lines = dict(names_twice()), []
    for part in re.split(r"(?m)^(?=[#=])", SAME_NAMES.read_text()):
        head, *rest = part.splitlines() or [""]
        names = sorted({word for line in rest for word in line.split()} & set(twice))
        if head.startswith("#") or names:
            lines += [head, *textwrap.wrap(" ".join(names), NAMES_WIDTH, break_on_hyphens=False)]
    SAME_NAMES.write_text("\n".join(lines) + "\n")


def fronts(name):
    """A name, as it is and without each ending that it has."""
    return {name} | {name.removesuffix(ending) for ending in ENDINGS}


def is_modules(path):
    """Whether a page only names the pages of a folder."""
    return all(re.match(r"--|pub mod |\s*$", line) for line in path.read_text().splitlines())


def check_folders():
    """In a crate of many pages the folder says what a page is for; what is promised doesn't stand on what is internal."""
    pages = defaultdict(list)
    for path in tracked("crates/*/specs/*.antt"):
        if path.name != "Lib.antt" and not is_modules(path):
            pages[path.parts[1]].append(path)
    for crate, files in pages.items():
        lib = Path("crates", crate, "specs/Lib.antt")
        if len(files) > PAGES_IN_ONE_FOLDER:
            check_groups(lib)
        for path in files:
            if len(files) <= PAGES_IN_ONE_FOLDER and path.parent != lib.parent:
                say(path, f"a folder in a crate of {len(files)} pages; move it to {lib.parent}")
        for path, other in combinations(files, 2):
            if path.parent == other.parent and fronts(path.stem) & fronts(other.stem):
                say(path.parent, f"{path.stem} and {other.stem} differ by an ending; give them names that say what they hold")
    for path in tracked("crates/*.antt", "crates/*.rt"):
        for crate, folder, page in IMPORTED_PAGE.findall(apart(path.read_text())):
            if not folder and page not in internal_pages(crate):
                continue
            within = path.is_relative_to(Path("crates", crate, "specs")) and ("Internal" in path.parts or path.stem in internal_pages(crate))
            if path.parts[2] == "specs" and not within or path.parts[2] == "src" and path.parts[1] != crate:
                say(path, f"it imports {page}, which is internal to {crate}; that page belongs in its specs or in Views")


@cache
def internal_pages(crate):
    """The pages of a crate that stand in `specs` itself, and in its list under a comment that calls them internal."""
    return {page for page, _ in listed_pages(Path("crates", crate, "specs/Lib.antt"))["Internal"]}


def listed_pages(lib):
    """The pages of a list that stand under the comment of a folder, with their lines, by the folder's name."""
    comment, found = "", defaultdict(list)
    for number, line in enumerate(lib.read_text().splitlines() if lib.is_file() else [], 1):
        if line.startswith("--"):
            comment = line
        folder = next((folder for folder, shape in GROUPS.items() if shape.match(comment)), None)
        if folder and line.startswith("pub mod "):
            found[folder].append((line.split()[2], number))
    return found


def check_groups(lib):
    """Pages of one kind have a folder, whose name says which; a single one stands in `specs` itself."""
    for folder, pages in listed_pages(lib).items():
        for page, number in pages if len(pages) > 1 else []:
            say(f"{lib}:{number}", f"move {page} to {lib.parent}/{folder}")
    for page in sorted(lib.parent.glob("*/*.antt")):
        if len(list(page.parent.glob("*.antt"))) == 1:
            say(page.parent, f"a folder of one page; move it to {lib.parent}")


def check_proofs():
    for path in tracked("crates/*/proofs/*.antt"):
        for number, line in enumerate(path.read_text().splitlines(), 1):
            if len(line) > PROOF_WIDTH:
                say(f"{path}:{number}", f"{len(line)} characters; break the line, at most {PROOF_WIDTH}")


def check_clauses():
    for path in tracked("crates/*/src/*.rt", "crates/*/src/**/*.rt"):
        in_clause = False
        for number, line in enumerate(path.read_text().splitlines(), 1):
            if re.match(r"\s*(requires|ensures)\b", line):
                in_clause = True
            elif line.strip() in ("{", "") or line.strip().startswith(("//", "fn ", "pub ")):
                in_clause = False
            if in_clause and len(line) > CLAUSE_WIDTH:
                say(f"{path}:{number}", f"a clause of {len(line)} characters; break it, at most {CLAUSE_WIDTH}")


def anchors_of(text):
    for line in text.splitlines():
        if line.startswith("#"):
            title = re.sub(r"[^\w\- ]", "", line.lstrip("#").strip().lower())
            yield title.replace(" ", "-")


def check_documents():
    for path in tracked("*.md", "docs/*.md"):
        lines = path.read_text().splitlines()
        fenced = False
        for index, line in enumerate(lines):
            if line.startswith("```"):
                fenced = not fenced
            if fenced:
                continue
            starts_table = line.startswith("|") and (index == 0 or not lines[index - 1].startswith("|"))
            if starts_table and not (index + 1 < len(lines) and re.match(r"\|[ :|-]+\|?$", lines[index + 1])):
                say(f"{path}:{index + 1}", "a table row without its head; remove the blank line before it")
            for named in NAMED_PATH.findall(line):
                if not any(Path(named + ending).exists() for ending in ("", ".antt", ".rt")):
                    say(f"{path}:{index + 1}", f"there is no {named}; mend the path")
            for link in LINK.findall(line):
                if "://" in link:
                    continue
                target, _, anchor = link.partition("#")
                file = (path.parent / target) if target else path
                if not file.exists():
                    say(f"{path}:{index + 1}", f"the link {link} leads to nothing; mend or remove it")
                elif anchor and file.suffix == ".md" and anchor not in set(anchors_of(file.read_text())):
                    say(f"{path}:{index + 1}", f"{file} has no heading for #{anchor}; mend the link")


def check_listings():
    """A listing in a document is lines of the file that the line above it names."""
    for path in tracked("*.md"):
        text = path.read_text()
        for listing in LISTING.finditer(text):
            file = Path(listing.group(1))
            if not file.is_file() or "\n" + listing.group(2) not in "\n" + file.read_text():
                number = text.count("\n", 0, listing.start()) + 1
                say(f"{path}:{number}", f"the listing isn't in {file}; copy it from there")


def files_of_row(names):
    """The files that a row of the reading list names: a folder ends with a slash, and the names after it are its files."""
    folder = Path()
    for name in re.findall(r"`([^`]+)`", names):
        if name.endswith("/"):
            folder = Path("crates") / name
        else:
            yield (Path("crates") / name if "/" in name else folder / name).with_suffix(".antt")


def check_reading_list():
    """Two pages say how much the theorem rests on, and the reading list has each of these files, and the lines of each row."""
    walk = Walk(THEOREM)
    reached = {Path("crates") / path: lines for path, lines in walk.lines().items()}
    whole = f"{sum(reached.values()):,} lines of definitions in {len(reached)} files"
    for page in (README, PROMISES):
        if whole not in page.read_text():
            say(page, f"the theorem rests on {whole}; write that")
    listed = []
    for number, line in enumerate(PROMISES.read_text().splitlines(), 1):
        row = READING_ROW.match(line)
        if not row:
            continue
        row_files = list(files_of_row(row.group(1)))
        listed += row_files
        lines = sum(reached.get(file, 0) for file in row_files)
        if f"{lines:,}" != row.group(2):
            say(f"{PROMISES}:{number}", f"the theorem reaches {lines:,} lines of the files of this row; write that")
    for file in sorted(set(reached) ^ set(listed)):
        say(PROMISES, f"{file} {'is missing from' if file in reached else 'does not belong in'} the reading list")


def check_figures():
    """Rows that say how much a statement rests on have its lines of definitions, their files, and the lines of enums and structs."""
    for path in tracked("docs/*.md"):
        for number, line in enumerate(path.read_text().splitlines(), 1):
            row = FIGURES_ROW.match(line)
            if not row:
                continue
            walk = Walk(row.group(1))
            figures = " | ".join(f"{figure:,}" for figure in walk.figures())
            if f"| {figures} |" not in line:
                say(f"{path}:{number}", f"{row.group(1)} rests on | {figures} |; write that")
            for finding in walk.findings():
                say("tools/believe.py", finding)


def check_kit():
    """What the theorem uses of the kit is found there, if the kit is."""
    if not kit.KIT.is_dir():
        return
    for line in Walk(THEOREM).of_kit():
        if "not found" in line:
            say("tools/kit.py", line)


def check_readme():
    """The README is read to its end, and has the figures of the table of promises."""
    text = README.read_text()
    words = len(text.split())
    if words > README_WORDS:
        say(README, f"it has {words:,} words; at most {README_WORDS:,}, so move what is too long to a page of docs")
    rows = (FIGURES_ROW.match(line) for line in PROMISES.read_text().splitlines())
    lines = {row.group(1): row.group(2) for row in rows if row}
    for clause, statement in README_FIGURES.items():
        if not re.search(rf"`{clause}` (?:rests )?on {lines.get(statement)}\b", text):
            say(README, f"`{clause}` rests on {lines.get(statement)} lines; write that")


def check_limits():
    """Each place that the table of limits names has that name: a file with its names, and a crate with those in brackets."""
    crates = {line.split(":")[0] for line in Path("crates.txt").read_text().splitlines() if re.match(r"\w+:", line)}
    for place, line in enumerate(LIMITS.read_text().splitlines(), 1):
        for file, names in LIMIT_AT.findall(line):
            path = Path("crates") / (file if file.endswith(".rt") else f"{file}.antt")
            text = path.read_text() if path.is_file() else None
            for name in [] if text is None else re.findall(r"\w+", names):
                if not re.search(rf"\b{name}\b", text):
                    say(f"{LIMITS}:{place}", f"{path} has no {name}; mend the row")
            if text is None:
                say(f"{LIMITS}:{place}", f"there is no {path}; mend the row")
        for crate, names in LIMIT_AGAIN.findall(line):
            files = tracked(f"crates/{crate}/specs/*.antt", f"crates/{crate}/src/*.rt") if crate in crates else []
            text = "\n".join(it.read_text() for it in files)
            for name in re.findall(r"\w+", names) if files else []:
                if not re.search(rf"\b{name}\b", text):
                    say(f"{LIMITS}:{place}", f"the crate {crate} has no {name}; mend the row")


def check_crates():
    """Each crate stands among the promises, and in the table of the crates as crates.txt has it."""
    for line in Path("crates.txt").read_text().splitlines():
        crate = re.match(r"(\w+):", line)
        if crate and f"`{crate.group(1)}`" not in PROMISES.read_text():
            say(PROMISES, f"the crate {crate.group(1)} is missing")
    findings.extend(crate_table.findings())


def check_lemmas():
    cited = defaultdict(set)
    for path in tracked("crates/*/proofs/*.antt", "crates/*/proofs/**/*.antt", "crates/*/src/*.rt", "crates/*/src/**/*.rt"):
        crate = path.parts[1]
        text = apart(path.read_text())
        for found in re.finditer(r"(Rattle\.(\w+)\.proofs\.|crate::proofs::)(\w+)", text):
            owner = found.group(2) or crate
            cited[owner, found.group(3)].add(path)
    for path in tracked("crates/*/proofs/*.antt"):
        if len(path.parts) != 4 or path.name == "Lib.antt":
            continue
        if not cited[path.parts[1], path.stem] - {path}:
            say(path, "no proof cites this lemma module; remove it, or put its law on a clause")
        if not path.read_text().startswith("-- "):
            say(path, "it has no sentence at its head, which proof_map.py prints; write what its lemmas say")
    check_lemma_names()


def lemmas_of(lines):
    """The lemmas of a file: the first line and the one after the last, and the name."""
    index = 0
    while index < len(lines):
        found = LEMMA.match(lines[index])
        start, index = index, index + 1
        if not found:
            continue
        indent, name = found.group(1) or "", found.group(2)
        while index < len(lines) and (lines[index].startswith((f"{indent}{name} ", f"{indent}  ", "unfolding "))):
            index += 1
        if not indent or not is_field(lines, start):
            yield start, index, name


def is_field(lines, index):
    """Whether a line that is set in belongs to a record or a type with variants."""
    above = next((it for it in reversed(lines[:index]) if it and not it.startswith(" ")), "")
    return re.search(r"\b(record|data)\b", above) is not None


def check_lemma_names():
    """Each lemma is used somewhere outside itself, by its name."""
    texts = {it: it.read_text() for it in tracked("crates/*.antt", "crates/*.rt")}
    uses = Counter(word for text in texts.values() for word in TOKEN.findall(text))
    for path, text in texts.items():
        if len(path.parts) != 4 or path.parts[2] != "proofs" or path.name == "Lib.antt":
            continue
        lines = text.splitlines()
        for start, end, name in lemmas_of(lines):
            own = TOKEN.findall("\n".join(lines[start:end])).count(name)
            is_rule = PAGES_OF_RULES.match(str(path)) and lines[start].lstrip().startswith("pub ")
            if uses[name] == own and name not in KEPT_LEMMAS and not is_rule:
                say(f"{path}:{start + 1}", f"nothing uses {name}; remove it")


def check_imports():
    """Each name that a `ghost use` of the code imports is used in its file."""
    for path in tracked("crates/*/src/*.rt", "crates/*/src/**/*.rt"):
        text = apart(path.read_text())
        rest = re.sub(r"//.*", "", ANY_USE.sub("", text))
        for names in GHOST_USE.findall(text):
            for name in (it.split(" as ")[-1].strip() for it in names.split(",") if it.strip()):
                parts = [it for it in name.split("◌") if it]
                word = rf"(?<![\w']){re.escape(name)}(?![\w'])"
                if not (re.search(word, rest) if re.fullmatch(r"[\w'«»-]+", name) else all(it in rest for it in parts)):
                    say(path, f"it imports {name} and doesn't use it")


def main():
    parser = parser_of(__doc__)
    parser.add_argument("--renew-names", action="store_true", help=f"remove from {SAME_NAMES} what has one meaning now")
    if parser.parse_args().renew_names:
        renew_same_names()
    check_specs()
    check_same_names()
    check_folders()
    check_proofs()
    check_clauses()
    check_documents()
    check_listings()
    check_reading_list()
    check_figures()
    check_kit()
    check_readme()
    check_limits()
    check_crates()
    check_lemmas()
    check_imports()
    for finding in findings:
        print(finding)
    return 1 if findings else 0


if __name__ == "__main__":
    sys.exit(main())
