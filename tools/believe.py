#!/usr/bin/env python3
"""What a statement rests on: each definition that it reaches, with the enums and structs of the code that these name.

    python3 tools/believe.py [--pages] [--text] [--check] [--kit] CRATE.PAGE.NAME ..

as stack_build.Implements.Implements. Without a flag it prints how many lines they have. Lines of definitions are counted with the
comments on them, without imports and empty lines; enums and structs with their documents, without attributes and methods; of a lemma its
statement. --pages prints the lines of each page, in an order in which they can be read; --text prints the definitions themselves as one
text, each after those that it uses, and the crate before a name that several pages define. --check prints what the walk could have
missed, and fails where there is such a thing: an import of another form, a name that leads to no definition, lines that are no
definition's, and a word that is neither imported, nor defined on the page, nor bound, nor of the language. The definitions of the kit are
left out; --kit prints those of them that are used, each with the file and the line of the kit where it stands, as far as imports lead there.
"""
import argparse
import re
import sys
from collections import Counter, defaultdict
from functools import cache
from pathlib import Path

from arguments import parser_of
from imports import apart
from kit import place_of

CRATES = Path(__file__).resolve().parents[1] / "crates"
IMPORT = re.compile(r"(?:pub )?use Rattle\.(\w+)\.specs\.([\w.]+?)(?:\.\{(.*)\}| as (\w+))?$")
# What stands in proofs is known by its statement alone.
PROVED = re.compile(r"use Rattle\.(\w+)\.proofs\.([\w.]+?)\.\{(.*)\}$")
DECLARED = re.compile(r"declared\.[a-z0-9_.]+\.([A-Z]\w*)")
MODULE = re.compile(r"module _ ")
HEAD = re.compile(r"((?:(?:pub|abbrev|unfoldable|data|record) )+)([^\s:(){}]+)|([^\s:(){}]+) : ")
VARIANT = re.compile(r"\s+([^\s:(){}]+) :")
TOKEN = re.compile(r"[^\s(){};,]+(?=[\s(){};,]|$)(?! [:=] )")
WORD = re.compile(r"[^\s(){};,]+")
# A name in a line: what the line defines, or a word that is no field's and no bound variable's.
NAME = re.compile(r"^[^\s(){};,]+(?= )|(?<=^pub )[^\s(){};,]+|(?<=^abbrev pub )[^\s(){};,]+|(?<=^unfoldable pub )[^\s(){};,]+"
                  r"|(?<![^\s(){};,])[^\s(){};,]+(?=[\s(){};,]|$)(?! [:=] )")
# Where a definition binds variables: before `=`, after `λ`, in brackets before `:`, after `let`, before `←`, and the fields of a record.
BINDERS = [re.compile(it, re.M) for it in (
    r"^\s*(.*?) =(?: |$)", r"^(?! )((?:(?! : )[\s\S])*?) =(?: |$)", r"λ ([^.]*)\.", r"[({]([^(){}:]*) : ", r"let (\S+)", r"(\S+) ←",
    r"([^\s(){};,]+) [:=]")]
LANGUAGE = {"", *"= : → × ⊥ ¬ λ _ . Type Unit tt record data where pub abbrev unfoldable unfolding mutual module let in do ← infixl infixr".split()}
NUMBER = re.compile(r"\d+|0x[\dA-F]+")
TYPE = r"(enum|struct) {}\b"
STATEMENT = re.compile(r"(\w+)\.([\w.]+)\.(\w+)")
# A definition is looked at within the one that uses it, and some stand on hundreds.
sys.setrecursionlimit(10_000)


class Page:
    """A page of definitions: its blocks, the block of each name, and its imports."""

    def __init__(self, path):
        self.path = path
        self.head, self.blocks, self.under = [], [], {}
        self.place, self.imports, self.aliases, self.strange = {}, {}, {}, []
        module = None
        for part in parts(path.read_text().splitlines()):
            code = [line for line in part if not line.startswith(("use ", "pub use ", "--", "infix"))]
            for line in apart("\n".join(part)).split("\n"):
                if line.startswith(("use ", "pub use ")):
                    self.note_import(line)
            if not code:
                self.head = self.head or [line for line in part if line.startswith("--")]
                continue
            lines = [line for line in part if not line.startswith(("use ", "pub use "))]
            if MODULE.match(code[0]):
                first = lines.index(code[0]) + 1
                module = len(self.blocks)
                self.blocks.append(lines[:first])
                lines = lines[first:]
            elif not lines[0].startswith(" "):
                module = None
            self.note_block(lines, module)

    def note_import(self, line):
        """An import, by the name that it has here: the crate, the page and the name there."""
        found = IMPORT.match(line)
        proved = PROVED.match(line)
        if proved and (isinstance(self, Statement) or (CRATES / proved.group(1)).is_dir()):
            crate, page, names = proved.groups()
            self.imports.update({name.strip(): (crate, f"proofs.{page}.{name.strip()}", name.strip()) for name in names.split(",")})
            return
        if not found:
            if not line.split("use ")[1].startswith("Prim."):
                self.strange.append(line)
            return
        crate, page, names, alias = found.groups()
        if alias:
            self.aliases[alias] = (crate, page)
        for name in names.split(",") if names else []:
            there, _, here = name.strip().partition(" as ")
            self.imports[here or there] = (crate, page, there)

    def note_block(self, lines, module):
        """A definition, perhaps of a module with parameters."""
        names = names_of([line[2:] if module is not None else line for line in lines])
        if not names:
            self.strange.append(lines[0])
        for name in names:
            self.place.setdefault(name, len(self.blocks))
        if module is not None:
            self.under[len(self.blocks)] = module
        self.blocks.append(lines)


class Statement(Page):
    """The statement of a lemma, as a page that has nothing else."""

    def __init__(self, path, name):
        super().__init__(path)
        lines = path.read_text().splitlines()
        start = next(place for place, line in enumerate(lines) if re.match(rf"(pub )?{re.escape(name)} :", line))
        end = next(place for place in range(start + 1, len(lines)) if not lines[place].startswith("    "))
        self.blocks = [lines[start:end]]
        self.head, self.under, self.place, self.strange = [], {}, {name: 0}, []


class CodeType:
    """An enum or a struct of the code, as a page that has nothing else."""

    def __init__(self, crate, name):
        shape = re.compile(TYPE.format(name))
        files = sorted((CRATES / crate / "src").rglob("*.rt"))
        self.path = next(it for it in files if shape.search(it.read_text()))
        lines = self.path.read_text().splitlines()
        start = next(place for place, line in enumerate(lines) if shape.search(line))
        whole = lines[start].endswith((";", "}"))
        end = start if whole else next(place for place in range(start, len(lines)) if lines[place].startswith("}"))
        while lines[start - 1].startswith(("///", "#[")):
            start -= 1
        self.blocks = [[line for line in lines[start:end + 1] if not line.startswith("#[")]]
        self.head, self.under, self.place, self.imports, self.aliases, self.strange = [], {}, {name: 0}, {}, {}, []


def parts(lines):
    """The parts between empty lines. Those that are set in after `mutual` belong to its part."""
    found = [[]]
    for line in lines:
        if line.strip():
            found[-1].append(line)
        elif found[-1]:
            found.append([])
    joined = []
    for part in filter(None, found):
        if joined and part[0].startswith(" ") and any(line.split()[-1] == "mutual" for line in joined[-1] if line.strip()):
            joined[-1] += ["", *part]
        else:
            joined.append(part)
    return joined


def names_of(lines):
    """What a block defines: definitions, and the variants of its types. The fields of a record come with it."""
    names, data = [], False
    mutual = any(line.rstrip().endswith("mutual") for line in lines)
    for line in lines:
        line = line[2:] if mutual and line.startswith("  ") else line
        if line.startswith(("--", "unfolding ", "infix")) or not line.strip() or line.rstrip().endswith("mutual"):
            continue
        variant = VARIANT.match(line)
        if line.startswith(" "):
            names += [variant.group(1)] if variant and data else []
            continue
        head = HEAD.match(line)
        if head:
            data = "data " in (head.group(1) or "")
            names.append(head.group(2) or head.group(3))
    return list(dict.fromkeys(names))


@cache
def page_of(crate, page):
    """A page, or a type of the code; none where it is the kit's."""
    declared = DECLARED.match(page)
    if not (CRATES / crate).is_dir():
        return None
    if page.startswith("proofs."):
        *front, name = page.split(".")
        return Statement((CRATES / crate).joinpath(*front).with_suffix(".antt"), name)
    return code_type(crate, declared.group(1)) if declared else Page(CRATES / crate / "specs" / (page.replace(".", "/") + ".antt"))


code_type = cache(CodeType)


class Walk:
    """The definitions that statements rest on, each after those that it uses: the page and the number of the block.

    Pages come after those of which they use definitions, and a page's definitions in its order.
    """

    def __init__(self, *statements):
        self.lost, self.seen, self.below, self.kit = [], set(), defaultdict(dict), {}
        for statement in statements:
            self.visit(*STATEMENT.fullmatch(statement).groups(), None)
        pages = {}
        for page in self.below[None]:
            self.put_after(page, pages)
        self.order = [(page, block) for page in pages for block in range(len(page.blocks)) if (page, block) in self.seen]

    def put_after(self, page, pages):
        """Puts a page after those below it."""
        for it in self.below[page] if page not in pages else []:
            self.put_after(it, pages)
        pages[page] = True

    def visit(self, crate, page, name, user):
        """A name of a page, as another page uses it."""
        there = page_of(crate, page)
        if there is None:
            self.kit[crate, page, name] = True
            return
        if name in there.imports and name not in there.place:
            self.visit(*there.imports[name], user)
        elif name in there.place or isinstance(there, CodeType):
            if there is not user:
                self.below[user][there] = True
            self.add(there, there.place.get(name, 0))
        else:
            self.lost.append(f"{user.path if user else page}: {there.path} has no {name}")

    def add(self, page, block):
        """A definition, after those that it uses."""
        if (page, block) in self.seen:
            return
        self.seen.add((page, block))
        if block in page.under:
            self.add(page, page.under[block])
        for crate, there, name in used_by(page, block):
            self.visit(crate, there, name, page)
        for name, other in page.place.items():
            if other != block and is_used(name, tokens_of(page, block)):
                self.add(page, other)

    def lines(self, kind=Page):
        """How many lines of each page are reached."""
        count = Counter()
        for page, block in self.order:
            if isinstance(page, kind):
                count[page.path.relative_to(CRATES)] += sum(1 for line in page.blocks[block] if line.strip())
        return count

    def figures(self):
        """The lines of definitions, their pages, and the lines of enums and structs."""
        definitions = self.lines()
        return sum(definitions.values()), len(definitions), sum(self.lines(CodeType).values())

    def of_kit(self):
        """The names of the kit that are used, each with where it stands there, in lines."""
        lines = (f"{name:20} {place_of(*there, name) or 'not found by imports from ' + '.specs.'.join(there)}" for *there, name in self.kit)
        yield from sorted(dict.fromkeys(lines))

    def text(self):
        """The definitions as one text, under the names of their pages. A name that several pages define has its crate before it."""
        last = None
        several = self.several()
        for page, block in self.order:
            if page is not last:
                yield f"\n-- ==== {page.path.relative_to(CRATES)}"
                yield from page.head
            last = page
            yield ""
            yield from (with_crates(page, line, several) for line in page.blocks[block])

    def several(self):
        """What stands before each name that several pages define: the crate, and the page where that isn't enough."""
        homes = defaultdict(dict)
        for page, block in self.order:
            for name in (name for name, there in page.place.items() if there == block):
                homes[name][page] = crate_of(page)
        twice = {name: list(pages.values()) for name, pages in homes.items() if len(pages) > 1}
        return {
            (page, name): crate if crates.count(crate) == 1 else f"{crate}.{page.path.stem}"
            for name, crates in twice.items() for page, crate in homes[name].items()
        }

    def findings(self):
        """What the walk could have missed."""
        yield from self.lost
        for page in dict.fromkeys(page for page, _ in self.order):
            for line in page.strange:
                yield f"{page.path}: not understood: {line}"
        for page, block in self.order:
            for word in unknown(page, block) if isinstance(page, Page) else []:
                yield f"{page.path}: nothing says what {word} is, in: {page.blocks[block][-1]}"


def crate_of(page):
    return page.path.relative_to(CRATES).parts[0]


def home_of(page, name):
    """The page that defines a name, and how it is called there."""
    while page and name not in page.place and name in page.imports:
        crate, there, name = page.imports[name]
        page = page_of(crate, there)
    return page, name


def with_crates(page, line, several):
    """A line of a definition, with what stands before the names that several pages define."""
    if isinstance(page, CodeType) or line.startswith("--"):
        return line
    parts = line.split('"')
    parts[::2] = (NAME.sub(lambda it: full_name(page, it.group(), several), part) for part in parts[::2])
    return '"'.join(parts)


def full_name(page, word, several):
    front, dot, rest = word.partition(".")
    home = home_of(page, front)
    return f"{several[home]}.{home[1]}{dot}{rest}" if home in several else word


@cache
def tokens_of(page, block):
    """The words of a definition that may be names: not what is bound or is a field's, before `:` and `=`."""
    return frozenset() if isinstance(page, CodeType) else frozenset(TOKEN.findall(code_of(page, block)))


def is_used(name, tokens):
    """Whether a name is among the words: as it is, with its fields behind it, or by the parts of an operator."""
    if "◌" not in name:
        return name in tokens or any(token.startswith(name + ".") for token in tokens)
    return name in tokens or all(it in tokens for it in name.split("◌") if it) or name == "◌>>=◌" and "do" in tokens


def unknown(page, block):
    """The words of a definition that are no name of the page, no bound variable and no word of the language."""
    text = "\n".join(code_of(page, it) for it in (page.under.get(block), block) if it is not None)
    bound = {word for shape in BINDERS for words in shape.findall(text) for word in WORD.findall(words)}
    scope = {*page.place, *page.imports, *page.aliases, *bound, *LANGUAGE}
    scope |= {part for name in scope if "◌" in name for part in name.split("◌")}
    words = dict.fromkeys(WORD.findall(re.sub(r'"[^"]*"', "", text)))
    return [word for word in words if word not in scope and word.split(".")[0] not in scope and not NUMBER.fullmatch(word)]


def code_of(page, block):
    """The text of a definition without its comments."""
    return "\n".join(line.split("--")[0] for line in page.blocks[block] if not line.startswith("--"))


def used_by(page, block):
    """What a definition uses of other pages."""
    tokens = tokens_of(page, block)
    for name, there in page.imports.items():
        if is_used(name, tokens):
            yield there
    for token in sorted(tokens):
        front, _, name = token.partition(".")
        if front in page.aliases and name:
            yield *page.aliases[front], name.split(".")[0]


def is_definition(text):
    """A definition as it is named on the command line, where there is such a one."""
    found = STATEMENT.fullmatch(text)
    crate, page, name = found.groups() if found else ("", "", "")
    if not (CRATES / crate / "specs" / (page.replace(".", "/") + ".antt")).is_file() or name not in page_of(crate, page).place:
        raise argparse.ArgumentTypeError(f"there is no definition {text}; stack_build.Implements.Implements is one")
    return text


def main():
    parser = parser_of(__doc__)
    parser.add_argument("--pages", action="store_true", help="print the lines of each page")
    parser.add_argument("--text", action="store_true", help="print the definitions as one text")
    parser.add_argument("--check", action="store_true", help="print what could have been missed")
    parser.add_argument("--kit", action="store_true", help="print what is used of the kit")
    parser.add_argument("statement", nargs="+", type=is_definition, help="a definition, as CRATE.PAGE.NAME")
    chosen = parser.parse_args()
    walk = Walk(*chosen.statement)
    if chosen.check:
        findings = list(walk.findings())
        print("\n".join(findings) or "nothing was missed")
        return 1 if findings else 0
    if chosen.text:
        print("\n".join(walk.text()))
    if chosen.pages:
        for path, lines in [*walk.lines().items(), *walk.lines(CodeType).items()]:
            print(f"{lines:5} {path}")
    if chosen.kit:
        print("\n".join(walk.of_kit()))
    definitions, pages, code = walk.figures()
    if not chosen.text:
        print(f"{definitions:,} lines of definitions in {pages} files, and {code:,} lines of enums and structs")
    return 0


if __name__ == "__main__":
    sys.exit(main())
