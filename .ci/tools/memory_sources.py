#!/usr/bin/env python3
"""Looks where the code makes out of memory of nothing: it should come from an error of the library, or from a call that returned it, alone.

It is a second net. The first is the prover: a call that takes a heap may run out of memory only if that heap may refuse a modest request
(`H.may_refuse`), so a body that gives up unasked, or after a request that no machine could grant, isn't proved. But the prover takes

- a body that fills the memory first, by modest requests, and then gives up;
- one that makes room in a table of its own, whose `make_room` (`HasRoom` of `stack_heap`) gives up;
- any that gives up in a call that takes no heap, since its contract leaves out of memory free.

This script prints a line for each expression that names the library's errors, and for each variant that is out of memory, but for these places:

- a conversion `from` whose argument can be nothing else;
- an arm of a `match` each of whose patterns is out of memory, or whose guard asks for it;
- the `else` of a `let Ok(..) = f(..)` where out of memory is all that `f` may fail with.

It prints one too for an `impl` of `Heap`, `BoundedHeap` or `HasRoom` outside the file that has them, for a `make_room` there that isn't one call of the
library's `reserve`, for another name of what it looks for, and for a conversion from out of memory to what has another name.

Tests may make it. Then it makes each of the mistakes at its end in the text that it has read, and prints a line where one isn't found. The exit
status is 1 where a line was printed. It reads texts. It doesn't see a body that fills the memory and passes the refusal on by `?`, a request
that no machine can serve in a call that takes no heap, nor what a macro would write.
"""
import re
import sys
from collections import defaultdict
from dataclasses import dataclass, field
from pathlib import Path

sys.path.append(str(Path(__file__).resolve().parents[2] / "tools"))

from arguments import parser_of  # noqa: E402

TOP = Path(__file__).resolve().parents[2]
OWN = {"Memory", "OutOfMemory"}
LIBRARY = {"AllocError", "AllocFailed"}
EVERY = OWN | LIBRARY
# The traits by which a refusal could be made, and the one file that implements each.
IMPLEMENTED = {
    "Heap": "crates/stack_heap/src/heap.rt",
    "BoundedHeap": "crates/stack_heap/src/within.rt",
    "HasRoom": "crates/name_tables/src/kept.rt",
}
# All that a `make_room` does.
MAKES_ROOM = re.compile(r"self \. \w+ \. reserve \( more")
CLOSING = {"(": ")", "[": "]", "{": "}"}
TOKEN = re.compile(
    r"""(?P<left_out>//[^\n]*|\s+|[bc]?"(?:\\.|[^"\\])*"|r(?P<hashes>\#*)".*?"(?P=hashes)|b?'(?:\\[^']*'|[^'\\]'))"""
    r"""|(?P<token>'?\w+|=>|->|::|==|!=|\|\||\.\.=|&&|.)""",
    re.S | re.X,
)
CLAUSES = {"requires", "ensures"}
# What names and types stand in, and no value: up to a semicolon, or up to a body of items.
NAMING = {"use", "type", "struct"}
HOLDING = {"impl", "trait", "mod"}


@dataclass
class Token:
    """A word or a sign of a text, the line that it is in, and where it is a bracket, what stands in it."""

    text: str
    line: int
    inner: list = field(default_factory=list)


def tokens_of(text):
    """The tokens of a text, those in brackets inside the opening one."""
    whole = current = []
    open_ones, line = [], 1
    for found in TOKEN.finditer(text):
        if found["token"]:
            token = Token(found["token"], line)
            if open_ones and token.text == CLOSING[open_ones[-1][0].text]:
                current = open_ones.pop()[1]
            else:
                current.append(token)
                if token.text in CLOSING:
                    open_ones.append((token, current))
                    current = token.inner
        line += found[0].count("\n")
    if open_ones:
        raise ValueError(f"line {open_ones[-1][0].line}: nothing closes this {open_ones[-1][0].text}")
    return whole


def place_of(tokens, start, *texts):
    """Where the first of these tokens stands, or the end."""
    return next((at for at in range(start, len(tokens)) if tokens[at].text in texts), len(tokens))


def without_clauses(tokens):
    """The tokens without clauses, ghost items, attributes and declarations of enums."""
    kept, at = [], 0
    while at < len(tokens):
        text = tokens[at].text
        if text in CLAUSES:
            at = place_of(tokens, at, "{") + 1
        elif text == "ghost":
            at = place_of(tokens, at, ";") + 1
        elif text == "#" and at + 1 < len(tokens) and tokens[at + 1].text in ("[", "!"):
            at = place_of(tokens, at, "[") + 1
        elif text == "enum":
            at = place_of(tokens, at, "{") + 1
        else:
            tokens[at].inner = without_clauses(tokens[at].inner)
            kept.append(tokens[at])
            at += 1
    return kept


def flat(tokens):
    """All words and signs, those in brackets too."""
    for token in tokens:
        yield token.text
        yield from flat(token.inner)


def errors_of(header):
    """What a function of this header may fail with, as far as names tell: the words after the comma of its `Result`."""
    texts = [token.text for token in header]
    if "->" not in texts or "Result" not in texts[texts.index("->"):]:
        return set()
    depth, last = 0, []
    for text in texts[texts.index("Result", texts.index("->")) + 1 :]:
        depth += (text == "<") - (text == ">")
        last = [] if text == "," and depth == 1 else [*last, text]
        if not depth:
            break
    return set(re.findall(r"\w+", " ".join(last)))


def owner_of(header):
    """The type that an `impl` of this header is for."""
    texts = [token.text for token in header]
    if "for" in texts:
        return texts[texts.index("for") + 1]
    depth = 0
    for text in texts:
        if not depth and text not in "<>":
            return text
        depth += (text == "<") - (text == ">")
    return None


class Reader:
    """The functions of all texts, with what each may fail with, and the places of the text that is read."""

    def __init__(self):
        self.errors, self.places, self.path = defaultdict(list), [], ""

    def note_functions(self, tokens, owner=None):
        """Notes what each function may fail with, by its name, and by its type and its name."""
        implemented = None
        for at, token in enumerate(tokens):
            if token.text == "impl":
                implemented = owner_of(tokens[at + 1 : place_of(tokens, at, "{", ";")])
            if token.text == "fn" and at + 1 < len(tokens):
                header = tokens[at + 1 : place_of(tokens, at, "{", ";")]
                for name in [header[0].text, *([f"{owner}::{header[0].text}"] if owner else [])]:
                    self.errors[name].append(errors_of(header))
            self.note_functions(token.inner, implemented if token.text == "{" and implemented else owner)
            if token.text == "{":
                implemented = None

    def fails_by_memory_alone(self, path):
        """Whether out of memory is all that each function of a name may fail with, or of a type and a name."""
        owned = "".join(path[-3:])
        errors = self.errors.get(owned) or self.errors.get(path[-1])
        return bool(errors) and all(it and it <= EVERY for it in errors)

    def read_items(self, tokens, is_given):
        """Reads what stands in brackets; `is_given` says whether it is there only where memory ran out."""
        at = 0
        while at < len(tokens):
            if tokens[at].text == "fn":
                at = self.read_function(tokens, at)
            elif tokens[at].text in NAMING:
                end = place_of(tokens, at, ";", *["{"] * (tokens[at].text == "struct"))
                self.read_naming(tokens[at:end])
                at = end + 1
            elif tokens[at].text in HOLDING:
                end = place_of(tokens, at, "{", ";")
                self.read_holding(tokens[at:end])
                self.read_items(tokens[end].inner, False)
                at = end + 1
            elif tokens[at].text == "let":
                at = self.read_let(tokens, at, is_given)
            else:
                at = self.read_expression(tokens, at, is_given)

    def read_function(self, tokens, at):
        """Reads a function, and returns the place after it."""
        body = place_of(tokens, at, "{", ";")
        header = tokens[at + 1 : body]
        if body < len(tokens) and tokens[body].text == "{":
            texts = list(flat(tokens[body].inner))
            is_renaming = is_conversion(header) and not OWN & {*texts}
            is_refusing = header[0].text == "make_room" and not EVERY & {*texts} and not MAKES_ROOM.fullmatch(" ".join(texts))
            self.places += [it.line for it in tokens[body].inner[:1] if is_renaming or is_refusing]
            self.read_items(tokens[body].inner, is_conversion(header))
        return body + 1

    def read_naming(self, tokens):
        """Reads an import or the name of a type: what is looked for has no other name."""
        texts, named = list(flat(tokens)), []
        if texts[0] == "use":
            named = [name for name, word in zip(texts, texts[1:]) if word == "as"]
        elif texts[0] == "type" and "Result" not in texts:
            named = texts[1:]
        if (EVERY | {*IMPLEMENTED}) & {*named}:
            self.places.append(tokens[0].line)

    def read_holding(self, header):
        """Reads the header of an `impl`: each of these traits is implemented in one file."""
        texts = [token.text for token in header]
        traits = {name for name, word in zip(texts, texts[1:]) if word == "for"}
        if any(IMPLEMENTED[name] != self.path for name in traits & {*IMPLEMENTED}):
            self.places.append(header[0].line)

    def read_let(self, tokens, at, is_given):
        """Reads a `let`: its pattern and its type are no expressions. Returns the place of its value, or after its `else`."""
        value = place_of(tokens, at, "=", ";") + 1
        otherwise = next((it for it in range(value, place_of(tokens, value, ";")) if tokens[it].text == "else"), None)
        is_refused = [token.text for token in tokens[at + 1 : at + 2]] == ["Ok"]
        if otherwise is None or not is_refused or not self.is_call_by_memory_alone(tokens[value:otherwise]):
            return value
        self.read_items(tokens[value:otherwise], is_given)
        return otherwise + 2

    def is_call_by_memory_alone(self, tokens):
        """Whether this is one call of a function that may fail by out of memory alone."""
        texts = [token.text for token in tokens]
        if len(texts) < 2 or texts[-1] != "(" or not all(re.fullmatch(r"\w+|::|\.|&", text) for text in texts[:-1]):
            return False
        return self.fails_by_memory_alone(texts[:-1])

    def read_expression(self, tokens, at, is_given):
        """Reads a token of an expression, and returns the place after it."""
        token, after = tokens[at], [it.text for it in tokens[at + 1 : at + 2]]
        if token.text in EVERY and not is_given and (token.text in LIBRARY or not is_named_only(tokens, at, after)):
            self.places.append(token.line)
        if token.text == "match":
            body = place_of(tokens, at, "{")
            self.read_items(tokens[at + 1 : body], is_given)
            self.read_arms(tokens[body].inner, is_given)
            return body + 1
        if token.text == "matches" and after == ["!"]:
            return at + 3
        self.read_items(token.inner, is_given)
        return at + 1

    def read_arms(self, tokens, is_given):
        """Reads the arms of a `match`."""
        start = 0
        while start < len(tokens):
            arrow = place_of(tokens, start, "=>")
            is_block = arrow + 1 < len(tokens) and tokens[arrow + 1].text == "{"
            end = arrow + 2 if is_block else place_of(tokens, arrow, ",")
            self.read_items(tokens[arrow + 1 : end], is_given or is_out_of_memory(tokens[start:arrow]))
            start = end + (end < len(tokens) and tokens[end].text == ",")


def is_conversion(header):
    """Whether a function of this header is a conversion whose argument can be nothing but out of memory."""
    arguments = next((token for token in header if token.text == "("), None)
    if header[0].text != "from" or arguments is None:
        return False
    return [it.text for it in arguments.inner if it.text in EVERY] != [] and [it.text for it in arguments.inner][2] in EVERY


def is_named_only(tokens, at, after):
    """Whether a variant is compared, or is the type or the module of a path, and is no value."""
    before = next((it.text for it in reversed(tokens[:at]) if it.text != "::" and not re.fullmatch(r"\w+", it.text)), "")
    return after == ["::"] or before in ("==", "!=")


def is_out_of_memory(arm):
    """Whether what stands before the arrow of an arm holds only where memory ran out."""
    texts = list(flat(arm))
    if "if" in texts:
        pattern, guard = texts[: texts.index("if")], texts[texts.index("if") + 1 :]
        return is_each(pattern) or "==" in guard and not {"||", "!", "!="} & {*guard} and bool(EVERY & {*guard})
    return is_each(texts)


def is_each(pattern):
    """Whether each alternative of a pattern is out of memory."""
    return all(EVERY & {*it.split()} for it in " ".join(pattern).split(" | "))


def is_test(path):
    """Whether a file is compiled for tests alone."""
    return path.stem == "tests" or "tests" in path.parts or path.parts[1].endswith("_tests")


def texts():
    """The code that is no test, by file."""
    paths = [path.relative_to(TOP) for path in sorted(TOP.glob("crates/*/src/**/*.rt"))]
    return {str(path): (TOP / path).read_text() for path in paths if not is_test(path)}


def read_all(code):
    """A reader that knows all functions, and the tokens of each file."""
    reader, tokens = Reader(), {path: without_clauses(tokens_of(text)) for path, text in code.items()}
    for it in tokens.values():
        reader.note_functions(it)
    return reader, tokens


def places_in(reader, path, tokens):
    """The lines of a file that make out of memory of nothing."""
    reader.path, reader.places = path, []
    reader.read_items(tokens, False)
    return reader.places


@dataclass
class Mistake:
    """A text of a file, what takes its place, and the text from there on that has to be found."""

    path: str
    old: str
    new: str
    wanted: str


MISTAKES = [
    # A body that gives up.
    Mistake("crates/stack_text/src/reader.rt", "    let tree = read(heap, text)?;", "    Err(TextFault::Memory)\n}\nfn more() {", "TextFault::Memory"),
    # One that gives up where much is asked for.
    Mistake("crates/fm_image/src/writing.rt", "    let name = name.bytes();", "    if name.is_long() { return Err(Memory); }", "Memory"),
    # The library's errors: by `?`, by a conversion, with a value, and in place of another error.
    Mistake("crates/fm_image/src/writing.rt", "    let name = name.bytes();", "    Err(AllocError)?;", "AllocError"),
    Mistake("crates/fm_image/src/writing.rt", "    let name = name.bytes();", "    return Err(Memory::from(AllocError));", "AllocError"),
    Mistake("crates/fm_image/src/writing.rt", "    let name = name.bytes();", "    Err(AllocFailed { value: 1 })?;", "AllocFailed"),
    Mistake("crates/fm_image/src/writing.rt", "extend_from_slice(bytes, name)?", "extend_from_slice(bytes, name).map_err(|_| Memory)?", "Memory"),
    # A table that makes no room, and says that memory ran out.
    Mistake("crates/name_tables/src/kept.rt", "        self.map.reserve(more)", "        Err(AllocError)", "AllocError"),
    # One that asks for what no machine has, and a table and a heap of one's own.
    Mistake("crates/name_tables/src/kept.rt", "        self.map.reserve(more)", "        self.map.reserve(usize::MAX)", "self.map"),
    Mistake("crates/name_tables/src/kept.rt", "        self.map.reserve(more)", "        self.map.reserve(1)?; self.map.reserve(more)", "self.map"),
    Mistake("crates/stack_text/src/reader.rt", "/// Puts a tree", "impl<'a> HasRoom for OpenList<'a> {}\n/// Puts a tree", "impl<'a>"),
    Mistake("crates/stack_text/src/reader.rt", "/// Puts a tree", "impl<'a> stack_heap::Heap for OpenList<'a> {}\n/// Puts a tree", "impl<'a>"),
    # A heap that is filled first, after which another error is made than that by which it refused.
    Mistake("crates/stack_text/src/printer.rt", "        heap.push(out, b' ')?;", "while heap.push(out, b' ').is_ok() {}\nreturn Err(Memory);", "Memory"),
    # Another name for what is looked for.
    Mistake("crates/stack_text/src/reader.rt", "use stack_heap::BoundedHeap;", "use std::alloc::{AllocError as Full};", "use std"),
    Mistake("crates/stack_text/src/reader.rt", "use stack_heap::BoundedHeap;", "use stack_heap::HasRoom as Table;", "use stack_heap"),
    Mistake("crates/stack_text/src/reader.rt", "use stack_heap::BoundedHeap;", "type Full = std::alloc::AllocError;", "type Full"),
    # An arm of another fault, of any fault, of out of memory or another fault, and of a test of something else.
    Mistake("crates/command_replies/src/show.rt", "Ok(Plan::verdict_alone(heap.handle(), Verdict::Image { rule, place }))", "Err(Memory)", "Memory"),
    Mistake("crates/command_replies/src/show.rt", "Err(ImageFault::Memory) =>", "Err(_) =>", "Err(Memory)"),
    Mistake("crates/command_replies/src/show.rt", "Err(ImageFault::Memory) =>", "Err(ImageFault::Memory | ImageFault::Other) =>", "Err(Memory)"),
    Mistake("crates/command_line/src/status.rt", "== io::ErrorKind::OutOfMemory =>", "== io::ErrorKind::NotFound =>", "Status::OutOfMemory"),
    # A conversion of another error, one that looks at none of its cases, and one to a fault of another name.
    Mistake("crates/fm_asm/src/fault.rt", "fn from(breach: Breach) -> AsmFault {", "fn from(_: Breach) -> AsmFault { AsmFault::Memory;", "AsmFault::Memory"),
    Mistake("crates/stack_build/src/fault.rt", "GypsyFault::Memory => BuildFault::Memory", "_ => BuildFault::Memory", "BuildFault::Memory"),
    Mistake("crates/space_cert/src/certifying.rt", "        CertFault::Memory\n", "        CertFault::TooDeep\n", "CertFault::TooDeep"),
    # The rest of a call that may fail otherwise too.
    Mistake("crates/print_processor/src/main.rt", "= verilog(alloc) else", "= StdoutSink::put(alloc) else", "PutFault::Memory"),
    # A function of the same name of a type that nobody wrote.
    Mistake("crates/level_debuggers/src/piton_level.rt", "= PlacedSystem::new(heap, checked) else", "= Other::new(heap, checked) else", "Memory"),
]


def is_found(reader, code, mistake):
    """Whether a mistake is found on the line of its part."""
    text = code[mistake.path]
    if text.count(mistake.old) != 1:
        print(f"{mistake.path}: this stands there {text.count(mistake.old)} times: {mistake.old}")
        return False
    text = text.replace(mistake.old, mistake.new)
    wanted = text[: text.index(mistake.wanted, text.index(mistake.new))].count("\n") + 1
    if places_in(reader, mistake.path, without_clauses(tokens_of(text))) == [wanted]:
        return True
    print(f"{mistake.path}: this mistake isn't found: {mistake.new}")
    return False


def main():
    parser_of(__doc__).parse_args()
    code, count = texts(), 0
    reader, tokens = read_all(code)
    for path, text in code.items():
        for line in places_in(reader, path, tokens[path]):
            told = text.splitlines()[line - 1].strip()
            print(f"{path}:{line}: this makes out of memory of nothing; return an error of the library or of a call: {told}")
            count += 1
    count += sum(not is_found(reader, code, mistake) for mistake in MISTAKES)
    return count > 0


if __name__ == "__main__":
    sys.exit(main())
