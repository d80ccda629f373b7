"""Texts in parentheses, read with the places of what they have; and what belongs at a place of a source of Micro-Gypsy that is refused, as far as the
rule, what stands there and docs/languages/gypsy.md tell."""
import re
from difflib import get_close_matches
from functools import cache

import manual

# The block under "Syntax", and a form of a statement in it.
SYNTAX = re.compile(r"^## Syntax\n.*?^```text\n(.*?)^```$", re.M | re.S)
FORM = re.compile(r"^(?:statement)? +(\(([a-z-]+)\b.*\))$", re.M)
# As docs/languages/text-form.md has it: nothing else keeps tokens apart.
TOKEN = re.compile(rb";[^\n]*|[()]|[^ \t\r\n();]+")
NUMERAL = re.compile(r"-?[0-9]+")
NAME = re.compile(r"[A-Za-z][A-Za-z0-9_*$-]{0,63}")
TYPES = {"int": "integer", "bool": "boolean", "char": "character", "string": "(array character LENGTH)", "real": "integer", "float": "integer"}
WHILE = "A while is a loop that is left: (loop (seq (mg-integer-le b y x) (if b (signal leave) (no-op)) ..)) goes on while x < y."
ASSIGNED = "x := 7 is (mg-simple-constant-assignment x 7), and x := y is (mg-simple-variable-assignment x y)."
PRINTED = "Nothing is printed on the way: at the end each formal of main is."
# What other languages have, by the word with which they begin it.
ELSEWHERE = {
    **dict.fromkeys(("while", "for", "repeat", "until", "do"), WHILE),
    **dict.fromkeys(("set", "set!", "setq", "let", "assign", ":=", "=", "move"), ASSIGNED),
    **dict.fromkeys(("print", "write", "display", "printf", "read"), PRINTED),
    **dict.fromkeys(("break", "leave", "exit"), "A loop is left by (signal leave)."),
    **dict.fromkeys(("return",), "A procedure ends where its statement ends, or by (signal CONDITION) with one of its formal conditions."),
    **dict.fromkeys(("skip", "nop", "pass"), "What does nothing is (no-op)."),
    **dict.fromkeys(("throw", "raise"), "A condition is raised by (signal CONDITION)."),
    **dict.fromkeys(("begin", "progn", "block"), "Statements one after the other are (seq STATEMENT+)."),
    "+": "x := y + z is (mg-integer-add x y z).", "-": "x := y - z is (mg-integer-subtract x y z).", "*": "x := y * z is (mg-integer-multiply x y z).",
}


def tokens(data, start=0, end=None):
    """The tokens of a text, or of a part of it, each with where it begins. Comments are none."""
    return ((it.group(), it.start()) for it in TOKEN.finditer(data, start, len(data) if end is None else end) if it.group()[:1] != b";")


def tree_of(data):
    """The tree of an accepted text: an atom, or a list of trees."""
    lists = [[]]
    for token, _ in tokens(data):
        if token == b"(":
            lists.append([])
        elif token == b")":
            lists[-2].append(lists.pop())
        else:
            lists[-1].append(token)
    return lists[0][0]


def number_of(numeral, most):
    """The number of a numeral, which may begin with zeros; of one beyond `most` in size, one that is beyond too."""
    sign, digits = numeral[0] == "-", numeral.lstrip("-").lstrip("0") or "0"
    number = int(digits) if len(digits) <= len(str(most)) else most + 1
    return -number if sign else number


@cache
def forms():
    """The form of each statement, by the block under "Syntax", and what each predefined procedure takes, by its row, by their first words."""
    known = {head: form for form, head in FORM.findall(SYNTAX.search(manual.page("languages/gypsy.md")).group(1))}
    for name, (arguments, which, *_) in manual.predefined().items():
        literal = "; every argument is a variable" if which == "none" else f"; {which} is a literal"
        _, taken, kinds = arguments.split("`", 2)
        known[name] = f"({name} {taken}){kinds}{literal}"
    return known


def list_round(data, place, within=False):
    """The items of the list that begins at a place or is the innermost round it, each with where it begins, as its token, or `(` for a list; none
    where there is no such list. With `within` it is the innermost round it alone."""
    opened = []
    for token, at in tokens(data):
        if token == b")":
            if not opened:
                return []
            start, items = opened.pop()
            if start < place <= at or (start == place and not within):
                return items
            continue
        if opened:
            opened[-1][1].append((token.decode(errors="replace"), at))
        if token == b"(":
            opened.append((at, []))
    return []


def procedure_round(data, place):
    """Where the procedure round a place begins: the last list in that of the program."""
    depth, start = 0, 0
    for token, at in tokens(data, 0, place + 1):
        if token == b"(":
            start = at if depth == 1 else start
            depth += 1
        elif token == b")":
            depth -= 1
    return start


def variables_at(data, place):
    """The names of the variables of the procedure round a place of a source that breaks no rule of form."""
    depth, item, before, names = 0, 0, b"", []
    for token, _ in tokens(data, procedure_round(data, place)):
        if token == b"(":
            depth += 1
            # The lists of a procedure are its formals, conditions, locals and conditions.
            item += depth == 2
        elif token == b")":
            depth -= 1
            if depth == 0:
                break
        elif depth == 3 and item in (1, 3) and before == b"(":
            names.append(token.decode(errors="replace"))
        before = token
    return names


def character_of(token):
    """A character as other languages write it, as here, or nothing."""
    found = re.fullmatch(r"['\"](.)['\"]?", token)
    return f"{token} is #{ord(found.group(1))}: a character is # and its code." if found and ord(found.group(1)) < 128 else ""


def form_lines(rule, head, items, token):
    """Of rules that speak of the form of one statement."""
    if head in forms():
        yield f"Wanted is {forms()[head]}."
        if rule == "M10":
            yield f"It has {len(items) - 1} items after {head}."
    if rule == "S23" and re.match(r"-?\d|#\d|true|false", token):
        yield "A local variable can have this value: among the locals (NAME TYPE VALUE), as (one integer 1)."
    if rule == "S23" and head in ("mg-simple-variable-assignment", "mg-simple-constant-assignment", "mg-simple-variable-eq"):
        yield "An array is assigned and compared item by item: mg-index-array reads one, mg-array-element-assignment sets one."


def procedure_lines(items):
    """Of a procedure with other items than it has to have."""
    if items and items[0][0] == "proc" and len(items) != 7:
        more = ": several statements want a (seq ..) round them" if len(items) > 7 else ": where a list is empty () stands for it"
        yield f"This one has {len(items)} items, and 7 belong{more}."


def statement_lines(head):
    """Of a list that is no statement."""
    meant = get_close_matches(head, forms(), 3, 0.7)
    if head in ELSEWHERE:
        yield ELSEWHERE[head]
    elif meant:
        yield f"Was {' or '.join(meant)} meant?"
    yield "docs/languages/gypsy.md, How to write, has loops, expressions and ifs of other languages."


def condition_lines(head, token):
    """Of an if whose first item is no Boolean variable."""
    if head == "if" and token == "(":
        yield "An if takes a Boolean variable, and no expression: compute it first, as (seq (mg-integer-le b x y) (if b .. ..)) with a local (b boolean false)."
    elif head == "if" and token in ("true", "false"):
        yield "An if takes a Boolean variable, and no literal: a local (b boolean true) has it."


def type_lines(token):
    """Of a type that isn't there."""
    meant = [TYPES[token]] if token in TYPES else get_close_matches(token, ["integer", "boolean", "character", "array"], 1, 0.6)
    if meant:
        yield f"Was {meant[0]} meant?"


def missing_value(name, kind):
    """Of a local without a value."""
    value = {"boolean": "false", "character": "#0"}.get(kind[0], "0")
    return f"Here the value is missing, as in ({name[0]} {'TYPE' if kind[0] == '(' else kind[0]} {value})."


def variable_lines(data, place, token):
    """Of a variable that isn't declared."""
    names = variables_at(data, place)
    meant = get_close_matches(token, names, 2, 0.6)
    yield f"The procedure has {', '.join(names) if names else 'no variable'}.{' Was ' + ' or '.join(meant) + ' meant?' if meant else ''}"
    yield "A variable is declared among the formals (NAME TYPE), or among the locals (NAME TYPE VALUE)."


def unclosed(data):
    """How many lists are open at the end of a text; and by the indents the first one that seems to end before a line that begins further left, as its
    line, its column and the line before that one, or None."""
    opened, seems, line, start, ended = [], None, 1, 0, 0
    for token, at in tokens(data):
        line, start = line + data.count(b"\n", start, at), max(data.rfind(b"\n", start, at) + 1, start)
        is_first = line != ended
        if is_first and seems is None:
            left = at - start
            seems = next(((row, column + 1, ended) for row, column, leads, most in reversed(opened) if leads and row < line and column > left - (most if left else 0)), None)
        if token == b"(":
            # What has no lists of its own at its own indent ends where another begins there.
            opened.append((line, at - start, is_first, int(re.match(rb"\(\s*(mg-|call\b|if\b|signal\b|no-op\b)", data[at:at + 40]) is not None)))
        elif token == b")" and opened:
            opened.pop()
        ended = line
    return len(opened), seems


def unclosed_lines(data):
    """What is said of a text in which parentheses are missing."""
    count, seems = unclosed(data)
    yield f"At the end of the text {count} {'list is' if count == 1 else 'lists are'} open."
    if seems:
        yield f"By the indents the list that begins at {seems[0]}:{seems[1]} ends on line {seems[2]}: look there for a missing ) first."


def wanted(rule, data, place):
    """What belongs at a place, in sentences."""
    items = list_round(data, place)
    head = items[0][0] if items else ""
    found = TOKEN.match(data, place)
    token = found.group().decode(errors="replace") if found else ""
    if rule in ("M10", "S22", "S23"):
        yield from form_lines(rule, head, items, token)
    elif rule == "M2":
        yield from procedure_lines(items)
    elif rule == "M3":
        yield from condition_lines((list_round(data, place, within=True) or [("", 0)])[0][0], token)
    elif rule == "M6" and len(items) == 2:
        yield missing_value(*items)
    elif rule == "M7":
        yield from type_lines(token)
    elif rule == "M8" and character_of(token):
        yield character_of(token)
    elif rule == "M9":
        yield from statement_lines(head)
    elif rule == "G2":
        yield from unclosed_lines(data)
    elif rule == "G5" and re.match(rb"\s*(#|//|--)", data):
        yield "A comment begins with a ; and ends with its line."
    elif rule in ("S10", "S12"):
        yield "A sum, a difference or a product that doesn't fit, and an index outside an array, set routineerror."
    elif rule == "S11":
        yield "To end a procedure from within, signal one of its formal conditions."
    elif rule == "S14":
        yield from variable_lines(data, place, token)
    elif rule == "S15":
        yield "A comparison makes a Boolean: (seq (mg-simple-constant-eq b x 0) (if b .. ..)) with a local (b boolean false)."
    elif rule == "S16" and token in forms():
        yield f"Wanted is {forms()[token]}."
