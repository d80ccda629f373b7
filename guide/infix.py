"""What may come at a place of an infix program that is refused, by the grammar of docs/languages/mini.md, and what is often meant there.

What is still expected is a stack, as in crates/mini_syntax/specs/Expected.antt: a token is taken exactly where some program goes on with it.
"""
import re
from collections import namedtuple
from difflib import get_close_matches

Token = namedtuple("Token", "kind text place")
PATTERN = re.compile(r"\s+|(?P<number>\d+)|(?P<name>[A-Za-z][A-Za-z0-9_]*)|(?P<mark>:=|<=|[;=+\-*(){}])")
WORDS = "int bool while if else true false not and or".split()
MARKS = ":= ; <= = + - * ( ) { }".split()
KINDS = ["a name", "a number", *MARKS, *WORDS]
OPERANDS = ["a name", "a number", "true", "false", "not", "-", "("]

# An expression is an operand, and goes on with operators and operands, or with none. Two comparisons want an `and` or an `or` between them.
EXPRESSION = ["operand", "more"]
COMPARED = ["operand", "more compared"]
BLOCK = ["{", "statements", "}"]
# Of what may be left out, or is one of several: what is expected after each token that it takes.
TAKES = {
    "operand": {it: [] for it in ("a name", "a number", "true", "false")} | {"not": ["operand"], "-": ["operand"], "(": [*EXPRESSION, ")"]},
    "more": {it: EXPRESSION for it in ("or", "and", "+", "-", "*")} | {it: COMPARED for it in ("<=", "=")},
    "more compared": {it: EXPRESSION for it in ("or", "and")} | {it: COMPARED for it in ("+", "-", "*")},
    "declarations": {it: ["a name", ";", "declarations"] for it in ("int", "bool")},
    "statements": {
        "a name": [":=", *EXPRESSION, ";", "statements"],
        "while": [*EXPRESSION, *BLOCK, "statements"],
        "if": [*EXPRESSION, *BLOCK, "else", *BLOCK, "statements"],
    },
}
OPTIONAL = set(TAKES) - {"operand"}
START = ["declarations", "statements"]
# Signs of other languages, and what stands for them.
NOT_LESS = "x < y is written not (y <= x), and x > y is not (x <= y)."
SIGNS = {
    "<": NOT_LESS, ">": f"{NOT_LESS} x >= y is y <= x.", "//": "The language has no comments.", "/*": "The language has no comments.",
    "#": "The language has no comments.", "/": "There is no division: a while that subtracts, and counts how often, divides.",
    "%": "There is no remainder: a while that subtracts as long as it can leaves it.", "!=": "x != y is written not (x = y).", "!": "It is written not.",
    "&": "It is written and.", "|": "It is written or.", "[": "There are no arrays: Micro-Gypsy has them.", "^": "There is no power: a while multiplies.",
    '"': "There are no texts.", "'": "There are no characters: Micro-Gypsy has them.", ".": "A number is whole: digits alone.", ",": "Each declaration and each statement ends with a ;.",
    ":": "An assignment is written with :=, as x := 3;.",
}


def tokens_before(text, place):
    """The tokens that begin before a place."""
    found, at = [], 0
    while at < place:
        match = PATTERN.match(text, at)
        if match is None:
            break
        if match.lastgroup:
            found.append(token_of(match))
        at = match.end()
    return found


def token_of(match):
    text = match.group()
    kind = text if match.lastgroup == "mark" or text in WORDS else f"a {match.lastgroup}"
    return Token(kind, text, match.start())


def after(stack, kind):
    """What is expected after a token, or None where it isn't taken."""
    for number, item in enumerate(stack):
        if item in TAKES:
            if kind in TAKES[item]:
                return [*TAKES[item][kind], *stack[number + 1:]]
            if item not in OPTIONAL:
                return None
        else:
            return stack[number + 1:] if item == kind else None
    return None


def expected_after(tokens):
    """What is expected after these tokens, or None where one of them isn't taken."""
    stack = START
    for token in tokens:
        stack = after(stack, token.kind)
        if stack is None:
            return None
    return stack


def may_come(stack):
    """The tokens with which some program goes on."""
    return [it for it in KINDS if after(stack, it) is not None]


def listed(kinds, at_end):
    """What may come, in words."""
    if all(it in kinds for it in OPERANDS):
        kinds = ["an expression", *(it for it in kinds if it not in OPERANDS)]
    if at_end:
        kinds = [*kinds, "the end of the text"]
    return f"Here may come: {(', ' if ' ' in ''.join(kinds) else ' ').join(kinds)}"


def sign_line(text, place):
    """What stands for a sign that is none of the language."""
    for length in (2, 1):
        if text[place:place + length] in SIGNS:
            return SIGNS[text[place:place + length]]
    return ""


def meant_line(before, token, kinds):
    """What is often meant by a token that isn't taken where these kinds are, in a sentence, or nothing."""
    last = before[-1].kind if before else ""
    if kinds == [":="]:
        return "An assignment is NAME := EXPRESSION;, as x := x + 1;."
    if kinds == ["else"]:
        return "Each if has an else: else { } where there is nothing to do."
    if kinds == [";"] and token.kind == ":=":
        return "A declaration gives no value: int x; x := 3;. What x begins with is also in the values file."
    if token.kind in ("int", "bool"):
        return "Declarations stand before all statements."
    if last == "else":
        return "Behind else stands a block: else { if .. { } else { } }."
    if token.kind == "=" and last == "=":
        return "Equality is one =."
    if token.kind in ("<=", "=") and ";" in kinds:
        return "One comparison stands in an expression; more of them want brackets and and."
    if "{" in kinds:
        return "The statements of a while, an if and an else stand in { }."
    if ";" in kinds:
        return "A ; is missing before it."
    if token.kind == "else":
        return "Between the } of an if and its else stands nothing, and an else belongs to one if."
    if token.kind == "}" and "}" not in kinds:
        return "This } closes nothing."
    return ""


def sorts_of(tokens):
    """The declared names with their sorts."""
    return {name.text: sort.kind for sort, name in zip(tokens, tokens[1:]) if sort.kind in ("int", "bool") and name.kind == "a name"}


def sort_lines(text, place, before):
    """What is wrong with the sorts of an operator's operands."""
    match = PATTERN.match(text, place)
    kind = token_of(match).kind if match and match.lastgroup else ""
    if kind == "not":
        yield "not takes what stands right behind it: not x = 3 is (not x) = 3, and not (x = 3) has brackets."
    elif kind == ":=" and before:
        sort = sorts_of(before).get(before[-1].text, "int")
        yield f"{before[-1].text} is declared {sort}, and the expression behind := gives {'a truth value' if sort == 'int' else 'a number'}."
    elif kind in ("while", "if"):
        yield f"{kind} takes a truth value, as x <= 3 or a variable declared bool."
    elif kind in ("and", "or"):
        yield f"{kind} takes two truth values, as x <= 3 {kind} y = 1."
    elif kind in ("+", "-", "*", "<="):
        yield f"{kind} takes numbers."
    elif kind == "=":
        yield "One side of this = is a number, and the other a truth value; brackets say what belongs together."


def wanted(rule, data, place):
    """What belongs at a place, in sentences."""
    text = data.decode("latin-1")
    before = tokens_before(text, place)
    if rule in ("Y1", "Y2"):
        stack = expected_after(before)
        if stack is None:
            return
        kinds = may_come(stack)
        match = PATTERN.match(text, place)
        token = token_of(match) if match and match.lastgroup else Token("", "", place)
        meant = sign_line(text, place) if rule == "Y1" else meant_line(before, token, kinds)
        if meant:
            yield meant
        yield listed(kinds, all(it in OPTIONAL for it in stack))
    elif rule == "Y6":
        names = sorts_of(before)
        name = re.match(r"\w*", text[place:]).group()
        meant = get_close_matches(name, names, 2, 0.6)
        yield f"A declaration at the top makes it known: int {name};{' Was ' + ' or '.join(meant) + ' meant?' if meant else ''}"
    elif rule == "Y7":
        yield from sort_lines(text, place, before)
