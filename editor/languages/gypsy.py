"""Micro-Gypsy: docs/languages/gypsy.md."""
import re

import beside  # noqa: F401
import manual
from languages import NAME, Offer, declaration_of, mention, part
from sources import forms
from trees import path_to, spelled, tree_of

LITERAL = re.compile(r"-?\d+|#\d+|true|false")
# The words of a statement, by their number, that are statements; names are in the other ones.
STATEMENTS = {"seq": None, "loop": (1,), "if": (2, 3), "begin": (1, 3)}
BUILT_IN = {
    "normal": "no condition", "leave": "ends the innermost loop of the procedure",
    "routineerror": "a predefined procedure failed, or a condition that isn't known here",
    "spaceerror": "a call had no room in the stacks",
}
# What is put in behind the parenthesis of a statement; editors set its other one.
SNIPPETS = {
    "seq": "seq $0", "loop": "loop (seq $0)", "if": "if $1 $2 (no-op)", "begin": "begin $1 (routineerror) $2", "call": "call $1 ($2) ()",
    "signal": "signal $1", "no-op": "no-op",
}


def procedures(tree):
    return [it for it in tree.parts()[2:] if it.items]


def mentions(data):
    """All names of a source."""
    tree = tree_of(data)
    if tree.item(1).text:
        yield mention("procedure", "", tree.item(1))
    for it in procedures(tree):
        yield from of_procedure(it)


def of_procedure(tree):
    scope = tree.item(1).text or ""
    if scope:
        yield mention("procedure", "", tree.item(1), True, signature(tree))
    for number, sort in ((2, "formal"), (4, "local")):
        for it in tree.item(number).parts():
            if it.item(0).text:
                value = f", at first {spelled(it.item(2))}" if number == 4 else ""
                yield mention("variable", scope, it.item(0), True, f"{it.item(0).text} {spelled(it.item(1))}, a {sort} of {scope}{value}")
            yield from (mention("type", "", one) for one in it.item(1).walk() if one.text and NAME.fullmatch(one.text))
    for number, sort in ((3, "formal"), (5, "local")):
        yield from (mention("condition", scope, it, True, f"{it.text}, a {sort} condition of {scope}") for it in tree.item(number).parts() if it.text)
    yield from of_statements(tree.item(6), scope)


def of_statements(tree, scope):
    """The names in a statement and in the statements in it."""
    rest = [tree]
    while rest:
        one = rest.pop()
        head = one.head()
        if head:
            yield mention("predefined" if head in manual.predefined() else "form", "", one.item(0))
            yield from of_arguments(head, one, scope)
        if head in STATEMENTS:
            rest += reversed([one.item(it) for it in STATEMENTS[head] or range(1, len(one.items))])


def of_arguments(head, tree, scope):
    """The names in a statement itself."""
    if head == "call" and tree.item(1).text:
        yield mention("procedure", "", tree.item(1))
    conditions = {"signal": [tree.item(1)], "begin": tree.item(2).parts(), "call": tree.item(3).parts()}.get(head, [])
    variables = {"if": [tree.item(1)], "call": tree.item(2).parts()}.get(head, tree.items[1:] if head in manual.predefined() else [])
    yield from (mention("condition", "" if it.text in BUILT_IN else scope, it) for it in conditions if it.text)
    yield from (mention("variable", scope, it) for it in variables if it.text and not LITERAL.fullmatch(it.text))


def signature(tree):
    """The head of a procedure, without its locals."""
    return f"(proc {tree.item(1).text} {spelled(tree.item(2))} {spelled(tree.item(3))} ..)"


def outline(data):
    tree = tree_of(data)
    for it in procedures(tree):
        variables = [part("variable", one, one.item(0), spelled(one.item(1))) for number in (2, 4) for one in it.item(number).parts() if one.item(0).text]
        conditions = [part("condition", one, one, "condition") for number in (3, 5) for one in it.item(number).parts() if one.text]
        if it.item(1).text:
            yield part("procedure", it, it.item(1), spelled(it.item(2), 60), variables + conditions)


def statement_at(data, place):
    """The innermost statement round a place, or None."""
    known = {*manual.predefined(), *forms()}
    return next((it for it in reversed(path_to(tree_of(data), place)) if it.head() in known), None)


def said_of(data, one):
    """What is said of a name, in Markdown."""
    if one.kind == "predefined":
        takes, literals, does, fails = manual.predefined()[one.name]
        yield f"**{one.name}** {takes}"
        yield f"{does}. " + (f"Fails if {fails}: `routineerror`, and no variable is changed." if fails else "It never fails.")
        yield "Every argument is a variable." if literals == "none" else f"The literal is {literals}."
    elif one.kind == "form":
        yield f"**{one.name}** `{forms().get(one.name, '')}`"
        yield manual.meanings().get(one.name, "")
    elif one.kind == "condition" and one.name in BUILT_IN:
        yield f"**{one.name}**, a condition that is always there: {BUILT_IN[one.name]}"
    elif one.kind in ("variable", "procedure", "condition"):
        declared = declaration_of(list(mentions(data)), one)
        yield f"**{one.kind}** `{declared.detail}`" if declared else f"**{one.name}** isn't declared."
    if one.kind in ("form", "predefined"):
        yield from (priced(it) for it in manual.prices().get(one.name, []))
        yield from of_call(data, one) if one.name == "call" else ()


def template(one):
    """The Piton that statements of a kind become, in Markdown."""
    text = manual.templates().get("mg-" if one.kind == "predefined" else one.name)
    return f"```\n{text}\n```" if text else ""


def priced(price):
    """A price of docs/proved/meaning.md with what it counts: instructions, steps of Piton, and words of both stacks."""
    told = re.sub(r"(\d+), (\d+)(?!\))", r"\1 instructions (\2 steps of Piton)", price)
    if told == price:
        return f"Costs, in instructions and steps of Piton, {price}"
    told = re.sub(r" \((\d+), (\d+)\)$", r". It needs \1 words of the temporary stack and \2 of the control stack", told)
    return f"Costs {told}."


def of_call(data, one):
    """What the call of a procedure costs here: docs/proved/meaning.md, "What a run costs"."""
    statement = statement_at(data, one.place)
    called = next((it for it in procedures(tree_of(data)) if it.item(1).text == statement.item(1).text), None)
    if called:
        words = sum(size_of(it.item(1)) for it in called.item(4).parts())
        variables = len(called.item(2).parts()) + len(called.item(4).parts())
        yield (f"Here L is {words} and m + k is {variables}: {words + 4 * variables + 38} instructions ({words + variables + 15} steps of Piton), "
               f"and what the body of {called.item(1).text} costs.")


def size_of(tree):
    """How many words a variable of a type has."""
    length = tree.item(2).text if tree.head() == "array" else "1"
    return int(length) if (length or "").isdigit() else 1


def offers(data, place):
    """What may come at a place: a statement behind a parenthesis, and names of the procedure elsewhere."""
    before = data[:place].decode(errors="replace")
    word = re.search(r"[^\s();]*$", before)[0]
    names = list(mentions(data))
    if before[:len(before) - len(word)].endswith("("):
        for name, (takes, _, does, fails) in manual.predefined().items():
            arguments = re.match(r"`([^`]*)`", takes)[1].split()
            filled = " ".join(f"${{{number}:{it}}}" for number, it in enumerate(arguments, 1))
            said = f"{takes}. {does}." + (f" Fails if {fails}." if fails else "")
            yield Offer("predefined", name, f"{name} {filled}", f"({name} {' '.join(arguments)})", said)
        for name, snippet in SNIPPETS.items():
            yield Offer("form", name, snippet, forms().get(name, ""))
        return
    heads = [it for it in names if it.kind == "procedure" and it.declares and it.place <= place]
    scope = heads[-1].name if heads else ""
    yield from (Offer(it.kind, it.name, it.name, it.detail) for it in names if it.declares and it.scope == scope and it.kind in ("variable", "condition"))
    yield from (Offer("procedure", it.name, it.name, it.detail) for it in names if it.declares and it.kind == "procedure")
    yield from (Offer("condition", name, name, said) for name, said in BUILT_IN.items() if name != "normal")
    yield from (Offer("type", name, name) for name in ("integer", "boolean", "character", "array"))
