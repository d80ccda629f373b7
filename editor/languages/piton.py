"""Piton: docs/languages/piton.md."""
import beside  # noqa: F401
import manual
from languages import Offer, declaration_of, mention, part
from trees import spelled, tree_of

LOCAL = {"push-local", "pop-local", "set-local"}
AREA = {"push-global", "pop-global", "set-global"}
FIRST_PROGRAM, FIRST_INSTRUCTION = 7, 3


def programs(tree):
    return [it for it in tree.parts()[FIRST_PROGRAM:] if it.items]


def mentions(data):
    """All names of a system."""
    tree = tree_of(data)
    if tree.item(1).text:
        yield mention("program", "", tree.item(1))
    for it in tree.item(5).parts():
        if it.item(0).text:
            yield mention("area", "", it.item(0), True, f"{spelled(it)}, an area")
        yield from (one for word in it.parts()[1:] for one in of_word(word))
    for it in tree.item(6).parts():
        yield from of_word(it)
    for it in programs(tree):
        yield from of_program(it)


def of_program(tree):
    scope = tree.item(0).text or ""
    if scope:
        yield mention("program", "", tree.item(0), True, f"({scope} {spelled(tree.item(1))} {spelled(tree.item(2))} ..)")
    for it in tree.item(1).parts():
        if it.text:
            yield mention("variable", scope, it, True, f"{it.text}, a formal of {scope}")
    for it in tree.item(2).parts():
        if it.item(0).text:
            yield mention("variable", scope, it.item(0), True, f"{it.item(0).text}, a temporary of {scope}, at first {spelled(it.item(1))}")
        yield from of_word(it.item(1))
    for it in tree.parts()[FIRST_INSTRUCTION:]:
        if it.head() == "dl" and it.item(1).text:
            yield mention("label", scope, it.item(1), True, f"{it.item(1).text}: {spelled(it.item(3))}")
        yield from of_operation(it.item(3) if it.head() == "dl" else it, scope)


def of_operation(tree, scope):
    head = tree.head()
    if not head:
        return
    yield mention("operation", "", tree.item(0))
    kind = "variable" if head in LOCAL else "area" if head in AREA else "program" if head == "call" else "label"
    taken = tree.items[2:] if head.endswith("-and-jump") else tree.items[1:]
    yield from (mention(kind, scope if kind in ("variable", "label") else "", it) for it in taken if it.text and not it.text.isdigit())
    yield from (one for it in tree.items[1:] for one in of_word(it))


def of_word(tree):
    kind = {"addr": "area", "pc": "program", "subr": "program"}.get(tree.head())
    if kind and tree.item(1).text:
        yield mention(kind, "", tree.item(1))


def outline(data):
    tree = tree_of(data)
    yield from (part("area", it, it.item(0), spelled(it, 60)) for it in tree.item(5).parts() if it.item(0).text)
    for it in programs(tree):
        labels = [part("label", one, one.item(1), spelled(one.item(3), 60)) for one in it.items[FIRST_INSTRUCTION:] if one.head() == "dl" and one.item(1).text]
        if it.item(0).text:
            yield part("procedure", it, it.item(0), spelled(it.item(1), 60), labels)


def said_of(data, one):
    """What is said of a name, in Markdown."""
    if one.kind == "operation":
        yield f"**{one.name}**"
        yield manual.operations().get(one.name, "")
        code, words = manual.codes().get(one.name, ("", 0))
        yield f"On the processor, {words} words:\n```\n{code.replace('; ', chr(10))}\n```" if words else ""
    else:
        declared = declaration_of(list(mentions(data)), one)
        yield f"**{one.kind}** `{declared.detail}`" if declared else f"**{one.name}** isn't declared."


def offers(data, place):
    """Instructions, and the names of the program round a place."""
    names = list(mentions(data))
    heads = [it for it in names if it.kind == "program" and it.declares and it.place <= place]
    scope = heads[-1].name if heads else ""
    yield from (Offer("predefined", name, name, said.split(":")[0], said) for name, said in manual.operations().items())
    yield from (Offer(it.kind, it.name, it.name, it.detail) for it in names if it.declares and it.scope in ("", scope))
