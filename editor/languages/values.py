"""Values files: docs/languages/values.md. Their names are declared in a source, which lies beside them."""
import beside  # noqa: F401
from languages import mention, part
from trees import spelled, tree_of


def mentions(data):
    """The names of the entries."""
    return (mention("value", "", it.item(0)) for it in tree_of(data).parts() if it.item(0).text)


def outline(data):
    return (part("variable", it, it.item(0), spelled(it.item(1), 60)) for it in tree_of(data).parts() if it.item(0).text)


def said_of(data, one):
    value = next(it.item(1) for it in tree_of(data).parts() if it.item(0).place == one.place)
    characters = [it.text for it in value.parts()]
    if characters and all((it or "")[:1] == "#" and it[1:].isdigit() and int(it[1:]) < 128 for it in characters):
        yield f'As a text: `"{"".join(chr(int(it[1:])) for it in characters)}"`'


def offers(_data, _place):
    return ()
