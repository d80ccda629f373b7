"""What an editor asks of a word in a text: what is said of it, where it is declared and used, and what may stand at a place."""
from functools import lru_cache

import beside  # noqa: F401
from asking import Unjudged
from documents import Document, address_of, sources_of
from ends import shown
from languages import assembly, declaration_of, gypsy, infix, same

# Of a source with more bytes it takes seconds to tell which code is a statement's.
LARGE = 100_000
# The numbers that editors have for what stands in an outline, and for what may come at a place.
OUTLINED = {"procedure": 12, "program": 12, "variable": 13, "value": 13, "condition": 24, "area": 18, "label": 20}
OFFERED = {"procedure": 3, "predefined": 3, "program": 3, "form": 14, "variable": 6, "condition": 20, "type": 25, "label": 18, "area": 6}


class Words:
    """A part of the language server, which has `asker` and `documents`."""

    def __init__(self, asker):
        # Whether the editor fills in the arguments of what it puts in.
        self.fills = False
        self.code_of, self.image_of = lru_cache(4)(asker.code_of), lru_cache(4)(asker.image_of)

    def asked(self, params):
        """The text and the name in it that an editor asks of."""
        document = self.documents[params["textDocument"]["uri"]]
        return document, document.mention(params["position"])

    # ---- What is said of a word ----

    def on_textDocument_hover(self, params):
        document, one = self.asked(params)
        if one is None:
            return None
        said = [it for it in document.module.said_of(document.data, one) if it]
        if document.language == "values":
            said[:0] = self.formal(document, one)
        elif document.language == "asm" and one.kind == "operation":
            said += self.word_of_line(document, one.place)
        elif document.language == "gypsy" and one.kind in ("form", "predefined"):
            said += list(self.generated(document, one)) or [gypsy.template(one)]
        if not said:
            return None
        return {"contents": {"kind": "markdown", "value": shown("\n\n".join(said))}, "range": document.text.range(one.place, one.end)}

    def generated(self, document, one):
        """The Piton that a statement becomes here. Of a large source that takes too long, and of one that is refused there is none."""
        statement = gypsy.statement_at(document.data, one.place) if len(document.data) <= LARGE else None
        try:
            code = self.code_of(document.data) if statement else None
        except Unjudged:
            return
        rows = code.of_statement(statement.place) if code else []
        if rows:
            lines = "\n".join(f"{it.label + ':' if it.label else '':5} {it.text}" for it in rows)
            yield f"Here, without the statements in it, {len(rows)} instructions of Piton, {sum(it.words for it in rows)} words:\n```\n{lines}\n```"

    def word_of_line(self, document, place):
        """The word that a line of an assembly text becomes, with its address."""
        before = [it for it in assembly.words(document.data) if it <= place]
        try:
            image = self.image_of(document.data)
        except Unjudged:
            return
        if image and before and document.text.line_of(before[-1]) == document.text.line_of(place):
            address = image.base + len(before) - 1
            yield f"Here the word `{image.word(address).number:08x}` at the address `{address:08x}`."

    def formal(self, document, one):
        """How the variable of a value is declared."""
        for path in sources_of(document.path, document.data):
            module = infix if path.suffix == ".mini" else gypsy
            declared = [it for it in module.mentions(self.content(path)) if is_variable(it, one.name)]
            if declared:
                return [f"**variable** `{declared[0].detail}`, in {path.name}"]
        return []

    # ---- Where names are ----

    @staticmethod
    def locations(document, mentions):
        return [{"uri": document.address, "range": document.text.range(it.place, it.end)} for it in mentions]

    def on_textDocument_definition(self, params):
        document, one = self.asked(params)
        if one and document.language == "values":
            return self.definition_of_value(document, one)
        declared = declaration_of(document.mentions, one) if one else None
        return self.locations(document, [declared] if declared else [])

    def definition_of_value(self, document, one):
        """Where a source declares the variable of a value."""
        for path in sources_of(document.path, document.data):
            source = Document(address_of(path), path.suffix[1:], self.content(path))
            declared = [it for it in source.mentions if is_variable(it, one.name)]
            if declared:
                return self.locations(source, declared[:1])
        return []

    def on_textDocument_references(self, params):
        document, one = self.asked(params)
        return self.locations(document, same(document.mentions, one) if one else [])

    def on_textDocument_documentHighlight(self, params):
        document, one = self.asked(params)
        return [{"range": document.text.range(it.place, it.end)} for it in (same(document.mentions, one) if one else [])]

    def on_textDocument_rename(self, params):
        document, one = self.asked(params)
        mentions = document.mentions
        if one is None or declaration_of(mentions, one) is None:
            raise ValueError("here is no name that is declared in this text")
        edits = [{"range": document.text.range(it.place, it.end), "newText": params["newName"]} for it in same(mentions, one)]
        return {"changes": {document.address: edits}}

    def on_textDocument_documentSymbol(self, params):
        document = self.documents[params["textDocument"]["uri"]]
        return [symbol(document, it) for it in document.module.outline(document.data)] if document.module else []

    # ---- What may come ----

    def on_textDocument_completion(self, params):
        document = self.documents[params["textDocument"]["uri"]]
        if document.module is None:
            return []
        offers = {it.label: it for it in document.module.offers(document.data, document.text.place(params["position"]))}
        return [self.item(it) for it in offers.values()]

    def item(self, it):
        """What may come, as an editor takes it."""
        made = {"label": shown(it.label), "kind": OFFERED[it.kind], "detail": shown(it.detail)}
        if self.fills and it.insert != it.label:
            made |= {"insertText": it.insert, "insertTextFormat": 2}
        return made | ({"documentation": {"kind": "markdown", "value": shown(it.said)}} if it.said else {})


def is_variable(mention, name):
    """Whether a variable of this name is declared here."""
    return mention.kind == "variable" and mention.declares and mention.name == name


def symbol(document, it):
    """A part of an outline, as an editor takes it."""
    return {
        "name": shown(it.name), "kind": OUTLINED[it.kind], "detail": shown(it.detail), "range": document.text.range(it.place, it.end),
        "selectionRange": document.text.range(it.name_place, it.name_end), "children": [symbol(document, one) for one in it.parts],
    }
