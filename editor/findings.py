"""What is wrong with the texts that an editor holds, as the program says it, and what may be put in instead."""
import re

import beside
from asking import Unjudged
from documents import address_of, sources_of
from ends import shown

# How much a finding matters to an editor: what the program refuses, and that it said nothing of a text.
ERROR, INFORMATION = 1, 3
NO_FINDING = (None, None)
FIRST_WORD = re.compile(rb"\(?\s*([^\s();]+)")


class Findings:
    """A part of the language server, which has `asker`, `documents`, and `send_note`."""

    def judge_text(self, address):
        """Tells the editor what is wrong with a text, or that the program says nothing of it."""
        document = self.documents[address]
        try:
            found, source = self.judge(document)
            diagnostics = [self.diagnostic(document, found, source)] if found else []
        except Unjudged as unjudged:
            said = f"This text isn't judged: {unjudged}"
            diagnostics = [{"range": document.text.range(0, document.end_of(0)), "severity": INFORMATION, "source": "stack", "message": shown(said)}]
        self.publish(address, diagnostics)

    def judge(self, document):
        """What a text breaks, and by which source that was judged."""
        if document.language != "values":
            return self.asker.judge(document.language, document.data), None
        paths, found = sources_of(document.path, document.data), []
        for path in paths:
            try:
                found.append((self.asker.judge_values(document.data, self.content(path)), path))
            except (Unjudged, OSError) as fault:
                # If there are other sources, one of them may be meant.
                if len(paths) == 1:
                    raise Unjudged(f"{fault} ({path.name})") from None
                continue
            if found[-1][0] is None:
                return found[-1]
        # If several sources refuse the values, the one counts that comes furthest.
        return max(found, key=lambda it: it[0].place, default=NO_FINDING)

    def content(self, path):
        """The text of a file, as the editor holds it."""
        held = self.documents.get(address_of(path))
        return held.data if held else path.read_bytes()

    def diagnostic(self, document, found, source):
        """A finding, as an editor takes it."""
        said = " ".join([found.said, *found.hints]) + (f" Judged for {source.name}." if source else "")
        page = address_of(beside.TOP / "docs/program/errors.md")
        return {
            "range": document.text.range(found.place, document.end_of(found.place)), "severity": ERROR, "source": "stack", "code": found.rule,
            "codeDescription": {"href": page}, "message": shown(said),
        }

    def publish(self, address, diagnostics):
        """Replaces what the editor shows of a text."""
        self.send_note("textDocument/publishDiagnostics", uri=address, diagnostics=diagnostics)

    def on_textDocument_codeAction(self, params):
        """Puts in what was meant, if a hint tells that."""
        address, actions = params["textDocument"]["uri"], []
        for it in params["context"]["diagnostics"]:
            for meant in re.findall(r"Was ([^?]*) meant\?", it["message"]):
                for name in meant.split(" or "):
                    edit = {"changes": {address: [{"range": first_word(self.documents[address], it["range"]), "newText": name}]}}
                    actions.append({"title": f"Put in {name}", "kind": "quickfix", "diagnostics": [it], "edit": edit})
        return actions


def first_word(document, span):
    """The name at the beginning of a range, which may be the head of a list."""
    found = FIRST_WORD.match(document.data, document.text.place(span["start"]))
    return document.text.range(found.start(1), found.end(1)) if found else span
