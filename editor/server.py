"""A language server for Micro-Gypsy, Piton, the infix language, values, assembly texts and debug scripts, over standard input and output.

    server.py PROGRAM

What is wrong with a text is what PROGRAM, the proved one, says of it, and nothing else: it tells one breach, the least. What is said of a word is what
the documents say. `./stack editor server` starts it.
"""
import re
import sys

import beside
from asking import Asker
from documents import Document
from ends import end, shown, tell
from findings import Findings
from wire import Lost, Quiet, Unreadable, Wire
from words import Words

# So long nothing is asked of a text that is being written, in seconds.
REST = 0.15
CAPABILITIES = {
    "textDocumentSync": {"openClose": True, "change": 1}, "hoverProvider": True, "definitionProvider": True, "referencesProvider": True,
    "documentHighlightProvider": True, "renameProvider": True, "documentSymbolProvider": True, "completionProvider": {"triggerCharacters": ["("]},
    "codeActionProvider": {"codeActionKinds": ["quickfix"]},
}
# The numbers of the protocol for what can't be answered, and for what a person is to read.
NO_JSON, NO_METHOD, FAILED = -32700, -32601, -32803
ERROR, WARNING = 1, 2


class Server(Findings, Words):
    """Answers an editor. Whatever fails in one message, the next one is answered."""

    def __init__(self, program, wire):
        self.asker = Asker(program)
        Words.__init__(self, self.asker)
        # `stale` are the texts that are to be judged, in the order in which they changed.
        self.wire, self.documents, self.stale, self.has_shut_down = wire, {}, {}, False

    def serve(self):
        """Answers until the editor leaves, and judges texts while it is quiet. The status is 0 if it said before that it would leave."""
        rest = None
        while True:
            try:
                message = self.wire.receive(rest)
            except Quiet:
                self.judge_next()
                rest = 0 if self.stale else None
                continue
            except Unreadable as fault:
                self.send(id=None, error={"code": NO_JSON, "message": str(fault)})
                continue
            except Lost as lost:
                tell(f"the editor is left: {lost}")
                return 1
            if message is None or message.get("method") == "exit":
                return 0 if self.has_shut_down else 1
            self.take(message)
            rest = REST if self.stale else None

    def take(self, message):
        """Carries out a request, which is answered, or a note, which isn't. What answers a request of this side has no method."""
        method = message.get("method")
        if not isinstance(method, str):
            return
        act = getattr(self, "on_" + re.sub(r"\W", "_", method), None)
        params = message.get("params")
        try:
            answer = {"result": act(params if isinstance(params, dict) else {})} if act else no_method(method)
        except Exception as fault:
            answer = {"error": {"code": FAILED, "message": shown(told(method, fault))}}
        if "id" in message:
            self.send(id=message["id"], **answer)
        elif act and "error" in answer:
            self.log(ERROR, answer["error"]["message"])

    def judge_next(self):
        """Judges the text that waits longest."""
        address = next(iter(self.stale), None)
        if address is None:
            return
        del self.stale[address]
        try:
            self.judge_text(address)
        except Exception as fault:
            self.log(ERROR, told(self.documents[address].path.name, fault))

    def send(self, **message):
        self.wire.send({"jsonrpc": "2.0"} | message)

    def send_note(self, method, **params):
        self.send(method=method, params=params)

    def log(self, kind, text):
        self.send_note("window/logMessage", type=kind, message=shown(text))

    # ---- The life of the server and of texts ----

    def on_initialize(self, params):
        item = params.get("capabilities", {}).get("textDocument", {}).get("completion", {}).get("completionItem", {})
        self.fills = item.get("snippetSupport", False)
        return {"capabilities": CAPABILITIES, "serverInfo": {"name": "the verified short stack"}}

    def on_initialized(self, _):
        if beside.is_unproved():
            self.send_note("window/showMessage", type=WARNING, message=beside.UNPROVED)

    def on_shutdown(self, _):
        self.has_shut_down = True

    def on_textDocument_didOpen(self, params):
        it = params["textDocument"]
        self.hold(it["uri"], it.get("languageId"), it["text"])

    def on_textDocument_didChange(self, params):
        address = params["textDocument"]["uri"]
        self.hold(address, self.documents[address].language, params["contentChanges"][-1]["text"])

    def on_textDocument_didClose(self, params):
        address = params["textDocument"]["uri"]
        self.documents.pop(address, None)
        self.stale.pop(address, None)
        self.publish(address, [])

    def hold(self, address, language, text):
        """Has a text as it is now, and judges it when the editor is quiet."""
        self.documents[address] = Document(address, language, text.encode("utf-8", "replace"))
        # Values are judged by a source, which may be another one now.
        self.stale |= {it: True for it, one in self.documents.items() if it == address or one.language == "values"}


def no_method(method):
    return {"error": {"code": NO_METHOD, "message": shown(f"there is no {method} here")}}


def told(what, fault):
    """What is said of a fault, on one line: of a part that a message lacks its name."""
    said = str(fault) or type(fault).__name__
    if isinstance(fault, KeyError):
        said = f"it has no {fault}"
    elif isinstance(fault, (TypeError, AttributeError)):
        said = f"a part of it has another form ({fault})"
    return f"{what} can't be answered: {said}".replace("\n", " ")


if __name__ == "__main__":
    end(lambda: Server(sys.argv[1], Wire()).serve())
