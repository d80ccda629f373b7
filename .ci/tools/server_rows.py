"""What the language server tells, beside what the program says and what the documents have."""
import re
import tempfile
from pathlib import Path

from editor_clients import EXAMPLES, TOP, Language
from positions import Text

import explain
import manual

# A text for each language with what is wrong in it: its name, its text, and what stands at the place that is told, with its rule.
WRONG = [
    ("a.gypsy", "(program main\n(proc main ((x integer)) () () ()\n(mg-integer-add x x 1)))\n", "S23", "1"),
    ("b.gypsy", "; \u00fc \U0001d54f\n(program main (proc main ((x integer)) () () () (mg-integr-add x x x)))\n", "M9", "(mg-integr-add x x x)"),
    ("c.gypsy", "(program main\n(proc main () () () () (no-op))", "G2", "(program main"),
    ("a.piton", "(piton main 9 9 0 () ()\n(main () () (jump l) (ret)))", "Q7", "l"),
    ("a.mini", "int x;\nx := x + y;\n", "Y6", "y"),
    ("a.asm", ".base 0\n.size 4\n.final 1\n.start 0\nMOVE r16,r0\n", "A2", "MOVE r16,r0"),
    ("a.script", "show\nstep ten\n", "D3", "step ten"),
    ("e.gypsy", "(program main (proc main ((x integer)) () () () (no-op)))\n", None, ""),
    ("e.values", "((x 1)\n (y 2))\n", "V2", "(y 2)"),
    ("f.values", "; for e.gypsy\n((x true))\n", "V5", "(x true)"),
    ("a.values", "((y 2))\n", None, ""),
]


def of_findings(program):
    """The server tells what the program says, at its place, and nothing of a text that is right."""
    rows = [*WRONG, ("g.gypsy", ";" * 1_048_577, "size", ";")]
    with tempfile.TemporaryDirectory() as room, Language(program) as editor:
        for name, text, rule, stands in rows:
            (Path(room) / name).write_text(text)
        for name, text, rule, stands in rows:
            path = Path(room) / name
            editor.open(path)
            found = editor.found(path)
            if rule is None:
                if found:
                    yield f"{name}: told is {found}, and nothing is wrong"
                continue
            told, held = (found or [{"code": None, "range": None, "message": ""}])[0], Text(text.encode())
            span = told["range"] and (held.place(told["range"]["start"]), held.place(told["range"]["end"]))
            if told["code"] != rule or not span or text.encode()[slice(*span)].decode() != stands:
                yield f"{name}: told is {told['code']} at {span}, wanted {rule} at {stands!r}"
            elif explain.plain(explain.rows_of_page()[0].get(rule, "")) not in told["message"]:
                yield f"{name}: {told['message']!r} isn't the sentence of {rule}"
        # What is put in where something else was meant, and the text that is right then.
        path, text = Path(room) / "b.gypsy", WRONG[1][1]
        editor.open(path)
        found = editor.found(path)
        offered = editor.ask("textDocument/codeAction", textDocument={"uri": path.as_uri()}, range=found[0]["range"], context={"diagnostics": found})
        edits = [it["edit"]["changes"][path.as_uri()][0] for it in offered]
        held = Text(text.encode())
        spans = {held.data[held.place(it["range"]["start"]):held.place(it["range"]["end"])] for it in edits}
        if "mg-integer-add" not in [it["newText"] for it in edits] or spans != {b"mg-integr-add"}:
            yield f"b.gypsy: put in are {offered}"
        content = text.replace("integr", "integer")
        editor.note("textDocument/didChange", textDocument={"uri": path.as_uri(), "version": 2}, contentChanges=[{"text": content}])
        if editor.found(path):
            yield "b.gypsy: something is told when the name is right"


def of_examples(program):
    """Nothing is told of any example, and its outline has its names."""
    with Language(program) as editor:
        paths = [it for it in sorted(EXAMPLES.rglob("*")) if it.suffix[1:] in ("gypsy", "piton", "mini", "asm", "values", "script")]
        for path in paths:
            editor.open(path)
        for path in paths:
            found = editor.found(path)
            if found:
                yield f"{path.name}: told is {found[0]['code']} {found[0]['message']}"
        for path in paths:
            outline = editor.ask("textDocument/documentSymbol", textDocument={"uri": path.as_uri()})
            if not outline and path.suffix in (".gypsy", ".piton", ".mini"):
                yield f"{path.name} has no outline"


def of_words(program):
    """What is said at words, where they are declared, and what may come."""
    down, sum_values, program_text = EXAMPLES / "calls/down.gypsy", EXAMPLES / "arrays/sum.values", (EXAMPLES / "calls/down.gypsy").read_text()
    with Language(program) as editor:
        for path in (down, sum_values):
            editor.open(path)
        place = program_text.rindex("(call p") + 6
        told = editor.at("definition", down, place)
        if [it["range"]["start"] for it in told] != [Text(down.read_bytes()).position(program_text.index("(proc p") + 6)]:
            yield f"p is declared at {told}"
        count = len(editor.at("references", down, place, context={"includeDeclaration": True}))
        if count != 3:
            yield f"p stands at {count} places, wanted 3"
        said = editor.at("hover", down, program_text.index("mg-integer-subtract"))["contents"]["value"]
        for wanted in ("d := x - y", "60 instructions (19 steps of Piton); fault 54 instructions", "(call mg-integer-subtract)", "doesn't fit 32 signed bits"):
            if wanted not in said:
                yield f"mg-integer-subtract: {wanted!r} isn't said in {said!r}"
        said = editor.at("hover", down, program_text.index("one integer"))["contents"]["value"]
        if "one integer, a local of p, at first 1" not in said:
            yield f"one: {said!r}"
        offered = {it["label"] for it in editor.at("completion", down, program_text.index("(no-op)") + 1)}
        if not set(manual.predefined()) <= offered:
            yield f"offered are {sorted(offered)}"
        edits = editor.at("rename", down, program_text.index("one integer"), newName="unit")["changes"][down.as_uri()]
        if len(edits) != 2:
            yield f"one is renamed at {len(edits)} places, wanted 2"
        inc = EXAMPLES / "conditions/inc.gypsy"
        editor.open(inc)
        text = inc.read_text()
        for name, wanted in (("(big))", 2), ("signal over", 2), ("routineerror", 1)):
            count = len(editor.at("references", inc, text.index(name) + (7 if name[0] == "s" else 1), context={"includeDeclaration": True}))
            if count != wanted:
                yield f"the condition at {name} stands at {count} places, wanted {wanted}"
        added = EXAMPLES / "assembly/sum.asm"
        editor.open(added)
        said = editor.at("hover", added, added.read_text().index("MOVE r2,#0"))["contents"]["value"]
        if "Here the word `00e00a00` at the address `00000002`." not in said:
            yield f"MOVE r2,#0: {said!r}"
        told = editor.at("definition", sum_values, sum_values.read_text().index("sum"))
        if [it["uri"] for it in told] != [(EXAMPLES / "arrays/sum.gypsy").as_uri()]:
            yield f"sum of sum.values is declared at {told}"


def of_places(_):
    """Places and positions of a text with characters of all lengths."""
    text = "; \u00e4\u20ac\U0001d54f\U0001d54f end\r\n(a \U0001d54f b)\n\nlast"
    held, place, line, column = Text(text.encode()), 0, 0, 0
    for character in text:
        position = {"line": line, "character": column}
        # Between the two bytes of a line's end nothing stands.
        if held.position(place) != position or (held.place(position) != place and character != "\n"):
            yield f"place {place} is {held.position(place)} and comes back as {held.place(position)}, wanted {position}"
        place += len(character.encode())
        line, column = (line + 1, 0) if character == "\n" else (line, column + len(character.encode("utf-16-le")) // 2)


def of_colours(_):
    """The colours of each editor know the words that the documents have."""
    files = {"gypsy": list(manual.predefined()), "piton": list(manual.operations()), "fm9001": list(manual.machine_operations())}
    for language, words in files.items():
        for path in (f"vim/syntax/{language}.vim", f"code/syntaxes/{language}.tmLanguage.json", f"kate/{language}.xml"):
            text = (TOP / "editor" / path).read_text().replace("\\\\", "\\").replace("\\*", "*")
            missing = [it for it in words if not re.search(rf"(?<![\w-]){re.escape(it)}(?![\w-])", text)]
            if missing:
                yield f"{path} doesn't know {', '.join(missing)}"
