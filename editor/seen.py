"""What an editor sees of a run, by its debug adapter: the stack, variables and counts, the answers of the console, the code and memory."""
import base64
from pathlib import Path

from breakpoints import ACTIVATION, Wrong
from frames import Memory
from moments import LEVELS

THREAD = 1
# What the variables of a moment are shown under, by their reference, beside those of activations.
SCOPES = {1: "Counts", 2: "Piton", 3: "Processor", 4: "Temporary stack", 5: "Control stack"}
# So many words of a stack are shown, from its top on; and so many words and instructions at most are given at a time.
SHOWN, MOST = 4096, 65536


class Seen:
    """A part of the adapter, which has the run and where it stands."""

    def on_threads(self, _):
        return {"threads": [{"id": THREAD, "name": f"the run, at the level {self.walk.level}"}]}

    def on_stackTrace(self, arguments):
        if not self.frames:
            self.frames = list(self.stack())
        first = arguments.get("startFrame") or 0
        many = arguments.get("levels") or len(self.frames)
        return {"stackFrames": self.frames[first:first + many], "totalFrames": len(self.frames)}

    def stack(self):
        """The frames: where the run stands at the lower levels that are looked at, and then the activations of the source."""
        moment, number = self.walk.moment, 0
        address = self.walk.address()
        low = {} if address is None else {"instructionPointerReference": hex(address)}
        if self.walk.level == "fm9001" and address in self.listing_lines:
            number += 1
            spot = {"line": self.listing_lines[address] - 1 + self.lines_from, "column": self.columns_from}
            yield {"id": number, "name": f"{self.run.code.shown_word(address)}  after {moment.count}"} | spot | self.file(self.listing) | low
        instruction = self.walk.instruction() if self.walk.level != "gypsy" else None
        if instruction:
            number += 1
            name = f"{instruction.program} {instruction.number}  {instruction.text}"
            yield {"id": number, "name": name} | self.spot("piton", instruction.place) | self.file(self.piton) | low
        for depth, it in enumerate(self.walk.activations()):
            spot = self.spot("gypsy", it.place) | self.file(self.source) | (low if number + depth == 0 else {})
            yield {"id": ACTIVATION + depth, "name": it.procedure} | spot

    def on_scopes(self, arguments):
        frame = arguments["frameId"]
        scopes = []
        if frame >= ACTIVATION:
            scopes.append({"name": "Variables", "presentationHint": "locals", "variablesReference": frame, "expensive": False})
        if frame <= ACTIVATION:
            order = {"gypsy": (1, 2, 3, 4, 5), "piton": (2, 1, 3, 4, 5), "fm9001": (3, 1, 2, 4, 5)}[self.walk.level]
            scopes += [{"name": SCOPES[it], "variablesReference": it, "expensive": it > 3} for it in order]
        return {"scopes": scopes}

    def on_variables(self, arguments):
        reference = arguments["variablesReference"]
        rows = self.rows_of(reference)
        return {"variables": [{"name": name, "value": value, "variablesReference": 0} | more for name, value, more in rows]}

    def rows_of(self, reference):
        moment = self.walk.moment
        if reference >= ACTIVATION:
            shown = self.walk.activations()[reference - ACTIVATION].variables
            yield from ((name, value, {"evaluateName": name}) for name, value in shown)
        elif reference == 1:
            yield "condition", self.walk.condition() or "normal", {}
            yield from ((f"steps, {it}", self.walk.counted(it), {}) for it in LEVELS)
        elif reference == 2:
            yield from ((name, value, {}) for name, value in (it.split(" = ", 1) for it in self.walk.piton() if " = " in it))
            yield from (("stack", it.removeprefix("stack").strip(), {}) for it in self.walk.piton() if it.startswith("stack"))
        elif not self.walk.is_near("fm9001"):
            yield "far into the run", "level fm9001 shows it", {}
        elif reference == 3:
            memory = Memory(self.run, moment.count)
            yield from ((f"r{number}", f"{word:08x}", {"memoryReference": hex(word)}) for number, word in enumerate(memory.registers))
            yield "flags", memory.flags, {}
        else:
            memory, between = Memory(self.run, moment.count), self.run.image.condition + 1 + self.run.program.sizes[0]
            top, end = (memory.registers[2], self.run.image.end) if reference == 4 else (memory.registers[1], between)
            words = memory.read(top, min(end - top, SHOWN)) if top < end else []
            yield from ((f"{top + it:08x}", f"{word:08x}", {"memoryReference": hex(top + it)}) for it, word in enumerate(words))

    def on_evaluate(self, arguments):
        """A variable, or a line of a script of docs/program/debug.md as if it stood here, or `level LEVEL`, `goto STEPS`."""
        text = arguments["expression"].strip()
        word, _, rest = text.partition(" ")
        frame = max(arguments.get("frameId", ACTIVATION), ACTIVATION)
        found = self.walk.activations() if self.run else []
        variables = dict(found[frame - ACTIVATION].variables) if frame - ACTIVATION < len(found) else {}
        if text in variables:
            return {"result": variables[text], "variablesReference": 0}
        if arguments.get("context") == "hover":
            raise Wrong(f"{text} is no variable here")
        if word == "level" and rest in LEVELS:
            self.level = rest
            self.walk.look_at(rest)
            self.after = lambda: self.stopped("step")
            return {"result": f"{rest}, {self.walk.moment.steps} steps", "variablesReference": 0}
        if word == "goto" and rest.isascii() and rest.isdigit():
            return self.moving(lambda: self.walk.at(self.walk.level, int(rest))) | {"result": "", "variablesReference": 0}
        if word in ("show", "up", "words", "until", "step"):
            # Words are those of the processor's memory, wherever the run is looked at.
            level, steps = ("fm9001", self.walk.moment.count) if word == "words" else (self.walk.level, self.walk.moment.steps)
            return {"result": self.run.said(level, steps, text), "variablesReference": 0}
        raise Wrong(f"{text} is no variable here, and none of: level LEVEL, goto STEPS, show, up, words ADDRESS N, until PLACE N, step N")

    # ---- Words ----

    def on_disassemble(self, arguments):
        address = int(arguments["memoryReference"], 0) + arguments.get("offset", 0) + arguments.get("instructionOffset", 0)
        return {"instructions": [self.disassembled(it) for it in range(address, address + min(arguments["instructionCount"], MOST))]}

    def disassembled(self, address):
        if address not in self.run.image.words:
            return {"address": hex(max(address, 0)), "instruction": "(no word of the image)", "presentationHint": "invalid"}
        word, instruction = self.run.image.words[address], self.run.code.by_address.get(address)
        made = {"address": f"0x{address:08x}", "instructionBytes": f"{word.number:08x}", "instruction": self.run.code.shown_word(address)}
        place = self.run.code.place_at(address)
        if instruction:
            made["symbol"] = f"{instruction.program} {instruction.number} {instruction.text}"
        if place is not None:
            made |= self.spot("gypsy", place) | {"location": self.file(self.source)["source"]}
        return made

    def on_readMemory(self, arguments):
        byte = int(arguments["memoryReference"], 0) * 4 + arguments.get("offset", 0)
        first, many = byte // 4, min(-(-(arguments["count"] + byte % 4) // 4), MOST)
        words = Memory(self.run, self.walk.moment.count).read(first, many) if many > 0 <= first else []
        within = words[:words.index(None)] if None in words else words
        content = b"".join(it.to_bytes(4, "big") for it in within)[byte % 4:][:arguments["count"]]
        return {"address": hex(byte // 4), "data": base64.b64encode(content).decode(), "unreadableBytes": arguments["count"] - len(content)}

    def on_source(self, arguments):
        return {"content": Path(arguments["source"]["path"]).read_text(encoding="utf-8", errors="replace")}

    def on_loadedSources(self, _):
        return {"sources": [self.file(it)["source"] for it in (self.source, self.piton, self.listing)]}
