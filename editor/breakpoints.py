"""The breakpoints of a debug adapter: at a line or a statement, at a procedure, at an address, and where a condition leaves a procedure."""
import re
from pathlib import Path

from positions import Text
from seeking import Target

# The reference of the variables of the newest activation, behind which those of the others are.
ACTIVATION = 100
FILTERS = [{"filter": "conditions", "label": "A condition leaves a procedure", "default": False}]
CONDITION = re.compile(r"\s*(\S+)\s*(<=|>=|==|!=|=|<|>)\s*(\S.*?)\s*")
COMPARE = {
    "=": lambda a, b: a == b, "==": lambda a, b: a == b, "!=": lambda a, b: a != b, "<": lambda a, b: a < b, "<=": lambda a, b: a <= b,
    ">": lambda a, b: a > b, ">=": lambda a, b: a >= b,
}


class Wrong(Exception):
    """A request that can't be answered, with what is told of it."""


def number_of(text):
    """A value that can be compared: a number if it is one."""
    digits = text.lstrip("#")
    return int(digits) if re.fullmatch(r"-?\d+", digits) else text


def holds(text):
    """What has to hold of what `show` says, by a condition as `n = 3`."""
    found = CONDITION.fullmatch(text)
    if not found:
        raise Wrong(f"a condition is NAME = VALUE, or with <, <=, >, >= or != between them, and not {text}")
    name, sign, wanted = found.groups()

    def judge(shown):
        values = dict(it.split(" = ", 1) for it in shown if " = " in it)
        if name not in values:
            return False
        one, other = number_of(values[name]), number_of(wanted)
        return COMPARE[sign](one, other) if isinstance(one, type(other)) else False

    return judge


class Breakpoints:
    """The texts of a run's levels and the breakpoints in them: a part of the adapter, which has the run, and how its editor counts lines and columns."""

    def write_texts(self):
        """Files for the levels that have no file of their own: the Piton, a line for each instruction, and the words."""
        run, stem = self.run, self.run.source.stem
        self.source = run.source
        self.piton, self.listing = run.folder / f"{stem}.piton", run.folder / f"{stem}.listing"
        self.piton.write_bytes(run.pit)
        self.listing_lines, lines, entries = {}, [], dict(run.code.entries)
        for address in sorted(run.image.words):
            instruction = run.code.by_address.get(address)
            if address in entries:
                lines.append(f"; {entries[address]}")
            if instruction:
                lines.append(f"; {instruction.label + ': ' if instruction.label else ''}{instruction.text}")
            lines.append(f"{address:08x}  {run.image.words[address].number:08x}  {run.code.shown_word(address)}")
            self.listing_lines[address] = len(lines)
        self.listing.write_text("\n".join(lines) + "\n", encoding="utf-8")
        self.of_line = {line: address for address, line in self.listing_lines.items()}
        self.texts = {"gypsy": run.shown_text, "piton": Text(run.pit)}

    @staticmethod
    def file(path):
        return {"source": {"name": Path(path).name, "path": str(path)}}

    def on_setBreakpoints(self, arguments):
        path, wanted = arguments["source"].get("path", ""), arguments.get("breakpoints") or []
        found = [self.point(path, it) for it in wanted]
        self.points[path] = [it for it, _ in found if it]
        return {"breakpoints": [told for _, told in found]}

    def point(self, path, wanted):
        """A target for a line, and what is told of it."""
        try:
            condition = holds(wanted["condition"]) if wanted.get("condition") else None
        except Wrong as wrong:
            return None, {"verified": False, "message": str(wrong)}
        line = wanted["line"] - self.lines_from
        if self.is_same(path, self.source):
            places = self.run.stops_of(line)
            if not places:
                return None, {"verified": False, "message": "no statement stands here or behind"}
            place = self.of_column(places, line, wanted.get("column"))
            return Target("gypsy", place, condition), {"verified": True} | self.spot("gypsy", place)
        if self.is_same(path, self.piton):
            rows = [it for it in self.run.code.by_address.values() if self.texts["piton"].line_of(it.place) >= line]
            if rows:
                first = min(rows, key=lambda it: it.place)
                return Target("piton", f"{first.program} {first.number}", condition), {"verified": True} | self.spot("piton", first.place)
        if self.is_same(path, self.listing):
            address = next((self.of_line[it] for it in range(line + 1, len(self.of_line) * 3 + 1) if it in self.of_line), None)
            if address is not None:
                return Target("fm9001", address), {"verified": True, "line": self.listing_lines[address] - 1 + self.lines_from}
        return None, {"verified": False, "message": "this is no text of the run"}

    def of_column(self, places, line, column):
        """The first of the statements on a line, or the last one up to a column of the line that was meant."""
        if column is None or self.run.line(places[0]) != line:
            return places[0]
        until = self.run.shown_text.place({"line": line, "character": column - self.columns_from})
        spot = max((self.run.spot(it) for it in places if self.run.spot(it) <= until), default=self.run.spot(places[0]))
        return next(it for it in places if self.run.spot(it) == spot)

    @staticmethod
    def is_same(path, other):
        return Path(path).resolve() == Path(other).resolve()

    def spot(self, level, place):
        position = self.texts[level].position(self.run.spot(place) if level == "gypsy" else place)
        return {"line": position["line"] + self.lines_from, "column": position["character"] + self.columns_from}

    def on_breakpointLocations(self, arguments):
        path, first = arguments["source"].get("path", ""), arguments["line"]
        last = arguments.get("endLine", first)
        if not self.is_same(path, self.source):
            return {"breakpoints": []}
        spots = sorted({(it["line"], it["column"]) for it in (self.spot("gypsy", place) for place in self.run.places)})
        return {"breakpoints": [{"line": line, "column": column} for line, column in spots if first <= line <= last]}

    def on_setFunctionBreakpoints(self, arguments):
        made = []
        self.points["procedures"] = []
        for it in arguments["breakpoints"]:
            place = self.first_of(it["name"])
            made.append({"verified": place is not None} | (self.spot("gypsy", place) if place is not None else {"message": "no procedure has this name"}))
            if place is not None:
                self.points["procedures"].append(Target("gypsy", place, holds(it["condition"]) if it.get("condition") else None))
        return {"breakpoints": made}

    def first_of(self, name):
        """The place at which a procedure begins."""
        marks = [(address, place) for address, of, place in self.run.image.marks if of == name]
        return min(marks)[1] if marks else None

    def on_setInstructionBreakpoints(self, arguments):
        addresses = [int(it["instructionReference"], 0) + it.get("offset", 0) for it in arguments["breakpoints"]]
        self.points["addresses"] = [Target("fm9001", it) for it in addresses]
        return {"breakpoints": [{"verified": it in self.run.image.words, "instructionReference": hex(it)} for it in addresses]}

    def on_setExceptionBreakpoints(self, arguments):
        on = "conditions" in arguments.get("filters", [])
        raised = (lambda shown: shown[1] != "condition normal")
        self.points["conditions"] = [Target("gypsy", it, raised) for it in self.run.text.heads] if on else []
        return {"breakpoints": [{"verified": True} for _ in arguments.get("filters", [])]}

    def on_dataBreakpointInfo(self, arguments):
        """A variable of an activation can be watched: where it changes, the run stops."""
        found, number = self.walk.activations(), arguments.get("variablesReference", 0) - ACTIVATION
        name = arguments["name"]
        if not 0 <= number < len(found) or name not in dict(found[number].variables):
            return {"dataId": None, "description": f"{name} is no variable of an activation"}
        procedure = found[number].procedure.removesuffix(", ended")
        return {"dataId": f"{procedure} {name}", "description": f"{name} of {procedure}", "accessTypes": ["write"]}

    def on_setDataBreakpoints(self, arguments):
        self.watches = [tuple(it["dataId"].split(" ")) for it in arguments["breakpoints"]]
        return {"breakpoints": [{"verified": True} for _ in self.watches]}

    def targets(self):
        return list(dict.fromkeys(it for points in self.points.values() for it in points))
