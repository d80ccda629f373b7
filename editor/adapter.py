"""A debug adapter over the program's own sessions, over standard input and output.

    adapter.py PROGRAM

What is told of a run is what PROGRAM, the proved one, prints in sessions of `debug`: docs/program/debug.md. A run goes on by statements of the source, by
instructions of Piton or by those of the processor, and back. `./stack editor adapter` starts it.
"""
import queue
import sys
import threading
from pathlib import Path

import beside
import explain
from breakpoints import FILTERS, Breakpoints, Wrong
from ends import end, shown, tell
from moments import Run
from program import Refused
from seen import THREAD, Seen
from sessions import Interrupted
from views import View
from wire import Lost, Unreadable, Wire

CAPABILITIES = dict.fromkeys((
    "supportsConfigurationDoneRequest", "supportsFunctionBreakpoints", "supportsConditionalBreakpoints", "supportsStepBack", "supportsDisassembleRequest",
    "supportsSteppingGranularity", "supportsInstructionBreakpoints", "supportsReadMemoryRequest", "supportsEvaluateForHovers", "supportsTerminateRequest",
    "supportsBreakpointLocationsRequest", "supportsDataBreakpoints",
), True)
# What can be asked without a run, and what stops one that goes on.
BEFORE = ("initialize", "launch", "disconnect", "terminate", "pause")
STOPPING = ("pause", "disconnect", "terminate")
# So long a run that is stopped may take to its end, in seconds.
LAST = 5


class Adapter(Breakpoints, Seen):
    """Answers an editor. Requests are taken in one thread and carried out in another, so that a run can be stopped on its way."""

    def __init__(self, program, wire):
        self.program, self.wire, self.sent, self.requests, self.sending = program, wire, 0, queue.Queue(), threading.Lock()
        self.run = self.walk = None
        self.points, self.watches, self.options, self.frames, self.lines_from, self.columns_from = {}, [], {}, [], 1, 1

    # ---- Messages ----

    def send(self, message):
        with self.sending:
            self.sent += 1
            self.wire.send({"seq": self.sent} | message)

    def event(self, name, **body):
        self.send({"type": "event", "event": name, "body": body})

    def tell(self, text, category="console"):
        """Says something to a person."""
        self.event("output", category=category, output=f"{shown(text)}\n")

    def serve(self):
        """Answers until the editor leaves, or has the adapter end."""
        worker = threading.Thread(target=self.work, daemon=True)
        worker.start()
        try:
            while (message := self.receive()) is not None:
                if message.get("command") in STOPPING and self.run:
                    self.run.stop.set()
                self.requests.put(message)
                if message.get("command") == "disconnect":
                    break
            self.requests.put(None)
            if message is None and self.run:
                # Nobody waits for an answer any more.
                self.run.stop.set()
            worker.join(LAST)
        finally:
            if self.run:
                self.run.close()
        return 0

    def receive(self):
        """The next message, or None if none can come."""
        while True:
            try:
                return self.wire.receive()
            except Unreadable as fault:
                self.tell(str(fault), "stderr")
            except Lost as lost:
                tell(f"the editor is left: {lost}")
                return None

    def work(self):
        """Carries out one request after the other. Whatever fails in one, the next one is answered."""
        while (message := self.requests.get()) is not None:
            if message.get("type") == "request" and isinstance(message.get("command"), str):
                self.take(message)

    def take(self, message):
        """Carries out a request, and afterwards what was put off until it is answered."""
        answer = {"type": "response", "request_seq": message.get("seq", 0), "command": message["command"], "success": True}
        self.after = lambda: None
        try:
            answer["body"] = self.body_of(message["command"], message.get("arguments"))
        except Exception as fault:
            answer |= {"success": False, "message": shown(self.told(fault))}
            answer["body"] = {"error": {"id": 1, "format": answer["message"].replace("{", "("), "showUser": True}}
        self.send(answer)
        try:
            self.after()
        except Exception as fault:
            self.tell(self.told(fault), "stderr")

    def body_of(self, command, arguments):
        """What a request is answered with."""
        act = getattr(self, f"on_{command}", None)
        if act is None:
            raise Wrong(f"there is no {command} here")
        if self.walk is None and command not in BEFORE:
            raise Wrong("no run was started")
        return act(arguments if isinstance(arguments, dict) else {}) or {}

    def told(self, fault):
        """What is said of a fault: of a refusal what docs/program/errors.md says."""
        if isinstance(fault, KeyError):
            return f"the request has no {fault}"
        if isinstance(fault, (TypeError, AttributeError)):
            return f"a part of the request has another form ({fault})"
        if isinstance(fault, OSError) and fault.strerror:
            return f"{fault.filename or self.program}: {fault.strerror}"
        if not isinstance(fault, Refused):
            return str(fault) or type(fault).__name__
        if fault.text.startswith("script "):
            return f"{fault.text}: {explain.plain(explain.rows_of_page()[0][fault.text.split()[1]])}"
        source, values = self.options.get("program", ""), self.options.get("values")
        line = ["mean", source, values, "1", "1", "0"] if isinstance(values, str) else ["check", source]
        said = explain.lines_of(fault.status, fault.text, line)
        return "\n".join([fault.text or beside.ended(fault.status), *said])

    # ---- Starting ----

    def on_initialize(self, arguments):
        self.lines_from, self.columns_from = int(arguments.get("linesStartAt1", True)), int(arguments.get("columnsStartAt1", True))
        return CAPABILITIES | {"exceptionBreakpointFilters": FILTERS, "supportedChecksumAlgorithms": []}

    def on_launch(self, arguments):
        self.options = arguments
        values, given = arguments.get("values"), ()
        if isinstance(values, dict):
            values, given = None, [f"{name}={value}" for name, value in values.items()]
        elif isinstance(values, list):
            values, given = None, values
        self.run = Run(self.program, arguments["program"], values, given, arguments.get("control"), arguments.get("temporary"))
        self.walk = View(self.run)
        self.write_texts()
        self.level = arguments.get("level", "gypsy")
        self.walk.look_at(self.level)
        self.after = lambda: self.event("initialized")
        control, temporary = self.run.program.sizes
        self.tell(f"{Path(arguments['program']).name}, in stacks of {control} and {temporary} words")
        if beside.is_unproved():
            self.tell(beside.UNPROVED)

    def on_configurationDone(self, _):
        if self.options.get("stopOnEntry", True):
            self.after = lambda: self.stopped("entry")
        else:
            self.after = lambda: self.move(self.go)

    # ---- Moving ----

    def move(self, act):
        """Goes on or back, and tells where the run stands then, also if that fails. Who asked to stop before it began has it stand where it is."""
        try:
            stop = act()
            reason = {"ended": "the end of the run", "start": "the beginning of the run"}.get(stop.reason, stop.reason)
        except Interrupted:
            reason = "pause"
        except Exception as fault:
            self.tell(self.told(fault), "stderr")
            reason = self.told(fault).split("\n")[0]
        # Who asked to stop gets answers again.
        self.run.stop.clear()
        self.stopped(reason)

    def stopped(self, reason):
        """Tells that the run stands, and its report if it is over."""
        is_known = reason in ("entry", "step", "breakpoint", "data breakpoint", "pause")
        self.frames = []
        if self.walk.moment.ended and reason != "entry":
            self.tell_report()
        body = {"reason": reason if is_known else "goto", "threadId": THREAD, "allThreadsStopped": True}
        self.event("stopped", **body, **({} if is_known else {"description": shown(reason), "text": shown(reason)}))

    def tell_report(self):
        """Tells what `run` prints of the run, which is over."""
        try:
            self.tell(self.run.program.ask("run", "i", "v", self.walk.moment.count).rstrip("\n"), "stdout")
        except (Refused, OSError) as fault:
            self.tell(self.told(fault), "stderr")

    def moving(self, act):
        self.after = lambda: self.move(act)
        return {"allThreadsContinued": True}

    def unit(self, arguments):
        """What a step of the source leaves: a line, a statement of an infix program, or nothing, since it is one of the machine's."""
        if arguments.get("granularity") == "line":
            return self.run.line
        return self.run.spot if self.run.tied else None

    def grain(self, arguments):
        """At which level a step is made: the one that was asked for or, by an instruction of the source's code, the processor's."""
        is_instruction = arguments.get("granularity") == "instruction" and self.level == "gypsy"
        wanted = "fm9001" if is_instruction else self.level
        if self.walk.level != wanted:
            self.walk.look_at(wanted)
        return wanted

    def on_continue(self, _):
        if self.walk.moment.ended:
            self.after = self.end
            return {"allThreadsContinued": True}
        return self.moving(self.go)

    def go(self):
        """On to a breakpoint, or to where a watched variable changes."""
        return self.walk.go_watching(self.watches, self.targets()) if self.watches else self.walk.go(self.targets())

    def on_next(self, arguments):
        level, unit = self.grain(arguments), self.unit(arguments)
        return self.moving((lambda: self.walk.over(self.targets(), line_of=unit)) if level == "gypsy" else lambda: self.walk.over_call(self.targets()))

    def on_stepIn(self, arguments):
        level, unit = self.grain(arguments), self.unit(arguments)
        return self.moving((lambda: self.walk.step_line(unit)) if level == "gypsy" and unit else self.walk.step)

    def on_stepOut(self, _):
        if self.walk.level != "gypsy":
            return self.moving(lambda: self.walk.out_of_program(self.targets()))
        return self.moving(lambda: self.walk.over(self.targets(), out=True))

    def on_stepBack(self, arguments):
        level, unit = self.grain(arguments), self.unit(arguments)
        return self.moving((lambda: self.walk.back_line(unit)) if level == "gypsy" and unit else lambda: self.walk.step(-1))

    def on_reverseContinue(self, _):
        back = self.walk.back_watching if self.watches else lambda _, targets: self.walk.back(targets)
        return self.moving(lambda: back(self.watches, self.targets()))

    def on_pause(self, _):
        # The run has stopped by now, or stood already.
        if self.run:
            self.run.stop.clear()

    def end(self):
        self.event("exited", exitCode=0)
        self.event("terminated")

    def on_terminate(self, _):
        self.after = self.end

    def on_disconnect(self, _):
        return {}


if __name__ == "__main__":
    end(lambda: Adapter(sys.argv[1], Wire()).serve())
