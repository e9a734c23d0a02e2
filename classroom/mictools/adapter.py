"""A debug adapter: the debugger as the Debug Adapter Protocol has it. Each request is a method `on_NAME`, which returns the response's body.

A session has one thread. Inside an instruction the first frame is the statement of the microprogram that comes next, and the frames of
IJVM follow. While it stands inside one, or where the session was launched with `"level": "microprogram"`, a step into is one cycle."""
import base64
import contextlib
import os

from .calls import Mic, Settings
from .command_line import Fault
from .debugger import Debugger
from .history import MOST
from .image import signed
from .messages import filled, sentences
from .program import Program, microprogram_of
from .protocol import read_message, write_message
from .refusal import language_of, refusal
from .terminal import Terminal, shown

THREAD = 1
MICRO_FRAME = 1  # frame i of IJVM is FIRST_FRAME + i
FIRST_FRAME = 2
SCOPES = ("Locals", "Operands", "Registers")  # a frame's variables are 10 * frame + the place here, and 1
MICRO_SOURCE = 1  # the reference of the microprogram that ships
VALUES = {"machine": ("mic1", "mic2"), "map": ("standard", "large"), "level": ("program", "microprogram")}
CAPABILITIES = [
    "ConfigurationDoneRequest", "FunctionBreakpoints", "InstructionBreakpoints", "DataBreakpoints", "StepBack", "SteppingGranularity",
    "ReadMemoryRequest", "DisassembleRequest", "EvaluateForHovers", "TerminateRequest", "RestartRequest",
]


class Adapter:
    def __init__(self, source, target, folder):
        self.source, self.target, self.folder = source, target, folder
        self.number, self.lines_from = 0, 1
        self.debugger = None
        self.breaks = {"lines": set(), "functions": set(), "instructions": set()}
        self.shown = 0  # the moment up to which output was passed on
        self.events = []  # what is sent after the response
        self.is_over = False

    # ---- messages

    def run(self):
        """Answers requests until the client leaves."""
        while not self.is_over and (message := read_message(self.source)) is not None:
            if message.get("type") != "request":
                continue
            answer = {"type": "response", "request_seq": message["seq"], "command": message["command"], "success": True}
            try:
                body = self.answer(message["command"], message.get("arguments") or {})
                answer.update({"body": body} if body is not None else {})
            except Fault as fault:
                answer.update(success=False, message=fault.text, body={"error": {"id": fault.status, "format": fault.text, "showUser": True}})
            self.send(answer)
            events, self.events = self.events, []
            for event in events:
                self.send(event)

    def answer(self, command, arguments):
        method = getattr(self, "on_" + command, None)
        if method is None:
            raise Fault(64, f"no request {command}")
        if self.debugger is None and command not in ("initialize", "launch", "disconnect", "terminate"):
            raise Fault(64, f"{command} comes before a launch")
        try:
            return method(arguments)
        except OSError as error:
            raise Fault(66, f"{error.filename}: {error.strerror}") from error
        except (KeyError, TypeError, ValueError) as error:
            raise Fault(64, f"{command}: faulty arguments ({type(error).__name__}: {error})") from error

    def send(self, message):
        self.number += 1
        write_message(self.target, {"seq": self.number, **message})

    def event(self, name, **body):
        self.events.append({"type": "event", "event": name, "body": body})

    # ---- the session

    def on_initialize(self, arguments):
        self.lines_from = 1 if arguments.get("linesStartAt1", True) else 0
        return {"supports" + name: True for name in CAPABILITIES}

    def on_launch(self, arguments):
        path = arguments["program"]
        names = ("machine", "bound", "micro", "map", "input")
        settings = Settings(**{name: arguments[name] for name in names if arguments.get(name) is not None})
        for name, values in VALUES.items():
            if arguments.get(name, values[0]) not in values:
                raise Fault(64, f"{name} is one of {', '.join(values)}, and not {arguments[name]}")
        self.arguments = arguments
        mic = Mic(arguments.get("mic"))
        if not os.path.isfile(path):
            raise Fault(66, f"{path} is not there")
        self.check(mic, path, settings)
        program = Program(mic, path, settings, self.folder)
        self.debugger = Debugger(program, microprogram_of(program), arguments.get("from", 0), arguments.get("window", MOST))
        self.terminal = Terminal(self.debugger)
        self.event("initialized")

    def check(self, mic, path, settings):
        """A refused program is a fault with its line."""
        words = ["compile", "--", path, os.path.join(self.folder, "made")] if language_of(path) == "tiny" else ["verify", *settings.given("map"), "--", path]
        said = mic.says(*words)
        if said.status:
            raise Fault(said.status, str(refusal(path, said.err)))

    def on_restart(self, arguments):
        self.debugger.open(self.arguments.get("from", 0))
        self.shown = 0
        self.stopped("entry")

    def on_configurationDone(self, arguments):
        if self.arguments.get("noDebug"):
            self.debugger.breaks, self.debugger.micro_breaks, self.debugger.watched = set(), set(), set()
            self.stopped(self.debugger.go())
            self.over()
        elif self.arguments.get("stopOnEntry", True):
            self.stopped("entry")
        else:
            self.stopped(self.debugger.go())

    def on_disconnect(self, arguments):
        self.is_over = True

    def on_terminate(self, arguments):
        self.event("terminated")

    def on_threads(self, arguments):
        return {"threads": [{"id": THREAD, "name": f"{self.debugger.program.settings.machine}"}]}

    def stopped(self, why):
        """Passes on what was written for the first time, and says why the debugger stands where it does."""
        debugger, history = self.debugger, self.debugger.history
        if written := history.written(self.shown, debugger.moment):
            self.event("output", category="stdout", output=written.decode("utf-8", "replace"))
        self.shown = max(self.shown, debugger.moment)
        reasons = {"break": "breakpoint", "watch": "data breakpoint", "begin": "entry", "window": "pause", "end": "end"}
        more = {}
        if why == "end":
            kind, _, address = history.end.partition(" at ")
            more = {"description": filled(sentences()["ends"][kind], bound=f"{debugger.program.settings.bound:,}", address=address)}
        elif why == "window":
            more = {"description": self.terminal.window()}
        self.event("stopped", reason=reasons.get(why, why), threadId=THREAD, allThreadsStopped=True, **more)

    # ---- steps

    def moves(self, step, back=False):
        debugger = self.debugger
        if not back and debugger.history.end and debugger.moment == debugger.history.last:
            self.over()
            return
        self.terminal.selected = 0
        self.stopped(step(back))

    def over(self):
        self.event("exited", exitCode=0 if self.debugger.history.end == "halt" else 1)
        self.event("terminated")

    def by_cycles(self, arguments):
        return self.arguments.get("level") == "microprogram" or self.debugger.is_inside and self.debugger.boundary is not None

    def on_continue(self, arguments):
        self.moves(self.debugger.go)
        return {"allThreadsContinued": True}

    def on_reverseContinue(self, arguments):
        self.moves(self.debugger.go, True)

    def on_next(self, arguments):
        by_instructions = arguments.get("granularity") == "instruction" or self.by_cycles(arguments)
        self.moves(self.debugger.instruction if by_instructions else self.debugger.over)

    def on_stepIn(self, arguments):
        self.moves(self.one_step(arguments))

    def on_stepBack(self, arguments):
        self.moves(self.one_step(arguments), True)

    def one_step(self, arguments):
        if self.by_cycles(arguments):
            return self.debugger.cycle
        return self.debugger.instruction if arguments.get("granularity") == "instruction" else self.debugger.step

    def on_stepOut(self, arguments):
        self.moves(self.debugger.instruction if self.by_cycles(arguments) else self.debugger.out)

    def on_pause(self, arguments):
        self.stopped("pause")

    # ---- breakpoints

    def line(self, line):
        """A line as the client counts."""
        return line - 1 + self.lines_from

    def on_setBreakpoints(self, arguments):
        lines = [wanted["line"] + 1 - self.lines_from for wanted in arguments.get("breakpoints") or []]
        is_micro = self.is_micro(arguments["source"])
        debugger, program = self.debugger, self.debugger.program
        own = program.path and not is_micro and same_file(arguments["source"].get("path"), program.path)
        table = debugger.micro.address_at if is_micro else program.first_at if own else {}
        places, answers = set(), []
        for line in lines:
            found = min((other for other in table if other >= line), default=None)
            if found is None:
                answers.append({"verified": False, "message": "no instruction begins here or below"})
                continue
            places.add(int(table[found], 16) if is_micro else table[found])
            answers.append({"verified": True, "line": self.line(found)})
        if is_micro:
            debugger.micro_breaks = places
        elif own:
            self.set_breaks("lines", places)
        return {"breakpoints": answers}

    def set_breaks(self, kind, places):
        """Puts these breakpoints in place of all of one kind."""
        self.breaks[kind] = places
        self.debugger.breaks = set().union(*self.breaks.values())

    def is_micro(self, source):
        micro = self.debugger.micro
        return source.get("sourceReference") == MICRO_SOURCE or bool(micro.path) and same_file(source.get("path"), micro.path)

    def places(self, kind, wanted):
        """Sets the breakpoints of one kind at addresses, each of which may be None."""
        there = self.debugger.program.instructions
        self.set_breaks(kind, {address for address in wanted if address in there})
        refused = {"verified": False, "message": "no reached instruction begins here"}
        return {"breakpoints": [{"verified": True} if address in there else refused for address in wanted]}

    def on_setFunctionBreakpoints(self, arguments):
        return self.places("functions", [self.debugger.place(wanted["name"]) for wanted in arguments["breakpoints"]])

    def on_setInstructionBreakpoints(self, arguments):
        wanted = [int(it["instructionReference"], 16) + it.get("offset", 0) for it in arguments["breakpoints"]]
        return self.places("instructions", wanted)

    def on_setExceptionBreakpoints(self, arguments):
        return {"breakpoints": []}

    def on_dataBreakpointInfo(self, arguments):
        frame = self.frame_of(arguments.get("variablesReference", 0) // 10) if arguments.get("variablesReference") else None
        address = self.debugger.word_named(arguments["name"], frame)
        if address is None:
            return {"dataId": None, "description": "no word of memory"}
        return {"dataId": f"0x{address:08x}", "description": f"{arguments['name']} at {address:08x}", "accessTypes": ["write"]}

    def on_setDataBreakpoints(self, arguments):
        self.debugger.watched = {int(wanted["dataId"], 16) for wanted in arguments["breakpoints"]}
        return {"breakpoints": [{"verified": True} for _ in arguments["breakpoints"]]}

    # ---- what is shown

    def on_stackTrace(self, arguments):
        debugger, program, found = self.debugger, self.debugger.program, []
        statement = debugger.history.statement(debugger.moment)
        if statement and (debugger.is_inside or self.arguments.get("level") == "microprogram"):
            line = debugger.micro.line_of.get(statement.mpc, 0)
            found.append({"id": MICRO_FRAME, "name": f"{statement.mpc} {statement.label} {statement.text}", "source": self.micro_source(),
                          "line": self.line(line), "column": self.lines_from, "presentationHint": "subtle" if not line else "normal"})
        for number, frame in enumerate(debugger.frames()):
            line = program.line_of.get(frame.address)
            shown_at = {"line": self.line(line), "source": {"name": os.path.basename(program.path), "path": os.path.abspath(program.path)}} if line else {"line": 0}
            found.append({"id": FIRST_FRAME + number, "name": frame.unit.name, "column": self.lines_from,
                          "instructionPointerReference": f"0x{frame.address:08x}", **shown_at})
        first, count = arguments.get("startFrame", 0), arguments.get("levels") or len(found)
        return {"stackFrames": found[first : first + count], "totalFrames": len(found)}

    def micro_source(self):
        micro = self.debugger.micro
        if micro.path:
            return {"name": os.path.basename(micro.path), "path": os.path.abspath(micro.path)}
        return {"name": f"{micro.machine}.mal", "sourceReference": MICRO_SOURCE}

    def on_source(self, arguments):
        return {"content": self.debugger.micro.text}

    def frame_of(self, number):
        """The frame of IJVM with a frame's number, the running one for the microprogram's."""
        frames, place = self.debugger.frames(), max(number - FIRST_FRAME, 0)
        return frames[place] if place < len(frames) else None

    def on_scopes(self, arguments):
        number = arguments["frameId"]
        names = SCOPES[2:] if number == MICRO_FRAME or not self.frame_of(number) else SCOPES
        return {"scopes": [{"name": name, "variablesReference": 10 * number + SCOPES.index(name) + 1, "expensive": False} for name in names]}

    def on_variables(self, arguments):
        number, place = divmod(arguments["variablesReference"] - 1, 10)
        if not 0 <= place < len(SCOPES):
            raise Fault(64, "no such variables")
        if SCOPES[place] == "Registers":
            registers = self.debugger.history.registers(self.debugger.moment)
            return {"variables": [{"name": name, "value": value, "variablesReference": 0} for name, value in registers.items()]}
        frame = self.frame_of(number)
        words = [] if frame is None else frame.locals() if SCOPES[place] == "Locals" else frame.operands()
        return {"variables": [{"name": word.name, "value": shown(word.value), "variablesReference": 0, "evaluateName": word.name,
                               "memoryReference": f"0x{word.address:08x}"} for word in words]}

    def on_evaluate(self, arguments):
        """A local, a register or an address; on the console also a command of `step`."""
        text, frame = arguments["expression"].strip(), self.frame_of(arguments.get("frameId", FIRST_FRAME))
        history, moment = self.debugger.history, self.debugger.moment
        address = self.debugger.word_named(text, frame)
        if address is not None:
            return {"result": shown(history.word(moment, address)), "variablesReference": 0, "memoryReference": f"0x{address:08x}"}
        if text.upper() in history.registers(moment):
            return {"result": history.registers(moment)[text.upper()], "variablesReference": 0}
        if arguments.get("context") != "repl":
            raise Fault(65, f"no local or register {text}")
        lines = self.terminal.answer(text) or []
        if self.debugger.moment != moment:
            self.stopped("step")
        return {"result": "\n".join(lines), "variablesReference": 0}

    def on_readMemory(self, arguments):
        """Bytes of memory from a word on, the most significant of a word first."""
        start = 4 * int(arguments["memoryReference"], 16) + arguments.get("offset", 0)
        first, count = max(start, 0), arguments["count"]
        words = range(first // 4, (first + count + 3) // 4)
        data = b"".join(self.debugger.history.word(self.debugger.moment, address).to_bytes(4, "big") for address in words)
        return {"address": f"0x{first // 4:08x}", "data": base64.b64encode(data[first % 4 :][:count]).decode("ascii")}

    def on_disassemble(self, arguments):
        program = self.debugger.program
        addresses = sorted(program.instructions)
        begin = int(arguments["memoryReference"], 16) + arguments.get("offset", 0)
        place = sum(address < begin for address in addresses) + arguments.get("instructionOffset", 0)
        rows = []
        for at in range(place, place + arguments["instructionCount"]):
            if 0 <= at < len(addresses):
                line = program.line_of.get(addresses[at])
                rows.append({"address": f"0x{addresses[at]:08x}", "instruction": program.instructions[addresses[at]], **({"line": self.line(line)} if line else {})})
            else:
                rows.append({"address": f"0x{max(at, 0):08x}", "instruction": "", "presentationHint": "invalid"})
        return {"instructions": rows}


def same_file(one, other):
    with contextlib.suppress(OSError, TypeError):
        return os.path.samefile(one, other)
    return False
