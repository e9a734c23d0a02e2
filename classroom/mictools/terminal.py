"""The debugger's commands as one types them, and what they print."""
import inspect
import re

from .command_line import Fault
from .image import signed

HELP = [
    ("step [N]", "to the next instruction; in a program in Tiny to the next line"),
    ("instruction [N]", "to the next instruction, also in Tiny"),
    ("over [N], out", "the same, but a call is one step; to the caller"),
    ("go", "to a breakpoint, a change of a watched word, or the end"),
    ("micro [N]", "one cycle on"),
    ("back [STEP] [N]", "a step, or instruction, over, out, go, micro, backwards"),
    ("written WORD", "back to the instruction that wrote a word last"),
    ("cycle N", "to the moment after N cycles"),
    ("break PLACE, clear PLACE", "a label, METHOD.LABEL, a method, a line, or an address such as 0x12"),
    ("break micro PLACE, clear micro PLACE", "a label, a line or an address of the microprogram"),
    ("watch WORD, unwatch WORD", "a local, or an address such as 0x8000"),
    ("breaks", "all breakpoints and watched words"),
    ("where, list [LINE]", "where it is; the lines around"),
    ("calls, frame N", "the methods that are running, with their locals; names are those of this one"),
    ("locals, stack", "of the running method: its locals; all words of its frame"),
    ("print NAME.., word ADDRESS [N]", "locals and registers; words of memory"),
    ("regs, output", "the registers; all that was written"),
    ("help, quit", "short: s step, o over, g go, m micro, b break, w where, l list, p print, c calls, q quit"),
]
SHORT = {"s": "step", "o": "over", "g": "go", "m": "micro", "b": "break", "w": "where", "l": "list", "p": "print", "c": "calls", "q": "quit"}
NUMBERS = {"MDR", "TOS", "OPC", "H"}  # registers that hold numbers more often than addresses
REPEATED = {"step", "instruction", "over", "micro", "back"}


class Terminal:
    """`answer` takes a line, and returns the lines to print, or None to end the session."""

    def __init__(self, debugger):
        self.debugger, self.program = debugger, debugger.program
        self.selected = 0  # of the frames
        self.last = ""
        own = [name[3:] for name in dir(self) if name.startswith("do_")]
        self.commands = {name.replace("_", " "): getattr(self, "do_" + name) for name in own}

    def answer(self, line):
        words = line.split()
        if not words and not self.last:
            return []
        words = words or self.last.split()
        found = [name for name in self.commands if name.startswith(words[0])]
        name = words[0] if words[0] in self.commands else SHORT.get(words[0]) or (found[0] if len(found) == 1 else None)
        self.last = " ".join(words) if name in REPEATED else ""
        if name is None:
            return [f"several commands begin with {words[0]}: {', '.join(found)}" if found else f"no command {words[0]}: type help"]
        if name == "quit":
            return None
        try:
            return self.call(name, words[1:])
        except Fault as fault:
            return [fault.text]

    def call(self, name, words, **more):
        """Runs a command with the words that it takes."""
        try:
            inspect.signature(self.commands[name]).bind(*words, **more)
        except TypeError:
            raise Fault(64, f"{name} takes other words: type help") from None
        return self.commands[name](*words, **more)

    def words(self):
        """What a word of a line may be: commands, methods, labels and locals."""
        labels = [label for _, label in self.program.labels]
        return sorted({*self.commands, *self.program.unit_named, *labels, *(name for unit in self.program.units for name in unit.names.values())})

    # ---- where it is

    def here(self, before=None, why="step"):
        """The line of the moment, what was written on the way, and why it stopped."""
        debugger, history = self.debugger, self.debugger.history
        lines = []
        if before is not None and (written := history.written(before, debugger.moment)):
            lines.append("output: " + repr(written)[2:-1])
        reasons = {"break": "breakpoint", "watch": "a watched word has changed", "begin": "this is the beginning", "window": self.window(),
                   "end": f"end {history.end}"}
        if why in reasons:
            lines.append(reasons[why])
        address = debugger.address
        if address is None:
            lines.append(f"before the first instruction  cycle {debugger.moment}")
        else:
            unit = self.program.unit_at(address).name
            text = history.instructions[debugger.boundary]
            row = self.program.row(address)
            lines.append(f"{unit}  {self.program.place(address)}  {row}" + (f"    {text}" if row != text[9:] else "") + f"  cycle {debugger.moment}")
        if debugger.is_inside and (statement := history.statement(debugger.moment)):
            lines.append(f"  next {statement}" + self.micro_line(statement))
        return lines

    def micro_line(self, statement):
        micro = self.debugger.micro
        return f"  ({micro.path}:{micro.line_of[statement.mpc]})" if micro.path and statement.mpc in micro.line_of else ""

    def window(self):
        history = self.debugger.history
        return f"the window has the cycles {history.first} to {history.last}: type cycle N for others"

    def do_where(self):
        return self.here()

    def do_list(self, line=None):
        rows, address = self.program.rows, self.debugger.address
        at = self.program.line_of.get(address)
        middle = int(line) if line and line.isdecimal() else at
        if not rows or middle is None:
            near = [(place, text) for place, text in sorted(self.program.instructions.items()) if abs(place - (address or 0)) < 16]
            return [f"{'>' if place == address else ' '}{'*' if place in self.debugger.breaks else ' '} {place:08x} {text}" for place, text in near]
        breaks = {self.program.line_of.get(place) for place in self.debugger.breaks}
        numbers = range(max(1, middle - 5), min(len(rows), middle + 5) + 1)
        return [f"{'>' if number == at else ' '}{'*' if number in breaks else ' '}{number:4}  {rows[number - 1]}" for number in numbers]

    def do_help(self):
        return [f"{form:38}{text}" for form, text in HELP]

    # ---- steps

    def steps(self, step, count, back):
        before, why = self.debugger.moment, "step"
        self.selected = 0
        for _ in range(number_of(count)):
            why = step(back)
            if why != "step":
                break
        return self.here(before, why)

    def do_step(self, count="1", *, back=False):
        return self.steps(self.debugger.step, count, back)

    def do_instruction(self, count="1", *, back=False):
        return self.steps(self.debugger.instruction, count, back)

    def do_over(self, count="1", *, back=False):
        return self.steps(self.debugger.over, count, back)

    def do_out(self, count="1", *, back=False):
        return self.steps(self.debugger.out, count, back)

    def do_go(self, *, back=False):
        return self.steps(self.debugger.go, "1", back)

    def do_micro(self, count="1", *, back=False):
        return self.steps(self.debugger.cycle, count, back)

    def do_back(self, *words):
        if words[:1] and not words[0].isdecimal():
            found = [name for name in ("step", "instruction", "over", "out", "go", "micro") if name.startswith(words[0])]
            if len(found) != 1:
                raise Fault(65, f"no step {words[0]}")
            return self.call(found[0], words[1:], back=True)
        return self.call("step", words, back=True)

    def do_written(self, *words):
        address = self.word(" ".join(words))
        at = self.debugger.written(address)
        if at is None:
            return [f"no cycle of this window writes {address:08x}: it is {self.debugger.history.word(self.debugger.moment, address):08x}"]
        statement = self.debugger.history.statement(at - 1)
        value = self.debugger.history.word(at, address)
        return [f"cycle {at} writes {shown(value)} at {address:08x}: {statement.label} {statement.text}"] + self.here()

    def do_cycle(self, moment):
        self.debugger.goto(number_of(moment, 0))
        return self.here()

    # ---- breakpoints

    def do_break(self, *words):
        return self.breakpoint("break", *words)

    def do_clear(self, *words):
        return self.breakpoint("clear", *words)

    def breakpoint(self, what, *words):
        is_micro = words[:1] == ("micro",)
        words = words[is_micro:]
        if len(words) != 1:
            raise Fault(65, f"{what} takes one place")
        debugger = self.debugger
        address = debugger.micro_place(words[0]) if is_micro else debugger.place(words[0])
        if address is None:
            raise Fault(65, f"no place {words[0]}")
        places = debugger.micro_breaks if is_micro else debugger.breaks
        (places.add if what == "break" else places.discard)(address)
        if is_micro:
            label, text = debugger.micro.statements.get(f"{address:03x}", ("-", "no statement"))
            return [f"{what} at {address:03x} {label} {text}"]
        if address not in self.program.instructions:
            return [f"{what} at {address:08x}, where no reached instruction begins"]
        return [f"{what} at {self.program.place(address)}  {self.program.row(address)}"]

    def do_breaks(self):
        lines = [f"{self.program.place(address)}  {self.program.row(address)}" for address in sorted(self.debugger.breaks)]
        lines += [f"micro {at:03x} {self.debugger.micro.statements.get(f'{at:03x}', ('-', ''))[0]}" for at in sorted(self.debugger.micro_breaks)]
        return lines + [f"watch {at:08x}" for at in sorted(self.debugger.watched)] or ["no breakpoint"]

    def do_watch(self, *words):
        self.debugger.watched.add(address := self.word(" ".join(words)))
        return [f"watch {address:08x}"]

    def do_unwatch(self, *words):
        self.debugger.watched.discard(address := self.word(" ".join(words)))
        return [f"no watch {address:08x}"]

    # ---- what holds

    def frame(self):
        frames = self.debugger.frames()
        if self.selected >= len(frames):
            raise Fault(65, "no method is running yet")
        return frames[self.selected]

    def word(self, text):
        address = self.debugger.word_named(text, self.frame() if not text.startswith("0x") else None)
        if address is None:
            raise Fault(65, f"no word {text} here")
        return address

    def do_calls(self):
        lines = []
        for number, frame in enumerate(self.debugger.frames()):
            named = "  ".join(f"{word.name}={signed(word.value)}" for word in frame.locals())
            mark = ">" if number == self.selected else " "
            lines.append(f"{mark}#{number} {frame.unit.name}  {self.program.place(frame.address)}  LV {frame.lv:x}" + (f": {named}" if named else ""))
        return lines or ["no method is running yet"]

    def do_frame(self, number):
        number = number_of(number, 0)
        if number >= len(self.debugger.frames()):
            raise Fault(65, f"there is no frame {number}")
        self.selected = number
        return self.do_calls()

    def do_locals(self):
        return [f"{word.name} = {shown(word.value)}" for word in self.frame().locals()] or ["no locals"]

    def do_stack(self):
        return [f"{word.address:08x} {word.value:08x}  {word.name}" for word in self.frame().words] or ["no words"]

    def do_print(self, *names):
        registers = self.debugger.history.registers(self.debugger.moment)
        lines = []
        for name in names:
            if name.upper() in registers and self.debugger.word_named(name, self.frame() if self.debugger.frames() else None) is None:
                lines.append(f"{name.upper()} = {registers[name.upper()]}" + (f" ({signed(int(registers[name.upper()], 16))})" if name.upper() in NUMBERS else ""))
            else:
                lines.append(f"{name} = {shown(self.debugger.history.word(self.debugger.moment, self.word(name)))}")
        return lines

    def do_word(self, address, count="1"):
        at = self.word(address)
        return [f"{place:08x} {self.debugger.history.word(self.debugger.moment, place):08x}" for place in range(at, at + number_of(count))]

    def do_regs(self):
        return [self.registers_line()]

    def registers_line(self):
        return " ".join(f"{name} {value}" for name, value in self.debugger.history.registers(self.debugger.moment).items())

    def do_output(self):
        return [repr(self.debugger.history.written(-1, self.debugger.moment))[2:-1]]

    def do_quit(self):
        return None


def number_of(text, least=1):
    if not re.fullmatch(r"\d{1,9}", text) or int(text) < least:
        raise Fault(65, f"{text} is no number from {least} on")
    return int(text)


def shown(value):
    """A word as a signed number, and in hexadecimal and as a letter where that says more."""
    number = signed(value)
    letter = f" '{chr(value)}'" if 32 <= value < 127 else ""
    return str(number) if -10 < number < 10 else f"{number} (0x{value:08x}{letter})"
