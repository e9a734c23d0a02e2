"""The calls of a run as a tree, with arguments, results and cycles."""
import collections
from dataclasses import dataclass, field

from .image import signed
from .trace import access, number_of, report


@dataclass
class Call:
    unit: object
    arguments: list  # without the object reference
    place: int = None  # the address of the INVOKEVIRTUAL
    result: int = None  # None where it has not returned
    own: int = 0  # cycles, without those of the calls in it
    inner: int = 0  # cycles of the calls in it
    calls: list = field(default_factory=list)

    @property
    def cycles(self):
        return self.own + self.inner


class CallTree:
    """`main` is the root. The cycles of INVOKEVIRTUAL are the caller's, those of IRETURN the method's, and the boot is main's `boot`."""

    def __init__(self, program):
        self.program = program
        self.memory = program.image.memory()
        self.main = Call(program.units[0], [])
        self.running = [self.main]
        self.boot = 0
        self.read()

    def read(self):
        other, before, since, sp = [], None, 0, 0
        for count, (statement, _, registers, boundary) in enumerate(self.program.cycles(self.program.settings, other), 1):
            if statement.access == "write":
                _, address, word = access(statement, registers)
                self.memory[address] = word
            if not boundary:
                continue
            if before is None:
                self.boot = count
            else:
                self.completes(before, count - since, sp, registers)
            before, since, sp = boundary, count, number_of(registers, "SP")
        self.report = report(other)
        self.running[-1].own += self.report["cycles"] - since if before else 0
        self.boot = self.boot if before else self.report["cycles"]
        while len(self.running) > 1:
            self.leave()

    def completes(self, boundary, cost, sp, registers):
        """Takes an instruction: `sp` is the stack's top before it, and the registers are those after it."""
        self.running[-1].own += cost
        words = boundary.split(" ")
        if words[1] == "INVOKEVIRTUAL" and (unit := self.program.called(" ".join(words[1:]))):
            first = sp - unit.parameters + 2
            call = Call(unit, [self.memory.get(first + place, 0) for place in range(unit.parameters - 1)], int(words[0], 16))
            self.running[-1].calls.append(call)
            self.running.append(call)
        elif words[1] == "IRETURN" and len(self.running) > 1:
            self.leave().result = number_of(registers, "TOS")

    def leave(self):
        """Takes the running call off; its cycles count for its caller too."""
        call = self.running.pop()
        self.running[-1].inner += call.cycles
        return call

    def rows(self, deepest):
        """The lines of the tree, each with its depth; calls in calls that are deeper are counted."""
        waiting = [(self.main, 0)]
        while waiting:
            call, depth = waiting.pop()
            yield depth, text_of(call, self.program), call
            if depth < deepest:
                waiting += [(inner, depth + 1) for inner in reversed(call.calls)]

    def stacks(self):
        """Of each stack of names the cycles that were spent at its top, as flame graphs take them."""
        found = collections.Counter()
        found["boot"] = self.boot
        waiting = [(self.main, "main")]
        while waiting:
            call, names = waiting.pop()
            found[names] += call.own
            waiting += [(inner, f"{names};{inner.unit.name}") for inner in call.calls]
        return found


def text_of(call, program):
    if not call.unit.parameters:
        return call.unit.name
    arguments = ", ".join(f"{call.unit.names.get(number, f'local {number}')}={signed(word)}" for number, word in enumerate(call.arguments, 1))
    result = "has not returned" if call.result is None else f"returns {signed(call.result)}"
    return f"{call.unit.name}({arguments}) {result}  [{program.place(call.place)}]"
