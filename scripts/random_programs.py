"""Random programs in IJVM, each accepted by the verifier, that end: every instruction at every depth, signs, branches both
ways and back, wide operands, calls in methods, many locals and constants, the console, and the end of the stack.

    program = random_program(seed)      # program.source, program.input
"""
import random
from dataclasses import dataclass

NUMBERS = [0, 1, 2, 9, 127, 128, 255, 256, 32767, 65535, 0x7FFFFFFF, 0x80000000, 0xFFFFFF00, 0xFFFFFFFE, 0xFFFFFFFF]
BYTES = [0, 1, 2, 10, 65, 127, 128, 255]
TO_PUSH = ["BIPUSH", "BIPUSH", "LDC_W", "ILOAD", "ILOAD", "WIDE ILOAD", "IN"]
WITH_ONE = ["DUP", "POP", "OUT", "ISTORE", "WIDE ISTORE"]
WITH_TWO = ["SWAP", "IADD", "ISUB", "IAND", "IOR"]
ANYWHERE = ["NOP", "IINC", "WIDE IINC"]
STACK_WORDS = 0x8000  # of the standard map


@dataclass
class Program:
    source: str
    input: bytes


@dataclass
class Method:
    name: str
    parameters: int  # without the object reference
    locals: int  # of its own


class Unit:
    """The lines of main or of a method, and how many operands there are after them."""

    def __init__(self, chance, constants, methods, variables):
        self.chance, self.constants, self.methods, self.variables = chance, constants, methods, variables
        self.lines, self.depth, self.labels, self.busy = [], 0, 0, []

    def add(self, line, change):
        self.lines.append("        " + line)
        self.depth += change

    def label(self):
        self.labels += 1
        return f"l{self.labels}"

    def mark(self, label):
        self.lines.append(label + ":")

    def variable(self, is_short=False):
        """A local that is no counter of a loop around."""
        free = [it for it in self.variables if it not in self.busy and not (is_short and it > 255)]
        return self.chance.choice(free)

    def push(self):
        kind = self.chance.choice(TO_PUSH)
        if kind == "BIPUSH":
            self.add(f"BIPUSH {self.chance.choice([*NUMBERS[:7], self.chance.randrange(-128, 256)])}", 1)
        elif kind == "LDC_W":
            self.add(f"LDC_W c{self.chance.randrange(self.constants)}", 1)
        elif kind == "IN":
            self.add("IN", 1)
        else:
            self.add(f"{kind} {self.variable(kind == 'ILOAD')}", 1)

    def simple(self):
        """One instruction that does not branch."""
        kinds = ["push"] * 3 + ANYWHERE + WITH_ONE * (self.depth > 0) + WITH_TWO * 2 * (self.depth > 1)
        kind = self.chance.choice(kinds)
        if kind == "push":
            self.push()
        elif kind == "IINC":
            self.add(f"IINC {self.variable(True)} {self.chance.randrange(-128, 128)}", 0)
        elif kind == "WIDE IINC":
            self.add(f"WIDE IINC {self.variable()} {self.chance.randrange(-32768, 32768)}", 0)
        elif kind in ("ISTORE", "WIDE ISTORE"):
            self.add(f"{kind} {self.variable(kind == 'ISTORE')}", -1)
        else:
            self.add(kind, {"NOP": 0, "SWAP": 0, "DUP": 1}.get(kind, -1))

    def call(self):
        method = self.chance.choice(self.methods)
        for _ in range(method.parameters + 1):
            self.push()
        self.add(f"INVOKEVIRTUAL {method.name}", -method.parameters)

    def test(self, label):
        """A branch to a label, with its operands, now and then such that both ways come up."""
        kind = self.chance.choice(["IFEQ", "IFLT", "IF_ICMPEQ"])
        while self.depth < 1 + (kind == "IF_ICMPEQ"):
            self.push()
        if self.chance.random() < 0.3:
            self.add("DUP", 1)
        elif self.chance.random() < 0.3:
            self.push()
        self.add(f"{kind} {label}", -1 - (kind == "IF_ICMPEQ"))

    def level(self, depth):
        """Comes to this many operands."""
        while self.depth > depth:
            self.add(self.chance.choice(["POP", "POP", "OUT", *WITH_TWO[1:] * (self.depth > 1)]), -1)
        while self.depth < depth:
            self.push()

    def branch(self, size, nesting):
        """Two ways that meet again, or one that is skipped."""
        other, end = self.label(), self.label()
        self.test(other)
        before = self.depth
        self.block(size, nesting + 1)
        if self.chance.random() < 0.5:
            self.level(before)
            self.mark(other)
        else:
            after = self.depth
            self.add(f"GOTO {end}", 0)
            self.mark(other)
            self.depth = before
            self.block(size, nesting + 1)
            self.level(after)
            self.mark(end)
        self.add("NOP", 0)

    def loop(self, size, nesting):
        """A loop of a few rounds, with a counter of its own, that goes back by a branch or by GOTO."""
        counter, start, end = self.variable(), self.label(), self.label()
        before = self.depth
        kind = self.chance.choice(["IFLT", "IF_ICMPEQ", "GOTO"])
        self.add(f"BIPUSH {-self.chance.randrange(1, 4) if kind == 'IFLT' else self.chance.randrange(1, 3)}", 1)
        self.add(f"ISTORE {counter}", -1)
        self.busy.append(counter)
        self.mark(start)
        self.block(size, nesting + 1)
        self.level(before)
        self.add(f"IINC {counter} {1 if kind == 'IFLT' else -1}", 0)
        self.add(f"ILOAD {counter}", 1)
        if kind == "IFLT":
            self.add(f"IFLT {start}", -1)
        elif kind == "IF_ICMPEQ":
            self.add("BIPUSH 1", 1)
            self.add(f"IF_ICMPEQ {start}", -2)
        else:
            self.add(f"IFEQ {end}", -1)
            self.add(f"GOTO {start}", 0)
            self.mark(end)
        self.busy.pop()
        self.add("NOP", 0)

    def block(self, size, nesting):
        for _ in range(self.chance.randrange(1, size + 1)):
            drawn = self.chance.random()
            if drawn < 0.12 and nesting < 3:
                self.branch(size // 2 + 1, nesting)
            elif drawn < 0.18 and nesting < 2 and len(self.busy) + 2 < len(self.variables):
                self.loop(size // 2 + 1, nesting)
            elif drawn < 0.26 and self.methods and nesting < 2:
                self.call()
            elif drawn < 0.265:
                for _ in range(22):  # 132 bytes, so that a jump over them is far
                    self.add(f"WIDE IINC {self.variable()} {self.chance.randrange(3)}", 0)
            else:
                self.simple()
            if self.depth > 9:
                self.level(self.chance.randrange(4))


def main_lines(chance, constants, methods):
    high = chance.choice([[], [], [150, 200], [255, 256, 300], [STACK_WORDS - chance.randrange(1, 12)]])
    unit = Unit(chance, constants, methods, [0, 1, 2, 3, *high])
    if high and high[0] > 300:  # begins with a full stack
        unit.level(STACK_WORDS - 1 - high[0])
        unit.add("NOP", 0)
        if unit.depth > 1:
            unit.add("SWAP", 0)
        if chance.random() < 0.3:
            unit.add("IN", 1)
    unit.block(chance.choice([8, 16, 24]), 0)
    return [".main", *unit.lines, "        " + ("ERR" if chance.random() < 0.1 else "HALT"), ".end-main"]


def method_lines(chance, constants, method, methods):
    names = [f"v{number}" for number in range(method.locals)]
    parameters = [f"p{number}" for number in range(method.parameters)]
    first = method.parameters + 1
    own = sorted({first, first + method.locals - 1, chance.randrange(first, first + method.locals)}) if method.locals else []
    unit = Unit(chance, constants, methods, [*range(1, first), *own])
    for number in own:
        unit.add(f"BIPUSH {chance.randrange(-128, 256)}", 1)
        unit.add(f"ISTORE {number}", -1)
    unit.block(chance.choice([3, 6, 10]), 1)
    unit.level(unit.depth or 1)
    lines = [f".method {method.name}({', '.join(parameters)})"]
    if names:
        lines += [".var", *("        " + name for name in names), ".end-var"]
    return [*lines, *unit.lines, "        IRETURN", ".end-method"]


def random_program(seed):
    """The program of a seed, the same on every machine."""
    chance = random.Random(seed)
    constants = chance.choice([3, 5, 5, 300])
    counts = [chance.choice([0, 1, 3, 3, 300, 400]) for _ in range(chance.randrange(4))]
    methods = [Method(f"m{number}", chance.randrange(1, 4), count) for number, count in enumerate(counts)]
    lines = [".constant"]
    lines += [f"        c{number} {chance.choice([*NUMBERS, chance.randrange(1 << 32)])}" for number in range(constants)]
    lines += [".end-constant", "", *main_lines(chance, constants, methods)]
    for number, method in enumerate(methods):
        lines += ["", *method_lines(chance, constants, method, methods[number + 1 :])]
    given = bytes(chance.choice([*BYTES, chance.randrange(256)]) for _ in range(chance.randrange(12)))
    return Program("\n".join(lines) + "\n", given)
