"""A window of a run, cycle by cycle: registers, memory, boundaries and calls at each moment of it.

Moment n is the time after n cycles, from `first` to `last`. The run goes on after the window where `end` is None."""
import bisect
import contextlib
import itertools

from .command_line import Fault
from .trace import CONSOLE, access, report, values

MOST = 200_000  # cycles of a window: some 250 bytes each


class History:
    def __init__(self, program, first=0, most=MOST):
        self.program, self.first = program, first
        self.memory = program.image.memory()  # as it is at the first moment
        self.writes = {}  # of each word address: the moments at which it was written, and the words
        self.statements, self.lines = [], []  # of cycle n at n - first - 1: its statement, and its registers
        self.boundaries, self.instructions, self.depths = [], [], []  # moments, the text at each, and how many calls are running there
        self.output, self.reads = [], []  # (moment, byte) that was written, and the moments of reads
        self.before = "  " + program.mic.says("debug", *self.given(), "--", program.run_path, given=b"regs\n").err.split("\n")[0]
        other = []
        with contextlib.closing(program.cycles(program.settings, other)) as all_cycles:
            self.read(all_cycles, most)
        self.last = first + len(self.lines)
        if not self.lines and first:
            raise Fault(65, f"the run has no cycle {first + 1}")
        self.report = report(other)
        self.end = self.report["end"]

    def given(self):
        return self.program.settings.given("machine", "bound", "micro", "map")

    def read(self, all_cycles, most):
        for moment, (statement, _, registers, boundary) in enumerate(itertools.islice(all_cycles, self.first + most), 1):
            if moment <= self.first:
                self.before = registers
            else:
                self.statements.append(statement)
                self.lines.append(registers)
            if statement.access:
                self.take(moment, *access(statement, registers))
            if boundary:
                self.take_boundary(moment, boundary)

    def take(self, moment, kind, address, word):
        if address == CONSOLE:
            if kind == "write":
                self.output.append((moment, word & 255))
            else:
                self.reads.append(moment)
        elif kind == "write" and moment <= self.first:
            self.memory[address] = word
        elif kind == "write":
            moments, words = self.writes.setdefault(address, ([], []))
            moments.append(moment)
            words.append(word)

    def take_boundary(self, moment, boundary):
        before = self.instructions[-1].split(" ")[1] if self.instructions else ""
        depth = self.depths[-1] if self.depths else 0
        if moment <= self.first:
            self.boundaries, self.instructions, self.depths = [], [], []
        self.boundaries.append(moment)
        self.instructions.append(boundary)
        self.depths.append(depth + (before == "INVOKEVIRTUAL") - (before == "IRETURN"))

    # ---- what holds at a moment

    def registers(self, moment):
        """The registers, by their names, as texts."""
        return values(self.before if moment == self.first else self.lines[moment - self.first - 1])

    def register(self, moment, name):
        return int(self.registers(moment)[name], 16)

    def word(self, moment, address):
        moments, words = self.writes.get(address, ((), ()))
        at = bisect.bisect_right(moments, moment)
        return words[at - 1] if at else self.memory.get(address, 0)

    def last_write(self, moment, address):
        """The last moment up to this one at which a word was written, or None."""
        moments = self.writes.get(address, ((), ()))[0]
        at = bisect.bisect_right(moments, moment)
        return moments[at - 1] if at else None

    def statement(self, moment):
        """The statement that comes next, or None at the end of the window."""
        return self.statements[moment - self.first] if moment < self.last else None

    def boundary(self, moment):
        """The number of the last boundary up to this moment, or None before the first one."""
        at = bisect.bisect_right(self.boundaries, moment)
        return at - 1 if at else None

    def address(self, boundary):
        """The address of the instruction at a boundary."""
        return int(self.instructions[boundary][:8], 16)

    def written(self, before, moment):
        """The bytes that were written after one moment and up to another."""
        first, last = (bisect.bisect_right(self.output, (at, 256)) for at in (before, moment))
        return bytes(byte for _, byte in self.output[first:last])
