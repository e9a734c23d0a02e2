"""A debugger over a window of a run: a moment of it, and steps from one moment to another, forward and back."""
import re

from .command_line import Fault
from .frames import frames
from .history import MOST, History


class Debugger:
    """A step returns why it stopped: `step`, `break`, `watch`, `end` (of the run), `begin` or `window`."""

    def __init__(self, program, micro, first=0, most=MOST):
        self.program, self.micro, self.most = program, micro, most
        self.breaks, self.micro_breaks, self.watched = set(), set(), set()  # addresses of the text, of the store, of words
        self.open(first)

    def open(self, first):
        """Reads a window of the run, and goes to its first boundary."""
        self.history = History(self.program, first, self.most)
        self.moment = self.history.first
        if not first and self.history.boundaries:
            self.moment = self.history.boundaries[0]

    # ---- where it is

    @property
    def boundary(self):
        return self.history.boundary(self.moment)

    @property
    def address(self):
        """The address of the instruction that is running or next, or None before the first one."""
        return None if self.boundary is None else self.history.address(self.boundary)

    @property
    def is_inside(self):
        """Whether the moment is inside an instruction, and not at its beginning."""
        return self.boundary is None or self.history.boundaries[self.boundary] != self.moment

    def frames(self):
        return frames(self.history, self.moment)

    # ---- steps

    def moves(self, back, wanted):
        """Goes to the next boundary, or back to the one before, that is `wanted` or at a breakpoint. Watched words stop too."""
        history, begun = self.history, self.moment
        was = {address: history.word(begun, address) for address in self.watched}
        for at in self.boundaries(back):
            moment = history.boundaries[at]
            if self.stops_inside(begun, moment, back):
                return "break"
            begun = self.moment = moment
            if history.address(at) in self.breaks:
                return "break"
            if any(history.word(moment, address) != word for address, word in was.items()):
                return "watch"
            if wanted(at):
                return "step"
        edge = self.edge(back)
        if self.stops_inside(begun, edge, back):
            return "break"
        self.moment = edge
        return self.reason(back)

    def boundaries(self, back):
        """The numbers of the boundaries of the window after this moment, or back from it: inside an instruction its own beginning first."""
        history, place = self.history, -1 if self.boundary is None else self.boundary
        if not back:
            return range(place + 1, len(history.boundaries))
        last = place if self.is_inside else place - 1
        return (at for at in range(last, -1, -1) if history.boundaries[at] >= history.first)

    def edge(self, back):
        """The first or last moment of the window."""
        return self.history.first if back else self.history.last

    def reason(self, back):
        """Why a step stops at the edge of the window."""
        if back:
            return "begin" if self.history.first == 0 else "window"
        return "end" if self.history.end else "window"

    def stops_inside(self, begun, moment, back):
        """Goes to the first moment between two, the last one included, whose next statement has a breakpoint. Returns whether there is one."""
        if self.micro_breaks:
            for at in range(begun - 1, moment - 1, -1) if back else range(begun + 1, moment + 1):
                statement = self.history.statement(at)
                if statement and int(statement.mpc, 16) in self.micro_breaks:
                    self.moment = at
                    return True
        return False

    def is_line(self, boundary):
        """Whether a line begins at a boundary. A line of Tiny has many instructions."""
        address = self.history.address(boundary)
        program = self.program
        return program.kind != "tiny" or not program.line_of or program.first_at.get(program.line_of.get(address)) == address

    def depth(self):
        return self.history.depths[self.boundary] if self.boundary is not None else 0

    def step(self, back=False):
        return self.moves(back, self.is_line)

    def instruction(self, back=False):
        return self.moves(back, lambda at: True)

    def over(self, back=False):
        depth, depths = self.depth(), self.history.depths
        return self.moves(back, lambda at: depths[at] < depth or depths[at] == depth and self.is_line(at))

    def out(self, back=False):
        depth, depths = self.depth(), self.history.depths
        return self.moves(back, lambda at: depths[at] < depth)

    def go(self, back=False):
        return self.moves(back, lambda at: False)

    def cycle(self, back=False):
        """Goes one cycle on, or back."""
        if self.moment == self.edge(back):
            return self.reason(back)
        self.moment += -1 if back else 1
        return "step"

    def written(self, address):
        """Goes back to the beginning of the instruction that wrote a word last. Returns the moment after the write, or None."""
        at = self.history.last_write(self.moment, address)
        if at is not None:
            boundary = self.history.boundary(at - 1)
            self.moment = self.history.first if boundary is None else max(self.history.boundaries[boundary], self.history.first)
        return at

    def goto(self, moment):
        """Goes to a moment, in another window where it must."""
        if not self.history.first <= moment <= self.history.last:
            self.open(max(0, moment - self.most // 2))
        if moment > self.history.last:
            raise Fault(65, f"the run has {self.history.last} cycles")
        self.moment = moment

    # ---- places and words by their names

    def place(self, text):
        """The address that a label, METHOD.LABEL, method, line or address (0x..) names."""
        program = self.program
        if re.fullmatch(r"0x[0-9a-fA-F]+|[0-9a-f]{8}", text):
            return int(text, 16)
        if text.isdecimal():
            lines = [line for line in program.first_at if line >= int(text)]
            return program.first_at[min(lines)] if lines else None
        if text in program.unit_named:
            return program.unit_named[text].entry
        unit, _, label = text.rpartition(".")
        found = [at for (of, name), at in program.labels.items() if name == label and unit in ("", of)]
        if len(found) > 1:
            raise Fault(65, f"several methods have a label {label}: type METHOD.{label}")
        return found[0] if found else None

    def micro_place(self, text):
        """The address in the control store that a label, a line of the microprogram or an address names."""
        if re.fullmatch(r"0x[0-9a-fA-F]+|[0-9a-f]{3}", text):
            return int(text, 16)
        if text.isdecimal():
            address = self.micro.address_at.get(int(text))
            return int(address, 16) if address else None
        return next((int(at, 16) for at, (label, _) in self.micro.statements.items() if label == text), None)

    def word_named(self, text, frame=None):
        """The word of a local, an operand (`operand 0`) or an address; or None."""
        if re.fullmatch(r"0x[0-9a-fA-F]+|[0-9a-f]{8}", text):
            return int(text, 16)
        frame = frame or next(iter(self.frames()), None)
        return next((word.address for word in frame.words if word.name == text), None) if frame else None
