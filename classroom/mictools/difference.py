"""The first difference of two runs: at each instruction boundary what IJVM can see is compared."""
from dataclasses import dataclass, field

from .image import FRAMES
from .trace import CONSOLE, access, number_of, report

SEEN = ("SP", "LV", "CPP", "TOS")
WITH_PLACES = {"LDC_W", "INVOKEVIRTUAL", "GOTO", "IFEQ", "IFLT", "IF_ICMPEQ"}


class Side:
    """One of the two runs, boundary by boundary. `boundary` is None at the end."""

    def __init__(self, program, settings, is_shown):
        self.other, self.image = [], program.image.memory()
        self.memory = dict(self.image)
        self.cycles = program.cycles(settings, self.other, is_shown)
        self.count = 0  # cycles
        self.output, self.reads = bytearray(), 0
        self.registers = ""
        self.step()

    def step(self):
        """Goes on to the next boundary, or to the end."""
        self.statements, self.written, self.begun, self.boundary = [], set(), self.count, None
        for statement, _, registers, boundary in self.cycles:
            self.count += 1
            self.registers = registers
            self.statements.append((self.count, statement))
            self.take(access(statement, registers))
            if boundary:
                self.boundary = boundary
                return

    def take(self, done):
        if done is None:
            return
        kind, address, word = done
        if address == CONSOLE and kind == "write":
            self.output.append(word & 255)
        elif address == CONSOLE:
            self.reads += 1
        elif kind == "write":
            self.memory[address] = word
            self.written.add(address)

    @property
    def next(self):
        """The next instruction, or the end."""
        return self.boundary or f"end {report(self.other)['end']}"

    @property
    def spent(self):
        return self.count - self.begun

    def seen(self, name):
        return number_of(self.registers, name)


@dataclass
class Difference:
    """What two runs have in common, and where they part: `what` is empty where nothing differs."""

    instruction: str = "boot"  # the last one that both began alike
    boundaries: int = 0  # that are alike
    what: list = field(default_factory=list)  # kind, place or None, and the two values
    sides: tuple = ()
    costs: dict = field(default_factory=dict)  # of each instruction how often it was completed, and the cycles of the two runs
    bound: bool = False  # a bound ended a run, and up to there nothing differs


def same_form(one, other):
    """Whether two programs have the same instruction next, but for operands that are places of the text or of the pool."""
    one, other = one.split(" ")[1:], other.split(" ")[1:]
    return one[:1] == other[:1] if one[:1] and one[0] in WITH_PLACES else one == other


def return_addresses(side):
    """The words of the running frames that hold addresses of the text."""
    found, frame = set(), side.seen("LV")
    while frame > FRAMES and (link := side.memory.get(frame, 0)) not in found:
        found.add(link)
        frame = side.memory.get(link + 1, 0)
    return found


class Comparison:
    def __init__(self, one, other, two_programs=False, with_cycles=False):
        self.one, self.other, self.two_programs, self.with_cycles = one, other, two_programs, with_cycles
        self.differing = set()  # the words that differ

    def run(self):
        """Compares to the first difference, or to the end."""
        one, other, found = self.one, self.other, Difference(sides=(self.one, self.other))
        while True:
            if "end bound" in (one.next, other.next):
                found.bound = True
                return found
            found.what = self.differences()
            if found.what:
                return found
            count, first, second = found.costs.get(kind_of(found.instruction), (0, 0, 0))
            found.costs[kind_of(found.instruction)] = (count + 1, first + one.spent, second + other.spent)
            if one.boundary is None:
                return found
            found.boundaries += 1
            found.instruction = one.boundary
            one.step()
            other.step()

    def differences(self):
        one, other, found = self.one, self.other, []
        goes_on = one.boundary is not None and other.boundary is not None
        if one.next != other.next and not (self.two_programs and goes_on and same_form(one.next, other.next)):
            found.append(("next", None, one.next, other.next))
        if goes_on:
            found += [("register", name, *values) for name in SEEN if len(set(values := (f"{one.seen(name):08x}", f"{other.seen(name):08x}"))) == 2]
            found += self.words()
        if one.output != other.output:
            found.append(("written", None, *(repr(bytes(side.output[-20:]))[1:] for side in (one, other))))
        if one.reads != other.reads:
            found.append(("read", None, str(one.reads), str(other.reads)))
        if self.with_cycles and goes_on and one.spent != other.spent:
            found.append(("cycles", None, str(one.spent), str(other.spent)))
        return found

    def words(self):
        """The words of the stack, and of a program that is the same the words of text and pool, that differ."""
        one, other = self.one, self.other
        for address in one.written | other.written:
            (self.differing.discard if one.memory.get(address, 0) == other.memory.get(address, 0) else self.differing.add)(address)
        if not self.differing:
            return
        hidden = return_addresses(one) if self.two_programs else ()
        for address in sorted(self.differing):
            is_seen = FRAMES <= address <= one.seen("SP") or not self.two_programs and address in one.image
            if is_seen and address not in hidden:
                yield "word", address, f"{one.memory.get(address, 0):08x}", f"{other.memory.get(address, 0):08x}"


def kind_of(instruction):
    """The name of an instruction, from its line at a boundary."""
    words = instruction.split(" ")
    return " ".join(words[1 : 3 if words[1:2] == ["WIDE"] else 2]) or instruction
