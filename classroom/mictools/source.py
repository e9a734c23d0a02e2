"""An IJVM source with its addresses, names and labels, whether mic accepts or refuses it."""
import re

PLAIN = "NOP POP DUP SWAP IADD ISUB IAND IOR IRETURN IN OUT ERR HALT".split()
JUMPS = "IFEQ IFLT IF_ICMPEQ GOTO".split()
NAME = r"[A-Za-z_][A-Za-z0-9_]{0,63}"
TOKEN = re.compile(r"[ \t]*(\.[A-Za-z0-9_-]*|'.{0,2}|[-0-9][A-Za-z0-9_]*|[A-Za-z_][A-Za-z0-9_]*|[^ \t])", re.DOTALL)


class Unit:
    """Main, or a method. Its names are those of its parameters and locals, which have the numbers from `first` on."""

    def __init__(self, name, parameters, first, header):
        self.name, self.names, self.parameters, self.first = name, [], len(parameters), first
        self.places = {}  # of each name its place among the names; of a name that stands twice the first
        for parameter in parameters:
            self.add(parameter)
        self.header = header  # the place of its line in the source, counted from 0
        self.labels = {}  # of each label its address
        self.lines = []  # the place and the tokens of each line of code
        self.address = 0  # of a method's header, and of main's first instruction

    def add(self, name):
        self.places.setdefault(name, len(self.names))
        self.names.append(name)

    def local(self, operand):
        if operand in self.places:
            return self.places[operand] + self.first
        return number(operand, 0, 65535)


class Source:
    """`shown` has for each line what `mic list` prints of it, and then further rows: (left, name)."""

    def __init__(self, text):
        self.lines = [line[:-1] if line.endswith("\r") else line for line in text.split("\n")]
        if self.lines[-1] == "":
            self.lines.pop()
        self.shown = [[""] for _ in self.lines]
        self.constants, self.mains, self.methods = [], [], []
        self.indexes = {}  # of each constant and of each method its place in the pool
        self.read()
        for index, name in enumerate(self.constants + [unit.name for unit in self.methods]):
            self.indexes.setdefault((name, index >= len(self.constants)), index)
        self.lay_out()
        self.show_methods()

    @property
    def units(self):
        """Main and then the methods, in the order of their addresses."""
        return self.mains + self.methods

    def read(self):
        """Finds the sections, the names and the lines of code."""
        unit = inside = None
        for place, line in enumerate(self.lines):
            tokens = TOKEN.findall(line.split("//")[0].rstrip(" \t"))
            if not tokens:
                continue
            word = tokens[0]
            if word == ".main":
                unit, inside = Unit("main", [], 0, place), "code"
                self.mains.append(unit)
            elif word == ".method" and len(tokens) > 1:
                unit, inside = Unit(tokens[1], re.findall(NAME, " ".join(tokens[2:])), 1, place), "code"
                self.methods.append(unit)
            elif word in (".constant", ".var", ".end-var"):
                inside = {".constant": "constants", ".var": "names", ".end-var": "code"}[word]
            elif word in (".end-main", ".end-method", ".end-constant"):
                unit = inside = None
            else:
                self.read_inside(unit, inside, place, tokens)

    def read_inside(self, unit, inside, place, tokens):
        """Takes a line that begins or ends no section."""
        if inside == "constants" and len(tokens) == 2:
            value = number(tokens[1], -2147483648, 4294967295)
            self.shown[place] = ["pool %d %s" % (len(self.constants), "?" if value is None else "%08x" % (value % 2**32))]
            self.constants.append(tokens[0])
        elif inside == "names" and unit and len(tokens) == 1:
            self.shown[place] = ["local %d" % (len(unit.names) + unit.first)]
            unit.add(tokens[0])
        elif inside == "code" and unit:
            unit.lines.append((place, tokens))
        else:
            self.shown[place] = ["?"]

    def lay_out(self):
        """Gives each line its address: main comes first, and then the methods in their order, each after its header of four bytes."""
        address, placed = 0, []
        for unit in self.units:
            unit.address = address
            address += 4 if unit in self.methods else 0
            for place, tokens in unit.lines:
                if len(tokens) > 1 and tokens[1] == ":":
                    unit.labels.setdefault(tokens[0], address)
                    tokens = tokens[2:]
                placed.append((unit, place, address, tokens))
                address += self.instruction(unit, tokens)[0]
        for unit, place, address, tokens in placed:
            self.shown[place] = [("%08x %s" % (address, self.instruction(unit, tokens)[1])).rstrip()]

    def show_methods(self):
        for index, unit in enumerate(self.methods):
            rows = ["%08x method %d %d" % (unit.address, unit.parameters + 1, len(unit.names) - unit.parameters)]
            rows += [("pool %d %08x" % (len(self.constants) + index, unit.address), unit.name)]
            rows += [("local %d" % (place + 1), name) for place, name in enumerate(unit.names[: unit.parameters])]
            self.shown[unit.header] = rows

    def instruction(self, unit, tokens):
        """Returns the size of an instruction, and its text."""
        wide = tokens[:1] != [] and tokens[0].upper() == "WIDE"
        name, operands = " ".join(tokens[wide : wide + 1]).upper(), tokens[wide + 1 :]
        first = operands[0] if operands else ""
        if not tokens:
            return 0, ""
        if wide and name not in ("ILOAD", "ISTORE", "IINC"):
            return 0, "?"
        if name in PLAIN and not operands:
            return 1, name
        if name == "IINC" and len(operands) == 2:
            return self.increment(unit.local(first), number(operands[1], -32768, 32767), wide)
        if len(operands) != 1:
            return 0, "?"
        if name == "BIPUSH":
            value = number(first, -128, 255)
            return 2, spelled(name, value if value is None or value < 128 else value - 256)
        if name == "LDC_W":
            return 3, spelled(name, self.indexes.get((first, False), number(first, 0, 65535)))
        if name in ("ILOAD", "ISTORE"):
            local = unit.local(first)
            return (4, spelled("WIDE " + name, local)) if wide or (local or 0) > 255 else (2, spelled(name, local))
        if name in JUMPS:
            return 3, "%s %s" % (name, "%08x" % unit.labels[first] if first in unit.labels else "?")
        if name == "INVOKEVIRTUAL":
            return 3, spelled(name, self.indexes.get((first, True)))
        return 0, "?"

    @staticmethod
    def increment(local, by, wide):
        if wide or (local or 0) > 255 or not -128 <= (by or 0) <= 255:
            return 6, spelled("WIDE IINC", local, by)
        return 3, spelled("IINC", local, by if by is None or by < 128 else by - 256)


def number(token, least, most):
    """The value of a number in this range, or None."""
    if re.match(r"'[ -~]'$", token):
        value = ord(token[1])
    elif re.match(r"-?0x[0-9A-Fa-f]+$", token):
        value = int(token, 16)
    elif re.match(r"-?[0-9]+$", token):
        value = int(token)
    else:
        return None
    return value if least <= value <= most else None


def spelled(name, *operands):
    return " ".join([name] + ["?" if operand is None else str(operand) for operand in operands])


def read_source(path):
    """Reads a source. Its bytes are kept as they are, one character each."""
    with open(path, "rb") as file:
        return Source(file.read().decode("latin-1"))
