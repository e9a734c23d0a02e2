"""A trace of mic, cycle by cycle."""
import re

from .command_line import Fault

REGISTERS = {
    "mic1": "MAR MDR PC MBR SP LV CPP TOS OPC H MPC".split(),
    "mic2": "MAR MDR PC BYTES IMAR SP LV CPP TOS OPC H MPC".split(),
}
CONSOLE = 0xFFFFFFFD
EXPRESSION_NAMES = {"AND", "OR", "NOT", "N", "Z"}


class Statement:
    """A statement as the line of its cycle shows it: `MPC LABEL TEXT`. A stalled cycle of Mic-2 has the text `stall`."""

    def __init__(self, line):
        self.mpc, self.label, self.text = line.rstrip("\n").split(" ", 2)
        parts = self.text.split("; ")
        self.stalls = self.text == "stall"
        self.access = "read" if "rd" in parts else "write" if "wr" in parts else None
        self.fetches = "fetch" in parts
        # of a chain D=D=E all but the last are destinations
        self.destinations = parts[0].split("=")[:-1]

    def __str__(self):
        return f"{self.mpc} {self.label} {self.text}"


def cycles(lines, other):
    """Yields each cycle of a trace: its statement, its line of buses or None, its line of registers after the edge, and the
    text of the boundary that it came to or None (`00000002 OUT`). Every other line is appended to `other`."""
    statements, count = {}, 0
    statement = buses = registers = boundary = None
    for line in lines:
        start = line[:3]
        if start == "  a":
            buses = line
        elif start == "  M":
            registers = line
        elif start == "at ":
            boundary = line[3:].rstrip("\n")
        elif "0" <= start[:1] <= "9":
            if statement:
                yield statement, buses, whole(count, registers), boundary
            count += 1
            number, _, rest = line.partition(" ")
            if number != str(count) or rest.count(" ") < 2:
                raise Fault(65, f"cycle {count} is missing")
            if rest not in statements:
                statements[rest] = Statement(rest)
            statement, buses, registers, boundary = statements[rest], None, None, None
        else:
            other.append(line)
    if statement:
        yield statement, buses, whole(count, registers), boundary


def whole(count, registers):
    if registers is None:
        raise Fault(65, f"cycle {count} has no registers")
    return registers


def values(line):
    """A line of names and values, such as `  MAR 00008000 MDR ..`, as a dictionary of texts."""
    words = line.split()
    return dict(zip(words[::2], words[1::2]))


def number_of(line, name):
    """The value of one register in a line of registers."""
    at = line.find(f" {name} ") + len(name) + 2
    return int(line[at : at + 8], 16)


def access(statement, registers):
    """The kind of a cycle's access, its word address and the word in MDR at its edge; or None."""
    if statement.access is None:
        return None
    return statement.access, int(registers[6:14], 16), int(registers[19:27], 16)


def report(lines):
    """A report of mic: end, cycles, instructions, boundary (cycle, address, SP, LV) or None, and registers; what is missing is None."""
    found = {"end": None, "cycles": None, "instructions": None, "boundary": None, "registers": None}
    for line in lines:
        line = line.rstrip("\n")
        if line.startswith("end "):
            found["end"] = line[4:]
        elif place := re.fullmatch(r"cycles (\d+) instructions (\d+)", line):
            found["cycles"], found["instructions"] = int(place[1]), int(place[2])
        elif place := re.fullmatch(r"boundary (\d+) at (\w+) sp (\w+) lv (\w+)", line):
            found["boundary"] = (int(place[1]), *(int(word, 16) for word in place.groups()[1:]))
        elif line.startswith("MAR "):
            found["registers"] = values(line)
    return found
