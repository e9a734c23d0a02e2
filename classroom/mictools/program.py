"""A program as it is given, a source, a program in Tiny or an image: what mic runs, and the lines and names that belong to it."""
import contextlib
import os
import re
import sys
import tempfile
from dataclasses import dataclass

from .command_line import Fault
from .image import Image
from .microprogram import Microprogram
from .progress import Progress
from .source import Source
from .tiny_source import read_tiny
from .trace import cycles, report

STEP = 10_000  # cycles between two looks at how far a run is


@dataclass
class Unit:
    """Main, or a method: where its text begins, and the names of parameters and locals by their numbers."""

    name: str
    address: int
    entry: int  # of its first instruction
    parameters: int  # with the object reference; 0 for main
    locals: int  # all words of its frame before the return address; of main all its locals
    names: dict


class Program:
    """Raises a fault where mic refuses the program. The methods that take a word understand the names of the source."""

    def __init__(self, mic, path, settings, folder):
        self.mic, self.path, self.settings, self.folder = mic, path, settings, folder
        with open(path, "rb") as file:
            data = file.read(1 << 20)
        self.kind = "tiny" if path.endswith(".tiny") else "image" if data[:1] == b"\x1d" else "source"
        self.rows = [] if self.kind == "image" else rows_of(data)
        self.run_path = path
        if self.kind == "tiny":
            self.run_path = os.path.join(folder, "program.ijvm")
            self.must("compile", "--", path, self.run_path)
        self.main_locals = int(self.must("verify", f"--map={settings.map}", "--", self.run_path).split()[-1])
        self.read_listing(self.must("list", f"--map={settings.map}", "--", self.run_path).splitlines())
        self.read_image()
        self.read_lines(data.decode("latin-1"))
        self.first_at = {}  # of each line the address of its first instruction
        for address in sorted(self.line_of, reverse=True):
            self.first_at[self.line_of[address]] = address

    def must(self, *words):
        said = self.mic.says(*words)
        if said.status:
            raise Fault(said.status, said.err.strip().removeprefix("mic: "))
        return said.out

    def read_listing(self, rows):
        self.listing = {int(row[:8], 16): row[9:] for row in rows if not row.startswith("pool")}
        self.instructions = {at: text for at, text in self.listing.items() if not re.match(r"(method|byte) ", text)}

    def read_image(self):
        path = self.run_path
        if self.kind == "source":
            path = os.path.join(self.folder, "image.ijvm")
            self.must("assemble", "--", self.path, path)
        with open(path, "rb") as file:
            self.image = Image(file.read())

    def read_lines(self, text):
        """The lines and the names: of a source from its text, of Tiny where the code laid out again is mic's, of an image none."""
        self.line_of, self.labels, self.constants, named = {}, {}, {}, {}
        if self.kind == "source":
            source = Source(text)
            for place, shown in enumerate(source.shown):
                if re.match(r"[0-9a-f]{8} (?!method )", shown[0]):
                    self.line_of[int(shown[0][:8], 16)] = place + 1
            named = {unit.address: unit for unit in source.units}
            self.labels = {(unit.name, label): at for unit in source.units for label, at in unit.labels.items()}
            self.constants = dict(enumerate(source.constants))
        elif self.kind == "tiny":
            tiny = read_tiny(text)
            if tiny and tiny.text == self.image.text:
                self.line_of = {at: line for at, line in tiny.line_of.items() if at in self.instructions}
                named = {function.unit.address: function.unit for function in tiny.functions}
        self.read_units(named)

    def read_units(self, named):
        """Main, and the methods that are reached."""
        own = {number: name for number, name in enumerate(named[0].names)} if 0 in named else {}
        self.units = [Unit("main", 0, 0, 0, self.main_locals, own)]
        for address, row in sorted(self.listing.items()):
            if row.startswith("method "):
                parameters, other = map(int, row.split()[1:])
                unit = named.get(address)
                name = unit.name if unit else f"method_{address:08x}"
                names = {number: name for number, name in enumerate(unit.names, 1)} if unit else {}
                self.units.append(Unit(name, address, address + 4, parameters, parameters + other, names))
        self.unit_named = {unit.name: unit for unit in self.units}

    def cycles(self, settings, other, is_shown=True):
        """The cycles of a run, as trace.cycles has them. In a terminal a line shows how far it is."""
        is_shown = is_shown and sys.stderr.isatty()
        with Progress(self.count_of_cycles(settings) if is_shown else 0, "cycles") as progress, self.mic.trace(self.run_path, settings) as lines:
            for number, cycle in enumerate(cycles(lines, other), 1):
                yield cycle
                if is_shown and number % STEP == 0:
                    progress.step(STEP)

    def count_of_cycles(self, settings):
        """How many cycles a run has. To run it is a hundred times as fast as to trace it."""
        words = ["run", *settings.given("machine", "map", "bound", "micro"), "--", self.run_path]
        given = b""
        if settings.input is not None:
            with open(settings.input, "rb") as file:
                given = file.read()
        return report(self.mic.says(*words, given=given).err.splitlines())["cycles"] or 0

    def unit_at(self, address):
        """The unit in whose text an address is."""
        return next((unit for unit in reversed(self.units) if unit.address <= address), self.units[0])

    def row(self, address):
        """The line of the source at an address, without its comment; of an image the instruction."""
        line = self.line_of.get(address)
        if line is None:
            return self.listing.get(address, "")
        return " ".join(self.rows[line - 1].split("//")[0].split())

    def place(self, address):
        """`FILE:LINE`, or `FILE:ADDRESS` where no line is known."""
        line = self.line_of.get(address)
        return f"{self.path}:{line}" if line else f"{self.path}:{address:08x}"

    def called(self, instruction):
        """The unit that an INVOKEVIRTUAL calls, by the text of the instruction; or None."""
        number = int(instruction.split()[1])
        entry = self.image.pool[number] if number < len(self.image.pool) else None
        return next((unit for unit in self.units[1:] if unit.address == entry), None)


def rows_of(data):
    """The lines of a file; bytes that are no UTF-8 are shown as such."""
    rows = data.decode("utf-8", "backslashreplace").split("\n")
    return [row[:-1] if row.endswith("\r") else row for row in (rows[:-1] if rows[-1] == "" else rows)]


@contextlib.contextmanager
def opened(mic, path, settings):
    """A program and a folder for what is made of it, which goes at the end."""
    with tempfile.TemporaryDirectory(prefix="mic.") as folder:
        yield Program(mic, path, settings, folder)


def microprogram_of(program):
    """The microprogram that a program's run clocks."""
    return Microprogram(program.mic, program.settings.machine, program.settings.micro, program.folder)
