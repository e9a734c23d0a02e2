"""A microprogram in its control store: of each address the statement, and its line in the text."""
import os
import re

from .command_line import Fault


class Microprogram:
    """The microprogram of a file, or the one that ships. `statements` has (label, text) for each address, as a trace shows them,
    `line_of` the line of an address, and `rows` the lines of the text."""

    def __init__(self, mic, machine, path, folder):
        self.mic, self.machine, self.path = mic, machine, path
        if path is None:
            self.name, path = "shipped", os.path.join(folder, "shipped.mal")
            with open(path, "w", encoding="ascii") as file:
                file.write(mic.says("print-micro", "--machine=" + machine).out)
        else:
            self.name = path
        with open(path, "rb") as file:
            self.rows = file.read().decode("latin-1").replace("\r\n", "\n").split("\n")
        store = os.path.join(folder, "store.mic")
        said = mic.says("micro", "--machine=" + machine, "--", path, store)
        if said.status:
            raise Fault(said.status, said.err.strip().removeprefix("mic: "))
        self.text = "\n".join(self.rows)
        with open(store, "rb") as file:
            self.store = file.read()
        self.read_listing(said.out.splitlines()[:-1])

    def read_listing(self, listing):
        """`mic micro` lists the statements in the order of their lines."""
        lines = [number for number, row in enumerate(self.rows, 1) if row.split("//")[0].strip() and not row.lstrip().startswith(".")]
        self.statements, self.line_of = {}, {}
        for line, row in zip(lines, listing):
            address, _, rest = row.split(" ", 2)
            first, _, text = rest.partition(" ")
            is_label = re.fullmatch(r"[A-Za-z_]\w*", first) and first not in ("rd", "wr", "fetch", "goto", "if")
            self.statements[address] = (first, text or ";") if is_label else ("-", rest)
            self.line_of[address] = line
        self.address_at = {line: address for address, line in self.line_of.items()}
