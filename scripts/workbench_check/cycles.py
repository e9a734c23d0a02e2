"""Compares what the workbench shows of each cycle with the trace: texts, lit wires, and what must hold among them."""
from __future__ import annotations

import re

from .trace import CONSOLE

FIELDS = {"mic1": [("Addr", 9), ("JAM", 3), ("ALU", 8), ("C", 9), ("Mem", 3), ("B", 4)],
          "mic2": [("Addr", 9), ("JAM", 3), ("ALU", 8), ("C", 9), ("Mem", 2), ("A", 4), ("B", 4)]}
OPERATIONS = {
    "A": lambda a, b: a, "B": lambda a, b: b, "NOT A": lambda a, b: ~a, "NOT B": lambda a, b: ~b, "A+B": lambda a, b: a + b,
    "A+B+1": lambda a, b: a + b + 1, "A+1": lambda a, b: a + 1, "B+1": lambda a, b: b + 1, "B-A": lambda a, b: b - a, "B-1": lambda a, b: b - 1,
    "-A": lambda a, b: -a, "A AND B": lambda a, b: a & b, "A OR B": lambda a, b: a | b, "0": lambda a, b: 0, "1": lambda a, b: 1, "-1": lambda a, b: -1,
}
BYTES = {"MBR1": 1, "MBR1U": 1, "MBR2": 2, "MBR2U": 2}


def assignment(text):
    """Of a statement the operands of its expression, its destinations and its shift"""
    first = text.split("; ")[0]
    if "=" not in first:
        return set(), [], ""
    *destinations, right = first.split("=")
    shift = "<<8" if right.endswith("<<8") else ">>1" if right.endswith(">>1") else ""
    right = right[:len(right) - len(shift)]
    operands = set(re.findall(r"[A-Z][A-Z0-9]*", re.sub(r"\b(AND|OR|NOT)\b", " ", right)))
    return operands, [name for name in destinations if name not in "NZ"], shift


class Comparison:
    """Walks over a run's cycles beside what is shown of them, with a memory and a console of its own"""

    def __init__(self, run, shown):
        self.run, self.shown, self.two = run, shown, run.machine == "mic2"
        self.before, self.memory = run.reset, dict(run.memory)
        self.reading = self.fetching = None
        self.writing = False
        self.input = list(run.run.get("input", "").encode("utf-8", "surrogateescape"))
        self.differences = []

    def compare(self):
        first = self.shown["first"]
        for cycle in self.run.cycles:
            self.prepare(cycle)
            place = cycle.number - first
            if 0 <= place < self.shown["count"]:
                self.cycle(cycle, self.shown["cycles"][place])
            self.edge(cycle)
            self.before = cycle.after
            if place >= self.shown["count"]:
                break
        return self.differences

    def want(self, what, given, right):
        if given != right:
            self.differences.append("cycle %d: %s is %r, and not %r" % (self.number, what, given, right))

    def prepare(self, cycle):
        """The statement of the cycle in full, also of a stall, and the word or byte that arrives at its edge"""
        self.number = cycle.number
        text = self.run.placed.get(cycle.mpc)
        if not cycle.stalled:
            self.statement = cycle.text
        else:
            self.statement = text if cycle.label == "-" else text[len(cycle.label) + 1:] or ";"
        self.operands, self.destinations, self.shift = assignment(self.statement)
        self.parts = self.statement.split("; ")
        self.stalled = cycle.stalled
        self.loads = [] if self.stalled else self.destinations
        arrives = None if self.stalled else self.reading
        if arrives == "console":
            arrives = self.input.pop(0) if self.input else 0
        self.arrives = arrives

    def cycle(self, cycle, shown):
        fields, wires = shown["fields"], set(shown["wires"])
        self.store(cycle, fields)
        self.alu(cycle, fields)
        self.enables(cycle, wires, shown["trunks"])
        self.registers(cycle, fields)
        self.ports(fields, wires)
        self.next(cycle, fields, wires)
        self.frame(shown["frame"])
        if self.two:
            self.queue(cycle, fields, wires)
        for sentence in shown["sentences"]:
            if re.search(r"undefined|NaN|null|\[object", sentence):
                self.want("a sentence", sentence, "words")

    def store(self, cycle, fields):
        """The statement, its word, and the word's fields"""
        label = "" if cycle.label == "-" else cycle.label
        cut = label if len(label) <= 34 else label[:33] + "…"
        self.want("the label", fields["label"], "%s  %s" % (cycle.mpc, cut))
        both = re.sub(r"\s+", " ", (fields["text0"] + " " + fields["text1"]).strip())
        self.want("the statement", both, self.statement if not both.endswith("…") else self.statement[:len(both) - 1] + "…")
        self.want("the word", fields["word"], "the word: " + self.run.words[cycle.mpc])
        machine = FIELDS[self.run.machine]
        bits = "".join(fields["bit-%s-%d" % (name, k)] for name, width in machine for k in range(width))
        self.want("the bits", bits, bin(int(self.run.words[cycle.mpc], 16))[2:].zfill(sum(width for _, width in machine)))

    def alu(self, cycle, fields):
        if self.stalled:
            self.want("the operation", fields["operation"], "stall")
            for name in ("a", "b", "alu", "c"):
                self.want(name, fields[name], "")
            return
        buses = cycle.buses
        for name in ("a", "b", "c"):
            self.want(name, fields[name], name.upper() + " " + buses[name])
        self.want("alu", fields["alu"], buses["alu"])
        for name in ("N", "Z"):
            self.want(name, fields[name], name + " " + buses[name.lower()])
        value = OPERATIONS[fields["operation"]](int(buses["a"], 16), int(buses["b"], 16)) & 0xFFFFFFFF
        self.want("the operation's value", "%08x" % value, buses["alu"])
        self.want("the shift", fields["shift"], self.shift or "as it is")

    def enables(self, cycle, wires, trunks):
        """The wires between registers and buses, by the statement's text; and what drives a bus is what it carries"""
        self.want("the wires of C", {wire[2:] for wire in wires if wire.startswith("C ")}, set(self.loads))
        row = (lambda name: name.rstrip("U")) if self.two else (lambda name: name)
        drivers = {wire[2:] for wire in wires if wire[:2] in ("A ", "B ") and wire not in ("A in", "B in")}
        if not self.two and "A in" in wires:
            drivers.add("H")
        self.want("what drives the buses", drivers, set() if self.stalled else {row(name) for name in self.operands})
        self.want("the trunk of C", "C" in trunks, bool(self.loads))
        self.want("the wire out of the ALU", "ALU out" in wires, bool(self.loads))
        for side in "AB":
            for name in (wire[2:] for wire in wires if wire.startswith(side + " ") and wire[2:] != "in"):
                self.carried(name, int(cycle.buses[side.lower()], 16))

    def carried(self, name, value):
        queue = self.before.get("BYTES", "").strip("-")
        if name in ("MBR", "MBRU"):
            self.want("the low byte of the bus", value & 0xFF, int(self.before["MBR"], 16))
        elif name in ("MBR1", "MBR2"):
            digits = 2 * int(name[3])
            self.want("the low bytes of the bus", value & (1 << 4 * digits) - 1, int(queue[:digits], 16))
        else:
            self.want("the bus of " + name, value, int(self.before[name], 16))

    def registers(self, cycle, fields):
        for name, before in self.before.items():
            if name == "BYTES":
                continue
            after = cycle.after[name]
            loaded = name in self.loads or name == "MDR" and self.arrives is not None or name == "MPC" and not self.stalled
            loaded = loaded or name == "MBR" and self.fetching is not None
            self.want("now " + name, fields["now-" + name], before)
            self.want("next " + name, fields["next-" + name], after if loaded or after != before else "")

    def ports(self, fields, wires):
        reading = self.reading is not None
        shown = [fields["wordPort"], fields["wordAt"], fields["wordData"]]
        if reading:
            right = ["read", self.before["MAR"], "" if self.stalled else "%08x" % self.arrives]
        else:
            right = ["write", self.before["MAR"], self.before["MDR"]] if self.writing else ["", "", ""]
        self.want("memory's port", shown, right)
        lit = {"MAR out", "MDR out"} if self.writing else {"MAR out"} | (set() if self.stalled else {"MDR in"}) if reading else set()
        self.want("the wires of memory", {"MAR out", "MDR in", "MDR out"} & wires, lit)
        if not self.stalled and {"rd", "wr"} & set(self.parts):
            self.want("what begins", fields["words"], "▸ read" if "rd" in self.parts else "▸ write")
        if self.two:
            return
        fetched = self.fetching
        self.want("the fetch", [fields["bytePort"], fields["byteAt"], fields["byteData"]],
                  ["fetch", self.before["PC"], "%02x" % fetched] if fetched is not None else ["", "", ""])
        self.want("the wires of the fetch", {"PC out", "MBR in"} & wires, {"PC out", "MBR in"} if fetched is not None else set())

    def next(self, cycle, fields, wires):
        self.want("the next MPC", fields["next-sum"], cycle.after["MPC"])
        tests = [part for part in self.parts if part.startswith("if ")]
        for name in ("N", "Z"):
            self.want(name + " tested", name in wires, not self.stalled and bool(tests) and "(%s)" % name in tests[0])
        self.want("the byte's wire", "byte" in wires, not self.stalled and "goto (MBR" in self.statement)
        if self.stalled:
            return
        total = int(fields["next-addr"], 16) | int(fields["next-byte"] or "0", 16) | int(fields["next-flag"] or "0", 16)
        self.want("Addr OR byte OR flag", "%03x" % total, cycle.after["MPC"])

    def queue(self, cycle, fields, wires):
        now, after = self.before["BYTES"].strip("-"), cycle.after["BYTES"].strip("-")
        for k in range(6):
            self.want("byte %d of the queue" % k, [fields["now-Q%d" % k], fields["next-Q%d" % k]], [now[2 * k:2 * k + 2], after[2 * k:2 * k + 2]])
        for name, digits in (("MBR1", 2), ("MBR2", 4)):
            self.want(name, fields["now-" + name], now[:digits] if len(now) >= digits else "–")
        jumps = "PC" in self.loads
        demand = 0 if self.stalled else max([BYTES.get(name, 0) for name in self.operands] + [0]) + ("goto (MBR1" in self.statement)
        right = "dropped" if jumps else "too short" if self.stalled else "takes %d" % demand if demand else ""
        self.want("what is taken", fields["takes"], right)
        if not jumps:
            self.want("how PC grows", int(cycle.after["PC"], 16) - int(self.before["PC"], 16) & 0xFFFFFFFF, demand)
        pending = self.memory.get(int(self.before["IMAR"], 16), 0)
        self.want("the pending word", fields["pending"], "%08x" % pending if len(now) <= 4 else "")
        self.want("its wire", "word up" in wires, len(now) <= 4)

    def frame(self, rows):
        for address, value, meaning in rows:
            self.want("word %08x" % address, value, self.memory.get(address, 0))
            number = re.match(r".* = (-?\d+)$", meaning)
            if number:
                self.want("the number of %08x" % address, int(number[1]) & 0xFFFFFFFF, value)

    def edge(self, cycle):
        if self.stalled:
            self.writing = False
            return
        address, data = int(cycle.after["MAR"], 16), int(cycle.after["MDR"], 16)
        self.reading = self.fetching = None
        self.writing = "wr" in self.parts
        if self.writing and address != CONSOLE:
            self.memory[address] = data
        if "rd" in self.parts:
            self.reading = "console" if address == CONSOLE else self.memory.get(address, 0)
        if "fetch" in self.parts:
            pc = int(cycle.after["PC"], 16)
            self.fetching = self.memory.get(pc // 4, 0) >> 24 - 8 * (pc % 4) & 255
