"""How often each instruction, each way of a branch and each statement of the microprogram ran."""
import collections

from .trace import report


class Coverage:
    """`begun` counts the boundaries at an address, `ways` of a branch how often it jumped and how often not,
    `completed` and `spent` by the names of instructions what `mic profile` prints, `statements` the clocked words of the store."""

    def __init__(self, program):
        self.program = program
        self.begun, self.statements = collections.Counter(), collections.Counter()
        self.ways = collections.defaultdict(lambda: [0, 0])
        self.completed, self.spent = collections.Counter(), collections.Counter()
        self.stalls, self.runs = 0, []

    def add(self, settings, is_shown):
        """Runs the program once more, with these settings."""
        other, before, since = [], None, 0
        for count, (statement, _, _, boundary) in enumerate(self.program.cycles(settings, other, is_shown), 1):
            if statement.stalls:
                self.stalls += 1
            else:
                self.statements[statement.mpc] += 1
            if boundary:
                self.passes(before, boundary, count - since)
                before, since = boundary, count
        said = report(other)
        if before and said["end"] in ("halt", "error"):
            self.completes(before, said["cycles"] - since)
        self.runs.append(said)

    def passes(self, before, boundary, cost):
        """From one boundary to the next one."""
        address = int(boundary[:8], 16)
        self.begun[address] += 1
        if before is None:
            return
        self.completes(before, cost)
        words = before.split(" ")
        if words[1].startswith("IF"):
            self.ways[int(words[0], 16)][int(words[2], 16) != address] += 1

    def completes(self, boundary, cost):
        words = boundary.split(" ")
        name = " ".join(words[1 : 3 if words[1] == "WIDE" else 2])
        self.completed[name] += 1
        self.spent[name] += cost

    def line_counts(self):
        """Of each line with code how often its first instruction began; lines that nothing reaches count too."""
        return {line: self.begun[address] for line, address in sorted(self.program.first_at.items())}

    def line_ways(self):
        """Of each line with branches that are reached: a list of [jumped, not]."""
        found = collections.defaultdict(list)
        for address, text in sorted(self.program.instructions.items()):
            line = self.program.line_of.get(address)
            if text.startswith("IF") and line:
                found[line].append(self.ways[address])
        return found
