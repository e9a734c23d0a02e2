"""A direct-mapped cache beside Mic-1, as docs/machines.md draws it: which word misses, and which block a miss throws out."""
import collections
from dataclasses import dataclass

from .image import FRAMES, POOL
from .trace import CONSOLE, access, number_of, report

BLOCK = 4  # words


@dataclass
class Miss:
    cycle: int
    word: int  # its address
    kind: str  # `read` or `fetch`
    line: int  # of the cache
    before: int  # the block that was there, or None
    at: str  # the instruction that is running


class Cache:
    def __init__(self, program, lines):
        self.program, self.lines = program, lines
        self.blocks, self.hits, self.misses = {}, 0, []
        other, at = [], "boot"
        for cycle, (statement, _, registers, boundary) in enumerate(program.cycles(program.settings, other), 1):
            if statement.access == "read":
                self.take(cycle, access(statement, registers)[1], "read", at)
            if statement.fetches:
                self.take(cycle, number_of(registers, "PC") // 4, "fetch", at)
            at = boundary or at
        self.report = report(other)

    def take(self, cycle, word, kind, at):
        """A read or a fetch. The console passes by the cache."""
        if word == CONSOLE:
            return
        block = word // BLOCK
        line = block % self.lines
        if self.blocks.get(line) == block:
            self.hits += 1
            return
        self.misses.append(Miss(cycle, word, kind, line, self.blocks.get(line), at))
        self.blocks[line] = block

    def groups(self):
        """How often each word's block misses, by line, block and the block that it throws out, the most frequent first."""
        found = collections.Counter((miss.line, miss.word // BLOCK, miss.before) for miss in self.misses)
        return sorted(found.items(), key=lambda item: (-item[1], item[0][0], item[0][1], -1 if item[0][2] is None else item[0][2]))

    def words(self):
        """How often each word misses, the most frequent first."""
        found = collections.Counter(miss.word for miss in self.misses)
        return sorted(found.items(), key=lambda item: (-item[1], item[0]))


def name_of(program, word):
    """What a word of memory holds: lines of the source, a constant, a local of main, or a place of the stack."""
    if word < POOL:
        lines = sorted({program.line_of[at] for at in program.line_of if at // 4 == word})
        return f"text {word:04x}" + (f", line {lines[0]}" + (f" to {lines[-1]}" if lines[1:] else "") if lines else "")
    if word < FRAMES:
        place = word - POOL
        name = program.constants.get(place) or next((unit.name for unit in program.units[1:] if program.image.pool[place : place + 1] == [unit.address]), None)
        return f"pool {word:04x}" + (f", {name}" if name else "")
    name = program.units[0].names.get(word - FRAMES) if word - FRAMES < program.main_locals else None
    return f"stack {word:04x}" + (f", {name}" if name else "")


def block_of(program, block):
    """The words of a block."""
    if block is None:
        return "nothing"
    kind = "text" if block * BLOCK < POOL else "pool" if block * BLOCK < FRAMES else "stack"
    return f"{kind} {block * BLOCK:04x}-{block * BLOCK + BLOCK - 1:04x}"
