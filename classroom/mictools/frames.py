"""The frames of the running methods at a moment, with the names of their locals."""
from dataclasses import dataclass

from .image import FRAMES

DEEPEST = 10_000


@dataclass
class Word:
    """A word of a frame, and what it is."""

    name: str
    address: int
    value: int


@dataclass
class Frame:
    unit: object
    address: int  # of the instruction that is next here, or of the call that has not returned
    lv: int
    words: list  # from LV on: locals, return address and caller's LV, operands

    def locals(self):
        """The parameters and locals, without the link word."""
        return [word for word in self.words[1 if self.unit.parameters else 0 : self.unit.locals]]

    def operands(self):
        return self.words[self.unit.locals + (2 if self.unit.parameters else 0) :]


def frames(history, moment):
    """The frames at the last boundary up to a moment, the running one first. Where the words of a call are no frame, as a
    microprogram of one's own may have it, the list ends there."""
    boundary = history.boundary(moment)
    if boundary is None:
        return []
    moment = history.boundaries[boundary]
    address, lv, sp = history.address(boundary), history.register(moment, "LV"), history.register(moment, "SP")
    found = []
    while len(found) < DEEPEST:
        unit = history.program.unit_at(address)
        found.append(Frame(unit, address, lv, words_of(history, moment, unit, lv, sp)))
        link = lv + unit.locals
        if not unit.parameters or history.word(moment, lv) != link:
            return found
        address, sp, lv = history.word(moment, link) - 3, lv - 1, history.word(moment, link + 1)
        if not FRAMES <= lv <= sp + 1:
            return found
    return found


def words_of(history, moment, unit, lv, sp):
    """The words from LV up to SP; the locals also where SP is not above them."""
    last = max(min(sp, lv + 100_000), lv + unit.locals - 1)
    return [Word(name_of(unit, place), lv + place, history.word(moment, lv + place)) for place in range(last - lv + 1)]


def name_of(unit, place):
    """What the word at this place of a unit's frame is."""
    if unit.parameters and place == 0:
        return "link word"
    if place < unit.locals:
        return unit.names.get(place, f"local {place}")
    if unit.parameters and place < unit.locals + 2:
        return "return address" if place == unit.locals else "caller's LV"
    return f"operand {place - unit.locals - (2 if unit.parameters else 0)}"
