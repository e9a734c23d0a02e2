"""A refusal of mic with its line, its names and what to look for."""
import os
import re
from dataclasses import dataclass, field

from .messages import advice_for, filled, in_words, sentences
from .program import rows_of
from .source import Source


@dataclass
class Refusal:
    file: str
    line: int = None
    address: str = None  # in the text of the program
    message: str = ""  # as mic prints it after file, line and address
    words: str = ""
    source: str = ""  # the line, without its comment
    notes: list = field(default_factory=list)
    advice: list = field(default_factory=list)

    def __str__(self):
        place = f"{self.file}:{self.line}: " if self.line else f"{self.file}: {self.address} " if self.address else f"{self.file}: "
        return f"{place}{self.words}" + (f"  [{self.source}]" if self.source else "")

    def rest(self):
        """The notes and the advice, a line each."""
        return self.notes + [filled(sentences()["notes"]["advice"], advice=advice) for advice in self.advice]


def language_of(path):
    return {".mal": "mal", ".tiny": "tiny"}.get(os.path.splitext(path)[1], "ijvm")


def refusal(path, printed):
    """Reads the message that mic printed of the file at `path`."""
    message = printed.strip().split("\n")[-1]
    start = "mic: " + os.fsencode(path).decode("latin-1") + ":"
    if not message.startswith(start):
        return Refusal(path, message=message, words=message.removeprefix("mic: "))
    line, text = re.fullmatch(r"(?:(\d+):)? (.*)", message[len(start) :]).groups()
    found = Refusal(path, int(line) if line else None, message=text, words=text)
    with open(path, "rb") as file:
        data = file.read(1 << 20)
    rows = [] if data[:1] == b"\x1d" else rows_of(data)
    if language_of(path) == "ijvm" and not found.line:
        explain(found, data if rows else None)
    if found.line and found.line <= len(rows):
        found.source = " ".join(rows[found.line - 1].split("//")[0].split())
    found.advice = advice_for(language_of(path), found.message, found.line, found.source)
    return found


def explain(found, data):
    """Gives a message of the verifier its line, and says it in words with the names of a source; of an image there is no source."""
    place = re.fullmatch(r"([0-9a-f]{8}) (.*)", found.message)
    if place:
        found.address, found.message = place.groups()
    constant = re.match(r"constant (\d+) is", found.message)
    found.words = found.message
    if data is None:
        return
    source = Source(data.decode("latin-1")) if place or constant else None
    if place:
        explain_address(found, source, int(found.address, 16))
    elif constant:
        unit = method_of(source, int(constant[1]))
        found.line = unit.header + 1 if unit else None
        found.words = in_words(found.message, method=unit.name if unit else f"method of constant {constant[1]}")
    else:
        found.words = in_words(found.message)


def explain_address(found, source, address):
    shown = {int(row[0][:8], 16): (place, row[0][9:]) for place, row in enumerate(source.shown) if re.match(r"[0-9a-f]{8} \S", row[0])}
    unit = next((unit for unit in reversed(source.units) if unit.address <= address), None)
    header = next((unit for unit in source.methods if unit.address <= address < unit.address + 4), None)
    before = max((other for other in shown if other <= address), default=None)
    if before is None:
        return
    place, instruction = shown[before]
    if header:
        found.notes.append(filled(sentences()["notes"]["header"], unit=header.name))
        place = header.header
    found.line = place + 1
    local = re.search(r"local (\d+)", found.message)
    called = re.match(r"INVOKEVIRTUAL (\d+)", instruction)
    method = method_of(source, int(called[1])) if called else None
    found.words = in_words(
        found.message, unit=unit.name, local=local_named(unit, int(local[1])) if local else "", method=method.name if method else "the method")
    if found.message.startswith("depth"):
        found.notes.append(ways_to(shown, address, unit))
    found.notes.append(filled(sentences()["notes"]["place"], unit=unit.name, address=found.address))


def method_of(source, constant):
    place = constant - len(source.constants)
    return source.methods[place] if 0 <= place < len(source.methods) else None


def local_named(unit, number):
    place = number - unit.first
    if 0 <= place < len(unit.names):
        return filled(sentences()["local"], number=number, name=unit.names[place])
    return f"local {number}"


def ways_to(shown, address, unit):
    """The lines from which the program comes to an address."""
    notes = sentences()["notes"]
    jumps = sorted(place + 1 for place, text in shown.values() if re.fullmatch(r"(IF\w+|GOTO) %08x" % address, text))
    before = max((other for other in shown if other < address), default=None)
    ways = [filled(notes["way"], line=line) for line in jumps]
    if before is None or shown[before][1].startswith("method"):
        ways.insert(0, filled(notes["way begin"], unit=unit.name))
    elif not re.match(r"GOTO|IRETURN|HALT|ERR", shown[before][1]):
        ways.insert(0, notes["way above"])
    return filled(notes["ways"], ways=", ".join(ways))
