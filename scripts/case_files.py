"""The cases of crates/cases/data, read as the program `cases` of the gate reads them. CONTRIBUTING.md describes the form.

    for name in named_cases(read_index(), ["refused", "run/echo"]):
        case = read_case(name)

A case is a call of mic or mic-check: its words, the files and the standard input that it finds, and the Answer that must
come.
`difference(answer, case.wanted)` is the first difference in one line, or None.
"""
import os
import re
from dataclasses import dataclass, field

DATA = os.path.join(os.path.dirname(os.path.dirname(os.path.abspath(__file__))), "crates", "cases", "data")
ENDING = ".case"

PROGRAMS = ["mic", "mic-check"]
PARTS = ["mic", "file", "console", "fails", "out", "err", "status", "left", "written"]
WANTED = PARTS[4:]  # what must come of the call
SEVERAL = {"file", "fails", "written"}
WITHOUT_CONTENTS = {"mic", "fails", "status"}
NAMED = {"file", "written"}
FAILING = {"files", "console", "out", "err"}
MOST_SHOWN = 300


class Refusal(Exception):
    """Why a line is no line of a case."""


class BadCase(Exception):
    """Why a case cannot be run, in one line."""


@dataclass
class Answer:
    """What comes of a call. `left` is the standard input that was not taken, or None where that cannot be seen, and `written`
    the files that were written."""

    status: int = 0
    out: bytes = b""
    err: bytes = b""
    left: bytes = b""
    written: dict = field(default_factory=dict)


@dataclass
class NoAnswer:
    """Why a call has no answer: it did not end, or not by itself."""

    why: str


@dataclass
class Case:
    name: str
    program: str = PROGRAMS[0]
    words: list = field(default_factory=list)
    files: dict = field(default_factory=dict)
    console: bytes = b""
    fails: dict = field(default_factory=dict)  # the numbers of the calls that fail, by what they call
    wanted: Answer = field(default_factory=Answer)


# The index


def read_index():
    """Returns the names of all cases, in order."""
    with open(os.path.join(DATA, "index.txt"), encoding="utf-8") as it:
        return [line for line in it.read().splitlines() if line and not line.startswith("#")]


def not_named(names):
    """Returns the cases that lie beside the index or below it and have none of these names."""
    found = []
    for folder, _, files in os.walk(DATA):
        found += [os.path.relpath(os.path.join(folder, it), DATA) for it in files if it.endswith(ENDING)]
    return sorted({*found} - {*names})


def name_in_data(path):
    return path.strip("/").removeprefix("crates/cases/data/")


def named_cases(names, groups):
    """Returns the names that belong to these groups: a group is a folder, or a single case with or without its ending, by its
    path in crates/cases/data or from the top of the repository."""
    chosen = set()
    for group in groups:
        wanted = name_in_data(group)
        members = [it for it in names if it in (wanted, wanted + ENDING) or it.startswith(wanted + "/")]
        if not members:
            folders = sorted({it.partition("/")[0] for it in names})
            raise BadCase(f"there is no group or case {group}. The groups are: {' '.join(folders)}")
        chosen.update(members)
    return [it for it in names if it in chosen] if groups else names


# Contents


def content_of(line):
    """Returns the bytes of a line of contents, or None where it is none."""
    mark, rest = line[0], line[1:]
    if mark not in "|:=":
        return None
    count, _, text = rest.partition(" ")
    turns = turns_of(count)
    if mark == "=":
        return bytes_of(text) * (1 if turns is None else len(turns))
    text += "\n" if mark == "|" else ""
    if turns is None or "{" not in text:
        return text.encode() * (1 if turns is None else len(turns))
    return "".join(numbered(text, turn) for turn in turns).encode()


def turns_of(count):
    """Returns the turns of a line that stands more than once: `8` is 1 to 8, `4..511` is 4 to 511."""
    if not count:
        return None
    found = re.fullmatch(r"(?:(\d+)\.\.)?(\d+)", count, re.ASCII)
    if not found:
        raise Refusal("a mark has a space or a number after it")
    return range(int(found[1] or 1), int(found[2]) + 1)


def numbered(text, turn):
    text = text.replace("{n}", str(turn)).replace("{8x}", f"{turn:08x}")
    if turn < 0x1000:
        text = text.replace("{3x}", f"{turn:03x}")
    if "{" in text:
        raise Refusal("braces hold n, 3x or 8x")
    return text


def bytes_of(text):
    digits = text.replace(" ", "")
    if not re.fullmatch("[0-9A-Fa-f]*", digits):
        raise Refusal("no hexadecimal digit")
    if len(digits) % 2:
        raise Refusal("bytes have two digits each")
    return bytes.fromhex(digits)


def file_at(path):
    try:
        with open(os.path.join(DATA, path), "rb") as it:
            return it.read()
    except OSError:
        raise Refusal("the file that it names cannot be read") from None


# Cases


class Reader:
    """Takes the lines of a case in order."""

    def __init__(self, name):
        self.case, self.part, self.name, self.contents = Case(name), None, "", []

    def take(self, line):
        if not line or line.startswith("#"):
            return
        content = content_of(line)
        if content is None:
            self.begin(line)
        elif self.part is None or self.part in WITHOUT_CONTENTS:
            raise Refusal("contents of no part")
        else:
            self.contents.append(content)

    def begin(self, line):
        """Begins the part of a line `PART`, `PART NAME`, `PART NAME = PATH` or, for a part without contents, `PART WORDS`."""
        word, _, rest = line.partition(" ")
        part = PARTS[0] if word in PROGRAMS else word
        if part not in PARTS:
            raise Refusal("no line of a case")
        if not self.may_precede(part):
            raise Refusal("the part stands after a later one, or twice")
        self.put()
        self.part, self.name, self.contents = part, "", []
        if part in WITHOUT_CONTENTS:
            self.take_words(part, word, rest)
            return
        front, is_taken, path = line.partition(" = ")
        self.name = front.partition(" ")[2]
        if is_taken:
            self.contents = [file_at(path)]
        if self.name and part not in NAMED:
            raise Refusal("contents stand on lines of their own")

    def may_precede(self, part):
        if self.part is None:
            return part == "mic"
        order = PARTS.index(part) - PARTS.index(self.part)
        return order > 0 or order == 0 and part in SEVERAL

    def take_words(self, part, first, text):
        words = [it for it in text.split(" ") if it]
        if part == "mic":
            self.case.program, self.case.words = first, words
        elif part == "status":
            if not re.fullmatch(r"\d{1,3}", text, re.ASCII) or int(text) > 255:
                raise Refusal("no status from 0 to 255")
            self.case.wanted.status = int(text)
        elif not words or words[0] not in FAILING:
            raise Refusal("files, console, out or err fails")
        elif not all(re.fullmatch(r"\d+", it, re.ASCII) for it in words[1:]):
            raise Refusal("no number of a call")
        else:
            self.case.fails.setdefault(words[0], []).extend(map(int, words[1:]))

    def put(self):
        """Puts what was read where it belongs."""
        contents = b"".join(self.contents)
        if self.part == "file":
            self.case.files[self.name] = contents
        elif self.part == "console":
            self.case.console = contents
        elif self.part == "written":
            self.case.wanted.written[self.name] = contents
        elif self.part in ("out", "err", "left"):
            setattr(self.case.wanted, self.part, contents)


def read_case(name):
    """Returns the case of a file in crates/cases/data, or raises BadCase."""
    try:
        with open(os.path.join(DATA, name), encoding="utf-8", newline="") as it:
            lines = it.read().split("\n")
    except OSError:
        raise BadCase("it cannot be read") from None
    except UnicodeDecodeError:
        raise BadCase("it is no text") from None
    reader = Reader(name)
    for number, line in enumerate(lines, 1):
        try:
            reader.take(line[:-1] if line.endswith("\r") else line)
        except Refusal as refusal:
            raise BadCase(f"line {number}: {refusal}") from None
    if reader.part is None:
        raise BadCase("no line says how mic is called")
    reader.put()
    return reader.case


# Differences


def difference(answer, wanted):
    """Returns the first difference of an answer from the one that is wanted, in one line, or None."""
    if isinstance(answer, NoAnswer):
        return answer.why
    found = bytes_difference("err", answer.err, wanted.err) or bytes_difference("out", answer.out, wanted.out)
    if not found and answer.status != wanted.status:
        found = f"the status is {answer.status}, and not {wanted.status}"
    if not found and answer.left is not None:
        found = bytes_difference("left", answer.left, wanted.left)
    return found or files_difference(answer.written, wanted.written)


def files_difference(written, wanted):
    for name, contents in wanted.items():
        if name not in written:
            return f"{name} is not written"
        if found := bytes_difference(f"written {name}", written[name], contents):
            return found
    other = sorted({*written} - {*wanted})
    return f"{other[0]} is written, and the case does not say so" if other else None


def bytes_difference(what, given, wanted):
    """Returns the first line that differs, or the first byte where one of the two is no text."""
    if given == wanted:
        return None
    try:
        return line_difference(what, given.decode().split("\n"), wanted.decode().split("\n"))
    except UnicodeDecodeError:
        pairs = enumerate(zip(given, wanted))
        at = next((place for place, (byte, other) in pairs if byte != other), None)
        if at is None:
            return f"{what} has {len(given)} bytes, and not {len(wanted)}"
        return f"{what} byte {at} is {given[at]:02X}, and not {wanted[at]:02X}"


def line_difference(what, given, wanted):
    pairs = enumerate(zip(given, wanted))
    at = next((place for place, (line, other) in pairs if line != other), min(len(given), len(wanted)))
    expected = quoted(wanted[at] if at < len(wanted) else "")
    if at >= len(given):
        return f"{what} ends before its line {at + 1}, which is {expected}"
    return f"{what} line {at + 1} is {quoted(given[at])}, and not {expected}"


def quoted(text):
    """Returns a line in quotes, with what is not printable as an escape, and the end of a very long one left out."""
    shown = text.replace("\\", "\\\\").replace('"', '\\"')
    shown = "".join(it if it.isprintable() else it.encode("unicode_escape").decode() for it in shown[:MOST_SHOWN])
    return f'"{shown}"' + (".." if len(text) > MOST_SHOWN else "")
