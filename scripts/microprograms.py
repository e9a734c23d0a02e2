"""The microprograms of classroom/microprograms: each is a small difference from the one that ships for Mic-1.

A file begins with lines of comment. The first is a sentence; that of a wrong one begins with the instructions that it
spoils and a colon. Others may say what it costs, `// cycles: IFEQ 9 taken, IFEQ 6 not, boot 3`, where that differs from
the one that ships (`varies` in place of a number where the instruction has no one cost), or why no run shows that it is
wrong, `// no run: REASON`. Then come lines of MAL. A `.label` takes the place of the one for the same statement. The
statements take the place of all of the same name but for the digits at its end: `iadd1` of all of IADD.
"""
import functools
import os
import re
import subprocess
from dataclasses import dataclass, field

TOP = os.path.dirname(os.path.dirname(os.path.abspath(__file__)))
FOLDER = os.path.join(TOP, "classroom", "microprograms")
NAME = re.compile(r"(\.label +)?([A-Za-z_]\w*)")


class BadFile(Exception):
    """What is wrong with a file of the lists."""


@dataclass
class Listed:
    """A microprogram of the lists. `cycles` has ("IFEQ", "taken"), ("IADD", "") and so on, and None where they vary."""

    name: str
    sentence: str
    text: str  # the whole microprogram
    instructions: list = field(default_factory=list)  # that the sentence of a wrong one names
    cycles: dict = field(default_factory=dict)
    no_run: str = ""


def shipped_text(mic):
    """The microprogram that ships, as canonical text."""
    return subprocess.run([mic, "print-micro"], stdout=subprocess.PIPE, check=True, text=True).stdout


def stem(line):
    """The name that a line is about, without the digits at its end; of a `.label` line the whole name after its word."""
    found = NAME.match(line)
    if not found:
        raise BadFile(f"a statement without a label: {line}")
    return found[1].strip() + " " + found[2] if found[1] else found[2].rstrip("0123456789")


def changed(shipped, lines):
    """The text of a microprogram with these lines in place of those about the same names."""
    gone = {stem(line) for line in lines}
    kept = [line for line in shipped.splitlines() if line.startswith(".default") or stem(line) not in gone]
    directives = [line for line in (*kept, *lines) if line.startswith(".")]
    return "\n".join(directives + [line for line in (*kept, *lines) if not line.startswith(".")]) + "\n"


def read_cycles(text):
    """`IADD 5, IFEQ 9 taken` as a dictionary."""
    found = {}
    for item in text.split(", "):
        parts = re.fullmatch(r"([A-Za-z_ ]+) (\d+|varies)(?: (taken|not))?", item)
        if not parts:
            raise BadFile(f"no cycles: {item}")
        found[parts[1], parts[3] or ""] = None if parts[2] == "varies" else int(parts[2])
    return found


def read_listed(path, shipped, is_wrong):
    """The microprogram of a file of the lists."""
    with open(path, encoding="ascii") as file:
        head, _, body = file.read().partition("\n\n")
    comments = [line.removeprefix("// ") for line in head.split("\n")]
    found = Listed(os.path.relpath(path, TOP), comments[0], changed(shipped, [line for line in body.split("\n") if line]))
    if is_wrong:
        names, colon, _ = comments[0].partition(": ")
        found.instructions = names.split(", ") if colon else []
    for comment in comments[1:]:
        kind, _, rest = comment.partition(": ")
        if kind == "cycles":
            found.cycles.update(read_cycles(rest))
        elif kind == "no run":
            found.no_run = rest
        else:
            raise BadFile(f"no line of a header: {comment}")
    return found


def read_list(kind, shipped):
    """The microprograms of a list, by name: `right`, `wrong` or `unshown`."""
    folder, found = os.path.join(FOLDER, kind), []
    for name in sorted(os.listdir(folder)):
        try:
            found.append(read_listed(os.path.join(folder, name), shipped, kind == "wrong"))
        except BadFile as why:
            raise BadFile(f"{kind}/{name}: {why}") from None
    return found


@functools.lru_cache(maxsize=None)
def shipped_cycles():
    """The cycles of Mic-1 in the table of docs/ijvm.md, and those of the boot."""
    with open(os.path.join(TOP, "docs", "ijvm.md"), encoding="utf-8") as file:
        text = file.read()
    found = {("boot", ""): int(re.search(r"begins with (\d+) cycles of boot", text)[1])}
    for line in text.splitlines():
        cells = [cell.strip() for cell in line.split("|")]
        if len(cells) != 11 or not re.fullmatch(r"[0-9A-F]{2}( [0-9A-F]{2})?", cells[1]):
            continue
        taken = re.fullmatch(r"(\d+) taken, (\d+) not", cells[7])
        if taken:
            found[cells[2], "taken"], found[cells[2], "not"] = int(taken[1]), int(taken[2])
        else:
            found[cells[2], ""] = int(cells[7])
    return found
