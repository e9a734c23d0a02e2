"""Statements of a microprogram, and what one looks like with one thing changed.

    fixed, statements = read_microprogram(mic, path, "mic1")    # the `.label` and `.default` lines, and the statements
    for what, changed in changes_of(statements[4], "mic1", labels):
        ...

A statement's text is canonical, as `mic print-micro` prints it.
"""
from __future__ import annotations

import re
import subprocess
from dataclasses import dataclass, replace

REGISTERS = ["H", "OPC", "TOS", "CPP", "LV", "SP", "PC", "MDR", "MAR"]
BYTES = {"mic1": ["MBR", "MBRU"], "mic2": ["MBR1", "MBR1U", "MBR2", "MBR2U"]}


@dataclass(frozen=True)
class Statement:
    label: str
    targets: tuple  # registers, or N or Z
    value: str  # an expression, or nothing
    access: str  # rd, wr or nothing
    fetch: bool
    goto: str  # the goto part, or nothing: the next line

    def __str__(self):
        assignment = "=".join((*self.targets, self.value)) if self.value else ""
        parts = [part for part in (assignment, self.access, "fetch" if self.fetch else "", self.goto) if part]
        return (self.label + " " + "; ".join(parts)).strip() or ";"


def read_statement(line):
    parts = re.split(r"; (?!else)", line)
    words = parts[0].split(" ", 1)
    label = ""
    if "=" not in words[0] and words[0] not in ("rd", "wr", "fetch", "goto", "if", ";"):
        label, parts[0] = words[0], words[1] if len(words) > 1 else ""
    targets, value, access, fetch, goto = (), "", "", False, ""
    for part in parts:
        if part.startswith(("goto", "if")):
            goto = part
        elif part in ("rd", "wr"):
            access = part
        elif part == "fetch":
            fetch = True
        elif "=" in part:
            *targets, value = part.split("=")
    return Statement(label, tuple(targets), value, access, fetch, goto)


def read_microprogram(mic, path, machine):
    """The `.label` and `.default` lines, and the statements, of a file; of the microprogram that ships without one."""
    words = [mic, "print-micro", *([path] if path else []), "--machine", machine]
    text = subprocess.run(words, stdout=subprocess.PIPE, check=True).stdout.decode()
    lines = text.splitlines()
    return [line for line in lines if line.startswith(".")], [read_statement(line) for line in lines if not line.startswith(".")]


def write_program(path, fixed, program):
    with open(path, "w", encoding="ascii") as file:
        file.write("\n".join([*fixed, *map(str, program)]) + "\n")


def with_other_registers(value, machine):
    for found in re.finditer(r"[A-Z][A-Z0-9]+U?|H", value):
        if found.group() not in ("AND", "OR", "NOT"):
            for other in REGISTERS[:-1] + BYTES[machine]:
                if other != found.group():
                    yield value[: found.start()] + other + value[found.end() :]


def with_other_operations(value):
    core, shift = re.fullmatch(r"(.*?)(<<8|>>1)?", value).groups()
    for other in ("", "<<8", ">>1"):
        if other != (shift or ""):
            yield core + other
    shift = shift or ""
    sum_ = re.fullmatch(r"(\w+)(\+| AND | OR |-)(\w+?)(\+1)?", core)
    if core in ("0", "1", "-1"):
        yield from (c + shift for c in ("0", "1", "-1") if c != core)
    elif sum_ and sum_.group(3) != "1":
        x, y = sum_.group(1), sum_.group(3)
        others = [f"{x}+{y}", f"{x} AND {y}", f"{x} OR {y}", f"{x}-{y}", f"{y}-{x}", f"{x}+{y}+1", x, y]
        yield from (other + shift for other in others if other != core)
    else:
        x = re.search(r"[A-Z]\w*$", core.removesuffix("+1").removesuffix("-1")).group()
        yield from (other + shift for other in (x, x + "+1", x + "-1", "NOT " + x, "-" + x) if other != core)


def with_other_goto(goto, labels):
    """Other goto parts in place of one: `labels` are those worth a try."""
    conditional = re.fullmatch(r"if \((.)\) goto (\w+); else goto (\w+)", goto)
    if conditional:
        flag, yes, no = conditional.groups()
        form = "if ({}) goto {}; else goto {}".format
        yield from (form(flag, no, yes), "goto " + yes, "goto " + no)
        yield from (form(flag, other, no) for other in labels if other not in (yes, no))
        yield from (form(flag, yes, other) for other in labels if other not in (yes, no))
    else:
        if goto:
            yield ""
        yield from ("goto " + other for other in labels if "goto " + other != goto)


def changes_of(statement, machine, labels):
    """A statement with one thing changed, and what was."""
    s = statement
    if s.value:
        yield "assignment gone", replace(s, targets=(), value="")
        for target in s.targets:
            rest = tuple(t for t in s.targets if t != target)
            if rest:
                yield target + " not set", replace(s, targets=rest)
            for other in [] if target in "NZ" else REGISTERS:
                if other not in s.targets:
                    yield f"{other} for {target}", replace(s, targets=(*rest, other))
        for value in with_other_registers(s.value, machine):
            yield "other register", replace(s, value=value)
            if s.targets in (("N",), ("Z",)) and "TOS" not in value:
                yield "other register, kept in TOS", replace(s, targets=(*s.targets, "TOS"), value=value)
        for value in with_other_operations(s.value):
            yield "other operation", replace(s, value=value)
        for flag, other in ("NZ", "ZN"):
            if flag in s.targets:
                yield "other flag", replace(s, targets=tuple(other if t == flag else t for t in s.targets), goto=s.goto.replace(f"({flag})", f"({other})"))
        for other in REGISTERS:
            if other not in s.targets:
                yield other + " set too", replace(s, targets=(*s.targets, other))
    for access in {"", "rd", "wr"} - {s.access}:
        yield (access or s.access + " gone") if not (access and s.access) else f"{access} for {s.access}", replace(s, access=access)
    if machine == "mic1":
        yield "fetch gone" if s.fetch else "fetch", replace(s, fetch=not s.fetch)
    for goto in with_other_goto(s.goto, labels):
        yield "other goto", replace(s, goto=goto)


def removals_of(statement):
    """A statement with one thing taken away, and what was."""
    s = statement
    if s.value:
        yield "assignment gone", replace(s, targets=(), value="")
        if len(s.targets) > 1:
            yield from ((target + " not set", replace(s, targets=tuple(t for t in s.targets if t != target))) for target in s.targets)
    if s.access:
        yield s.access + " gone", replace(s, access="")
    if s.fetch:
        yield "fetch gone", replace(s, fetch=False)
    if s.goto:
        yield "goto gone", replace(s, goto="")
