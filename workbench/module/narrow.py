"""Rewrites LLVM text that was made for pointers of eight bytes, so that its data keeps its layout where pointers have four.

Compiled Rattle knows the place of everything in memory: a field, an element, the second half of a slice. So a pointer
still takes eight bytes there. It stands in the first four, and the other four are zero: read as a number of eight bytes
it is the address. These parts of the text have the size of a pointer in them, and are written anew:

- a constant that holds pointers gets four zeros after each;
- a load or a store of several values at once becomes one of each value, at its place;
- a store of a pointer also stores the four zeros;
- room for a pointer on the stack is room for eight bytes.

All else that has pointers in it passes values on, or is refused: `narrowed` knows each form that it lets through.
"""
import re

SIZES = {"i1": 1, "i8": 1, "i16": 2, "i32": 4, "i64": 8, "i128": 16, "float": 4, "double": 8, "ptr": 8}

DATA_LAYOUT = "e-m:e-p:32:32-p10:8:8-p20:8:8-i64:64-i128:128-n32:64-S128-ni:1:10:20"
TRIPLE = "wasm32-unknown-unknown"

NAME = r'(?:"[^"]*"|[\w.$-]+)'
QUOTED = re.compile(r'"[^"]*"')
POINTER = re.compile(r"\bptr\b")
NOTES = r"(?:, !\w+ !\d+)*"
VALUE = rf"(?:%{NAME}|@{NAME}|null|poison|undef|inttoptr \(i64 \d+ to ptr\))"
CONSTANT = re.compile(rf"(@{NAME} = .*?constant )<\{{ (.*?) \}}> <\{{ (.*) \}}>(, align \d+)$")
LOAD = re.compile(rf"  (%{NAME}) = load \{{ (.*?) \}}, ptr ({VALUE}), align (\d+){NOTES}$")
STORE = re.compile(rf"  store \{{ (.*?) \}} (%{NAME}), ptr ({VALUE}), align (\d+){NOTES}$")
STORE_POINTER = re.compile(rf"  store ptr {VALUE}, ptr ({VALUE}), align \d+{NOTES}$")
LOAD_POINTER = re.compile(rf"  %{NAME} = load ptr, ptr {VALUE}, align \d+{NOTES}$")
LOAD_PLAIN = re.compile(r"  %\S+ = load (i\d+|float|double|<\d+ x i\d+>), ")
STORE_PLAIN = re.compile(r"  store (i\d+|float|double|<\d+ x i\d+>) ")
ROOM = re.compile(rf"  %{NAME} = alloca (?:i\d+|float|double|ptr|<\d+ x i\d+>|\[\d+ x i\d+\]), align \d+$")
ELEMENT = re.compile(r"  %\S+ = getelementptr (?:inbounds )?(?:nuw )?i8, ptr ")

# What only passes values on, between functions and within one.
PASSING = re.compile(
    r"  (?:%\S+ = )?(?:tail |musttail |notail )?(?:call|ret|br|switch|unreachable|phi|select|icmp|fcmp|extractvalue|insertvalue|"
    r"add|sub|mul|udiv|sdiv|urem|srem|and|or|xor|shl|lshr|ashr|zext|sext|trunc|bitcast|shufflevector|extractelement|"
    r"insertelement|ptrtoint|inttoptr|fadd|fsub|fmul|fdiv|frem|fneg|fptrunc|fpext|fptosi|fptoui|sitofp|uitofp|freeze)\b"
)
INDENTED_CASE = re.compile(r"    i\d+ -?\d+, label %|  \]$")
OUTSIDE_FUNCTIONS = re.compile(rf"(;.*|source_filename = .*|declare .*|define .*|![\w.]+ = .*|\}}|{NAME}:.*|)$")
X86_ONLY = re.compile(r' "(?:probe-stack|stack-probe-size|target-cpu|target-features|tune-cpu)"="[^"]*"')


class UnknownForm(Exception):
    """A line of the text has a form that is not known here."""


def parts_of(text):
    """The parts between the commas that stand in no bracket and in no string."""
    parts, depth, part, quoted = [], 0, "", False
    for character in text:
        if character == '"':
            quoted = not quoted
        if not quoted:
            depth += (character in "([{<") - (character in ")]}>")
            if character == "," and depth == 0:
                parts.append(part.strip())
                part = ""
                continue
        part += character
    return parts + [part.strip()]


def places_of(types):
    """Where each of several values stands, as eight-byte pointers have it."""
    at, places = 0, []
    for name in types:
        if name not in SIZES:
            raise UnknownForm(f"the size of {name} is not known")
        at = -(-at // SIZES[name]) * SIZES[name]
        places.append(at)
        at += SIZES[name]
    return places


def narrowed_constant(head, types, values, tail):
    new_types, new_values = [], []
    old_types, old_values = parts_of(types), parts_of(values)
    if len(old_types) != len(old_values):
        raise UnknownForm("a constant whose types and values are not as many")
    for name, value in zip(old_types, old_values):
        new_types.append(name)
        new_values.append(value)
        if name == "ptr":
            new_types.append("[4 x i8]")
            new_values.append("[4 x i8] zeroinitializer")
        elif not re.fullmatch(r"\[\d+ x i8\]|i\d+", name):
            raise UnknownForm(f"a constant holds {name}")
    return [f"{head}<{{ {', '.join(new_types)} }}> <{{ {', '.join(new_values)} }}>{tail}"]


def narrowed_load(number, name, types, address, align):
    names = parts_of(types)
    whole, lines = "poison", []
    for index, (each, place) in enumerate(zip(names, places_of(names))):
        part = f"%narrow.{number}.{index}"
        into = name if index == len(names) - 1 else f"{part}.all"
        lines.append(f"  {part}.at = getelementptr i8, ptr {address}, i64 {place}")
        lines.append(f"  {part} = load {each}, ptr {part}.at, align {min(SIZES[each], align)}")
        lines.append(f"  {into} = insertvalue {{ {types} }} {whole}, {each} {part}, {index}")
        whole = into
    return lines


def zeros_after(part, address):
    """Stores the four zeros after a pointer."""
    return [f"  {part}.zeros = getelementptr i8, ptr {address}, i64 4", f"  store i32 0, ptr {part}.zeros, align 4"]


def narrowed_store(number, types, value, address, align):
    names, lines = parts_of(types), []
    for index, (each, place) in enumerate(zip(names, places_of(names))):
        part = f"%narrow.{number}.{index}"
        lines.append(f"  {part}.at = getelementptr i8, ptr {address}, i64 {place}")
        lines.append(f"  {part} = extractvalue {{ {types} }} {value}, {index}")
        lines.append(f"  store {each} {part}, ptr {part}.at, align {min(SIZES[each], align)}")
        if each == "ptr":
            lines += zeros_after(part, f"{part}.at")
    return lines


def narrowed_access(number, line):
    """A load, a store, room on the stack, or the place of an element; none for what is not of these."""
    load, store, pointer = LOAD.match(line), STORE.match(line), STORE_POINTER.match(line)
    if load:
        return narrowed_load(number, load[1], load[2], load[3], int(load[4]))
    if store:
        return narrowed_store(number, store[1], store[2], store[3], int(store[4]))
    if pointer:
        return [line, *zeros_after(f"%narrow.{number}", pointer[1])]
    if ROOM.match(line):
        return [line.replace("alloca ptr,", "alloca [8 x i8],")]
    if any(form.match(line) for form in (LOAD_POINTER, LOAD_PLAIN, STORE_PLAIN, ELEMENT)):
        return [line]
    return None


def narrowed_line(number, line):
    if line.startswith("target datalayout = "):
        return [f'target datalayout = "{DATA_LAYOUT}"']
    if line.startswith("target triple = "):
        return [f'target triple = "{TRIPLE}"']
    if line.startswith("attributes #"):
        return [X86_ONLY.sub("", line)]
    if line.startswith("@"):
        constant = CONSTANT.match(line)
        if constant:
            return narrowed_constant(*constant.groups())
        if not POINTER.search(QUOTED.sub("", line)):
            return [line]
        raise UnknownForm("a global of another form")
    if OUTSIDE_FUNCTIONS.match(line) or INDENTED_CASE.match(line):
        return [line]
    line = line.replace(" = ptrtoaddr ptr ", " = ptrtoint ptr ")
    access = narrowed_access(number, line)
    if access is not None:
        return access
    if PASSING.match(line) and "byval(" not in line:
        return [line]
    raise UnknownForm("an instruction of another form")


def narrowed(text):
    """The text for pointers of four bytes. It raises UnknownForm at the first line that it does not know."""
    lines = []
    for number, line in enumerate(text.split("\n"), 1):
        try:
            lines += narrowed_line(number, line)
        except UnknownForm as error:
            raise UnknownForm(f"line {number}: {error}: {line.strip()[:200]}") from None
    return "\n".join(lines)
