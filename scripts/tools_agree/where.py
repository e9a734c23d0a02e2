"""`where`: each refusal has mic's message and address, and the line that the sizes of the instructions give."""
import glob
import json
import os
import re

from .running import EXERCISES, programs

SIZES = {"BIPUSH": 2, "ILOAD": 2, "ISTORE": 2, **dict.fromkeys("LDC_W IINC IFEQ IFLT IF_ICMPEQ GOTO INVOKEVIRTUAL".split(), 3)}


def lines_of(text):
    """Of each address the line of a source without wide instructions, by adding up sizes: main comes first, then the methods."""
    parts, part = {True: [], False: []}, None
    for number, line in enumerate(text.split("\n"), 1):
        words = re.sub(r"^\s*\w+:", "", line.split("//")[0]).split()
        if words[:1] in ([".main"], [".method"]):
            part = parts[words[0] == ".main"]
            part += [(4, number)] if words[0] == ".method" else []
        elif part is not None and words and words[0].isupper() and not words[0].startswith("."):
            part.append((SIZES.get(words[0], 1), number))
    found, address = {}, 0
    for size, number in parts[True] + parts[False]:
        found.update({address + byte: number for byte in range(size)})
        address += size
    return found


def shortened(path):
    """A source with one line less, for each of its lines with an instruction."""
    with open(path, encoding="utf-8") as file:
        lines = file.read().split("\n")
    for place, line in enumerate(lines):
        if re.match(r"\s+[A-Z]", line):
            yield "\n".join(lines[:place] + lines[place + 1 :])


def check_where(check):
    for path, _ in programs() + [(path, "") for path in glob.glob(f"{EXERCISES}/*/s*.mal")]:
        command = {"tiny": ["compile"], "al": ["micro"]}.get(path.split(".")[-1].lstrip("m"), ["verify"])
        machine = ["--machine=mic2"] if "mic2" in path else []
        more = [os.path.join(check.folder, "made")] if command != ["verify"] else []
        said = check.mic.says(*command, *(machine if command == ["micro"] else []), path, *more)
        check.agree(f"where {path}", check.tool("where", path, *machine), (said.out.splitlines()[-1] + "\n", 0))
    sources = ["examples/add.jas", "examples/multiply.jas", "examples/gcd.jas"] + (glob.glob(f"{EXERCISES}/*/solution.jas") if check.is_long else [])
    for source in sources:
        for text in check.some(shortened(source), 12):
            path = check.file("short.jas", text)
            said = check.mic.says("verify", path)
            printed, status = check.tool("where", "--json", path)
            if not said.status:
                check.agree(f"where of {source}, shortened", status, 0)
                continue
            found, message = json.loads(printed), said.err.strip().removeprefix(f"mic: {path}: ")
            place = re.match(r"([0-9a-f]{8}) (.*)", message)
            line, rest = re.match(r"mic: .*?:(?:(\d+):)? (.*)", said.err.strip()).groups()
            wanted = (place[1], place[2], lines_of(text).get(int(place[1], 16))) if place else (None, rest, int(line) if line else found["line"])
            check.agree(f"where of {source}, shortened: {message}", (found["address"], found["message"], found["line"]), wanted)
