"""A case as text, with what a program does now: the form of crates/cases/data, as `cases show` of the gate prints it."""
import os

from case_files import DATA, WANTED


def case_text(name, answer):
    """Returns the case of a file up to the first part that must come of its call, and then an Answer in that form."""
    with open(os.path.join(DATA, name), encoding="utf-8") as it:
        lines = it.read().splitlines()
    first = next((at for at, line in enumerate(lines) if line.partition(" ")[0] in WANTED), len(lines))
    return "".join(f"{line}\n" for line in [*lines[:first], *answer_lines(answer)])


def answer_lines(answer):
    lines = [*part_lines("out", answer.out), *part_lines("err", answer.err)]
    if answer.status:
        lines.append(f"status {answer.status}")
    lines += part_lines("left", answer.left)
    for name, contents in sorted(answer.written.items()):
        lines += [f"written {name}", *content_lines(contents)]
    return lines


def part_lines(head, contents):
    return [head, *content_lines(contents)] if contents else []


def content_lines(contents):
    """Returns the lines of contents: of text where the bytes are plain, else of sixteen bytes each."""
    if not all(byte == 10 or 32 <= byte <= 126 for byte in contents):
        rows = range(0, len(contents), 16)
        return [f"= {contents[at:at + 16].hex(' ').upper()}" for at in rows]
    *lines, rest = contents.decode().split("\n")
    return [f"| {line}" if line else "|" for line in lines] + ([f": {rest}"] if rest else [])
