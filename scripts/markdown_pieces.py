"""The pieces of a Markdown document in their order, as far as a check needs them.

    for piece in pieces_of(text):       # piece.at is the number of its first line, from 1

    kind      content
    block     the lines of a code block; language is the word after its fence, such as `sh`
    table     the lines of a table
    line      any other line
    mark      a comment of a line of its own: the text between `<!-- ` and ` -->`
"""
import re
from dataclasses import dataclass

FENCE = re.compile(r"(```+)(\w*)$")
MARK = re.compile(r"<!-- (.*) -->$")


@dataclass
class Piece:
    at: int
    kind: str
    content: str
    language: str = ""


def pieces_of(text):
    """Yields the pieces of a document."""
    lines = text.split("\n")
    at = 0
    while at < len(lines):
        piece, taken = piece_at(lines, at)
        yield piece
        at += taken


def piece_at(lines, at):
    """Returns the piece that begins with a line, and how many lines it takes."""
    line, number = lines[at], at + 1
    if fence := FENCE.match(line):
        end = next((it for it in range(number, len(lines)) if lines[it] == fence[1]), len(lines))
        return Piece(number, "block", "".join(f"{it}\n" for it in lines[number:end]), fence[2]), end + 1 - at
    if mark := MARK.match(line):
        return Piece(number, "mark", mark[1]), 1
    if line.startswith("|"):
        end = next((it for it in range(at, len(lines)) if not lines[it].startswith("|")), len(lines))
        return Piece(number, "table", "\n".join(lines[at:end])), end - at
    return Piece(number, "line", line), 1


def cells_of(row):
    """Returns the cells of a line of a table."""
    return [it.strip().replace("\\|", "|") for it in re.split(r"(?<!\\)\|", row.strip().strip("|"))]


def code_spans(text):
    """Returns what stands between backticks."""
    return re.findall(r"`([^`]+)`", text)
