"""The wrong bodies of the crates: the files NAME.edit in the folders must-fail/ and audit/ of a crate.

CONTRIBUTING.md says what such a file holds. `edits_of(crate)` reads those of a crate; `Edit.place` is the function that an
edit changes, if it changes only the body of one.
"""
import os
import re

TOP = os.path.dirname(os.path.dirname(os.path.abspath(__file__)))
FOLDERS = "must-fail", "audit"
PARTS = "src", "specs", "proofs"
# `rt fmt` lays a function out so: its head, its body's end at the same depth.
HEAD = re.compile(r"( *)(?:pub(?:\([a-z]+\))? )?fn (\w+)")


class Edit:
    def __init__(self, crate, folder, name):
        self.crate, self.name = crate, f"{folder}/{name}"
        self.path = os.path.join(TOP, "crates", crate, folder, f"{name}.edit")
        with open(self.path, encoding="utf-8") as file:
            self.lines = file.read().split("\n")
        self.clause = self.lines[0].lstrip("# ")

    def changes(self):
        """Yields the file, the old text and the new text of each change."""
        file = old = None
        for line in self.lines:
            word, _, text = line.partition(": ")
            if word == "file":
                file = text
            elif word == "old":
                old = text
            elif line.startswith("new:"):
                yield file, old, text

    def place(self):
        """Returns the file, the first line, the last line and the name of the function that it changes.

        None if it changes anything else than the body of one function.
        """
        places = set()
        for file, old, _ in self.changes():
            text = text_of(self.crate, file)
            if not file.startswith("src/") or text.count(old) != 1:
                return None
            places.add((file, body_around(text.split("\n"), text[: text.index(old)].count("\n"))))
        file, body = places.pop()
        return (file, *body) if body and not places else None


def body_around(lines, at):
    """Returns the first line, counted from 0, the last line and the name of the function whose body has the line `at`.

    The first line is that of its comment or attributes, if it has any.
    """
    first = next((n for n in range(at - 1, -1, -1) if HEAD.match(lines[n])), None)
    if first is None:
        return None
    depth, name = HEAD.match(lines[first]).groups()
    try:
        last = lines.index(f"{depth}}}", first)
        opens = first if lines[first].endswith(" {") else lines.index(f"{depth}{{", first)
    except ValueError:
        return None
    while first > 0 and lines[first - 1].lstrip().startswith(("//", "#[")):
        first -= 1
    return (first, last, name) if opens < at < last else None


def text_of(crate, file):
    """The text of a file of a crate, in which an edit finds nothing if there is no such file."""
    path = os.path.join(TOP, "crates", crate, file)
    if not os.path.isfile(path):
        return ""
    with open(path, encoding="utf-8") as it:
        return it.read()


def edits_of(crate):
    """Reads the edits of a crate, those that every merge tries first."""
    found = []
    for folder in FOLDERS:
        path = os.path.join(TOP, "crates", crate, folder)
        names = sorted(os.listdir(path)) if os.path.isdir(path) else []
        found += [Edit(crate, folder, name[: -len(".edit")]) for name in names if name.endswith(".edit")]
    return found
