"""Makes one classic script of a JavaScript module and of all that it imports, for a page that is one file.

It knows the forms that the modules of this repository have: `import { a, b } from "./file.js";` on one line, and
`export` in front of a declaration. Anything else, and two modules that declare the same name, it refuses.
"""
import re
from pathlib import Path

IMPORT = re.compile(r'import \{ ([\w, ]+) \} from "(\./[\w./-]+|\.\./[\w./-]+)";$')
EXPORT = re.compile(r"export (?=(async )?function\*? |class |const |let )")
DECLARED = re.compile(r"(?:async )?(?:function\*?|class|const|let) (\w+)")
TAKEN_APART = re.compile(r"(?:const|let) [{\[] ([\w, ]+) [}\]] =")


class NotBundled(Exception):
    """A module has a form that is not known here."""


def declared_names(line):
    """The names that a line at the top of a module declares."""
    apart = TAKEN_APART.match(line)
    if apart:
        return apart[1].split(", ")
    plain = DECLARED.match(line)
    return [plain[1]] if plain else []


class Bundle:
    def __init__(self):
        self.begun = set()
        self.texts = []
        self.declared = {}

    def add(self, path):
        """Adds a module after those that it imports."""
        path = Path(path).resolve()
        if path in self.begun:
            return
        self.begun.add(path)
        lines = path.read_text(encoding="utf-8").split("\n")
        kept = [self.line(path, number, line) for number, line in enumerate(lines, 1)]
        self.texts.append("\n".join(line for line in kept if line is not None).strip())

    def line(self, path, number, line):
        """A line as it stands in the bundle, or none where it only imports."""
        imported = IMPORT.match(line)
        if imported:
            self.add(path.parent / imported[2])
            return None
        line = EXPORT.sub("", line)
        if re.match(r"(import|export)\b(?!\()", line):
            raise NotBundled(f"{path.name}:{number}: {line}")
        for name in declared_names(line):
            if name in self.declared:
                raise NotBundled(f"{path.name}:{number}: {name} is declared in {self.declared[name]} too")
            self.declared[name] = path.name
        return line

    def text(self):
        modules = "\n\n".join(self.texts)
        return f'(() => {{\n"use strict";\n\n{modules}\n}})();\n'


def bundle(path):
    """The module at this path, and what it imports, as one script."""
    bundled = Bundle()
    bundled.add(path)
    return bundled.text()
