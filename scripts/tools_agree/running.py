"""What is run, and how what a tool prints is compared with what mic prints."""
import contextlib
import glob
import importlib.machinery
import importlib.util
import io
import os
import random
import re
import sys

from mictools.calls import Mic
from mictools.command_line import Fault

EXERCISES = "classroom/exercises"


def load(path):
    """A script as a module."""
    loader = importlib.machinery.SourceFileLoader(os.path.basename(path).replace("-", "_"), path)
    module = importlib.util.module_from_spec(importlib.util.spec_from_loader(loader.name, loader))
    sys.modules[loader.name] = module  # dataclasses look there
    loader.exec_module(module)
    return module


class Check:
    """Counts what agrees, and runs the tools."""

    def __init__(self, folder, is_long):
        self.mic, self.folder, self.is_long = Mic(), folder, is_long
        self.passed = self.failed = 0
        self.scripts = {}
        self.random = random.Random(73)

    def agree(self, what, given, wanted):
        if given == wanted:
            self.passed += 1
            return True
        self.failed += 1
        print(f"{what}: {str(given)[:300]}, and not {str(wanted)[:300]}")
        return False

    def tool(self, name, *words, given=""):
        """What a tool prints, and its status; it is run in this process."""
        if name not in self.scripts:
            self.scripts[name] = load(os.path.join("classroom", name))
        out, before = io.StringIO(), sys.stdin
        sys.stdin = io.StringIO(given)
        try:
            with contextlib.redirect_stdout(out), contextlib.redirect_stderr(out):
                status = self.scripts[name].main(list(map(str, words)))
        except Fault as fault:
            return fault.text, fault.status
        finally:
            sys.stdin = before
        return out.getvalue(), status

    def some(self, things, count):
        """A few of many things; with --long all."""
        things = list(things)
        return things if self.is_long or len(things) <= count else self.random.sample(things, count)

    def file(self, name, text):
        path = os.path.join(self.folder, name)
        with open(path, "w", encoding="utf-8") as file:
            file.write(text)
        return path


def programs():
    """Each program that runs by itself, with its input: the examples, and the solutions and starts of the exercises."""
    inputs = {"echo": "a few bytes\n", "upper": "a Few\n", "reverse": "live\n", "line_reading": "one\ntwo\n", "sum": "1\n20\n\n", "binary": "Az"}
    found = [(path, inputs.get(os.path.basename(path).split(".")[0], "")) for path in sorted(glob.glob("examples/*.[jti]*"))]
    for path in sorted(glob.glob(f"{EXERCISES}/*/s*.jas") + glob.glob(f"{EXERCISES}/*/s*.tiny")):
        cases = sorted(glob.glob(os.path.join(os.path.dirname(path), "cases", "*.in")))
        with open(cases[0], encoding="latin-1") as file:
            found.append((path, file.read()))
    return found


class Runs:
    """The programs as mic runs them: a program in Tiny by its image."""

    def __init__(self, check):
        self.check, self.images = check, {}

    def image(self, path):
        if not path.endswith(".tiny"):
            return path
        if path not in self.images:
            self.images[path] = os.path.join(self.check.folder, f"{len(self.images)}.ijvm")
            self.check.mic.says("compile", path, self.images[path])
        return self.images[path]

    def bound(self, path):
        """A bound, so that no run is long: stops differ then too."""
        return "--bound=20000" if self.check.is_long else "--bound=4000"


def profile_of(check, path, given, *options):
    """Of each instruction how often it was completed and its cycles; `boot`, `stalls` and `cycles` beside them."""
    said = check.mic.says("profile", path, *options, given=given.encode("latin-1")).err
    rows = {name: (int(count), int(cycles)) for name, count, cycles in re.findall(r"^((?:WIDE )?[A-Z_]+) (\d+) (\d+)$", said, re.M)}
    more = {name: int(value) for name, value in re.findall(r"^(boot|stalls|cycles) (\d+)", said, re.M)}
    return rows, more
