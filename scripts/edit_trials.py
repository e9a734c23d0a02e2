"""Tries wrong bodies over what the checks of their crates kept, as the toolchain's own `rt must-fail` judges them.

`rt must-fail` checks a crate from nothing before it tries its edits, which costs one to three minutes a crate. Here its own
functions are called with a copy of what was kept, so that only what an edit changes is proved. And since a function is
proved over the contracts of those that it calls, edits of different functions do not hide one another: they are tried in
one check, which costs little more than one of them. An edit that this check does not refuse at its own function is tried
once more alone, and one that is not refused then is tried from nothing, as `rt must-fail` tries a single one.
"""
import atexit
import functools
import importlib.machinery
import importlib.util
import os
import re
import shutil
import subprocess
import sys
import tempfile
import time

from edits import TOP, text_of

ONE_JOB = ["--jobs", "1"]
GIGABYTES_A_CHECK = 4
# A line of a check that says where something is refused: a file, a line, a column.
AT = re.compile(r"(?:note: )?(?:\./)?(\S+?):(\d+):\d+: ")
UNPROVED = re.compile(r"^fn (\S+): (?:not proved|no proof)", re.M)
# What is refused because a proof file names something that the edit took away.
NAMES = re.compile(r"(\./)?proofs/.*(has no field|is not in scope|has no `|was not admitted)")
JUDGED = re.compile(r"must-fail \S+: (.*)", re.S)
# How `rt must-fail` begins where more than a name is refused; the place follows.
REFUSED = "refused, as it must be: "
MOST_SHOWN = 160


# What is called of the command rt.
NEEDED = "rtlib", "must_fail", "checked", "unread", "free", "processors"


class NoToolchain(Exception):
    """Why edits cannot be tried."""


class Outcome:
    def __init__(self, edit, passed, text, seconds):
        self.edit, self.passed, self.text, self.seconds = edit, passed, text, seconds


def toolchain():
    """Loads the command rt as a module."""
    path = shutil.which("rt")
    if not path:
        raise NoToolchain("the command rt is missing: edits are tried by the toolchain's prover")
    loader = importlib.machinery.SourceFileLoader("rt", os.path.realpath(path))
    module = importlib.util.module_from_spec(importlib.util.spec_from_loader("rt", loader))
    loader.exec_module(module)
    lacking = [name for name in NEEDED if not hasattr(module, name)]
    if lacking:
        raise NoToolchain(f"the rt of this kit has no {', '.join(lacking)}: copy the edits into must-fail/, and run `rt must-fail`")
    os.chdir(TOP)
    # Its first call sets the handler of a signal, which only the main thread may do.
    module.rtlib.guarded()
    return module


def new_room():
    """Makes a folder for this run where no check looks, on the repository's file system; removes those of runs that were killed."""
    asked = subprocess.run(["git", "rev-parse", "--absolute-git-dir"], cwd=TOP, check=True, stdout=subprocess.PIPE, text=True)
    rooms = os.path.join(asked.stdout.strip(), "audit")
    os.makedirs(rooms, exist_ok=True)
    for pid in os.listdir(rooms):
        if not os.path.isdir(f"/proc/{pid}"):
            shutil.rmtree(os.path.join(rooms, pid), ignore_errors=True)
    room = os.path.join(rooms, str(os.getpid()))
    os.mkdir(room)
    atexit.register(shutil.rmtree, room, ignore_errors=True)
    return room


def copy_kept(folder, to):
    """Copies what was kept without taking room for it. A check writes new files in place of old ones."""
    if os.path.isdir(folder):
        shutil.copytree(folder, to, copy_function=os.link, dirs_exist_ok=True)


def refusal(edit, unproved, lines):
    """Returns the line of a check that refuses an edit at the function that it changes, or None."""
    file, first, last, name = edit.place()
    own = [path for path in unproved if path.endswith(f"::{name}")]
    module = f"{edit.crate}::{file[len('src/') : -len('.rt')].replace('/', '::')}::"
    own = [path for path in own if path.startswith(module)] or own
    if len(own) != 1:
        return None
    proofs = f"proofs/{'/'.join(own[0].split('::')[1:])}/"
    for line in lines:
        at = AT.match(line)
        is_own = at and (at[1] == file and first < int(at[2]) <= last + 1 or at[1].startswith(proofs))
        if is_own and (": error" in line or line.startswith("note: ")) and not NAMES.match(line):
            return line[:MOST_SHOWN]
    return None


class Trials:
    """The crates whose edits are tried, each proved as it stands."""

    def __init__(self, names):
        self.rt, self.room = toolchain(), new_room()
        self.crates = {crate.name: crate for crate in self.rt.rtlib.crates_below(TOP)}
        for crate in self.crates.values():
            # A crate's sum is made of those below it: computed once each, and not once for each way down to it.
            crate.stamp = functools.lru_cache(maxsize=None)(crate.stamp)
        proved = set()
        for name in names:
            crate = self.crates[name]
            for library in [*crate.below(), *[crate] * crate.makes_rlib()]:
                if library.name not in proved:
                    self.prove(library)
                    proved.add(library.name)

    @staticmethod
    def prove(library):
        """Proves a library over what its checks kept, unless it is proved."""
        library.out = sys.stderr
        if library.build_rlib(ONE_JOB, anew=False):
            raise NoToolchain(f"{library.name} is not proved as it stands, so its edits show nothing: see above")

    def lanes(self):
        """How many checks fit side by side."""
        return max(1, min(self.rt.processors(), self.rt.free() // (GIGABYTES_A_CHECK << 30)))

    def of_crate(self, name, edits, step):
        """Tries the edits of one crate, and calls `step` after each."""
        crate, outcomes = self.crates[name], {}
        with tempfile.TemporaryDirectory(dir=self.room) as kept:
            copy_kept(f"{crate.folder}/out/incremental", kept)
            if not crate.makes_rlib() and self.rt.checked(crate, {}, ONE_JOB, kept).returncode:
                raise NoToolchain(f"{name} is not proved as it stands, so its edits show nothing: run rt check there")
            for group in groups_of(edits):
                for outcome in self.of_group(crate, group, kept):
                    outcomes[outcome.edit.name] = outcome
                    step()
        return [outcomes[edit.name] for edit in edits]

    def of_group(self, crate, group, kept):
        """Tries edits of different functions together, and those alone that are not refused so."""
        begun = time.monotonic()
        places = self.refused_together(crate, group, kept) if len(group) > 1 else {}
        share = (time.monotonic() - begun) / len(group)
        for edit in group:
            if edit in places:
                yield Outcome(edit, True, places[edit], share)
            else:
                yield self.alone(crate, edit, kept, share)

    def refused_together(self, crate, group, kept):
        """Applies edits of different functions, and returns for each that is refused at its own the line that says so."""
        texts = {}
        for edit in group:
            for file, old, new in edit.changes():
                texts[file] = (texts.get(file) or text_of(crate.name, file)).replace(old, new)
        ran = self.rt.checked(crate, texts, ONE_JOB, kept)
        lines = ran.stdout.rstrip("\n").split("\n")
        is_read = not any(self.rt.unread(line, texts) for line in lines) and not self.rt.rtlib.STALE.search(ran.stdout)
        if ran.returncode != 1 or not lines[-1].startswith("logic=not-proved") or not is_read:
            return {}
        unproved = UNPROVED.findall(ran.stdout)
        found = {edit: refusal(edit, unproved, lines) for edit in group}
        return {edit: line for edit, line in found.items() if line}

    def alone(self, crate, edit, kept, seconds):
        """Tries an edit over what was kept, and from nothing if it is not refused so."""
        begun = time.monotonic()
        passed, text = self.rt.must_fail(crate, edit.path, ONE_JOB, kept)
        if not passed and "BAD EDIT" not in text:
            passed, text = self.rt.must_fail(crate, edit.path, ONE_JOB)
        text = JUDGED.search(text)[1]
        by_clause = text.startswith(REFUSED)
        text = text[len(REFUSED) :] if by_clause else text
        return Outcome(edit, passed and by_clause, text, seconds + time.monotonic() - begun)


def groups_of(edits):
    """Divides edits into groups of functions with different names; what changes more than one function is alone."""
    groups, alone = [], []
    for edit in edits:
        place = edit.place()
        if place is None:
            alone.append([edit])
            continue
        group = next((it for it in groups if place[-1] not in it), None)
        if group is None:
            groups.append(group := {})
        group[place[-1]] = edit
    return [list(group.values()) for group in groups] + alone
