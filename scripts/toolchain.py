"""The Rattle toolchain of this machine, as the scripts use it that build a proved crate for another target."""
import shutil
import subprocess
from pathlib import Path

TOP = Path(__file__).resolve().parent.parent
X86_64 = "x86_64-unknown-linux-gnu"


class CannotMake(Exception):
    """Why something cannot be made here."""


def run(words, **how):
    """Runs a program, and returns what it has written; its last lines are the reason where it fails."""
    ran = subprocess.run([str(word) for word in words], capture_output=True, text=True, errors="replace", **how)
    if ran.returncode:
        said = (ran.stdout + ran.stderr).strip().splitlines()[-12:]
        raise CannotMake(f"{Path(words[0]).name} ended with status {ran.returncode}:\n" + "\n".join(said))
    return ran.stdout + ran.stderr


def crate_rows():
    """What each crate of this repository stands on."""
    rows = {}
    for line in (TOP / "crates.txt").read_text(encoding="utf-8").splitlines():
        if line and not line.startswith("#"):
            head, _, rest = line.partition(":")
            rows[head.split()[0]] = rest.split()
    return rows


def libraries_below(crate):
    """The crate's own libraries, and all below them with their compiled files."""
    rows = crate_rows()
    found, waiting = set(), list(rows[crate])
    while waiting:
        name = waiting.pop()
        if name in rows and name not in found:
            found.add(name)
            waiting += rows[name]
    compiled = {name: TOP / f"crates/{name}/out/rlib/{name}.rlib" for name in sorted(found)}
    missing = [name for name, file in compiled.items() if not file.exists()]
    if missing:
        raise CannotMake(f"{len(missing)} libraries are not proved here, as {missing[0]}: run `rt all check`")
    return rows[crate], compiled


class Toolchain:
    """The compiler and prover, with its clang and its linker; CannotMake says by name what is missing."""

    def __init__(self):
        if not shutil.which("rt"):
            raise CannotMake("there is no toolchain: `rt` is not on the PATH")
        self.folder = Path(run(["rt", "doc"]).split()[0]).parent
        self.rattle = self.folder / "bin/rattle"
        self.programs = self.folder / "toolchain/bin"
        self.clang, self.linker = self.programs / "clang", self.programs / "ld.lld"
        for program in (self.rattle, self.clang, self.linker):
            if not program.exists():
                raise CannotMake(f"this toolchain has no {program.name}")

    def build(self, crate, source, words):
        """Proves a crate over its kept libraries, and builds it; returns the line with the verdict."""
        own, compiled = libraries_below(crate)
        kit = self.folder
        whole = [self.rattle, "build", "--crate-name", crate, source]
        whole += ["--extern", f"std={kit}/rlibs/std.rlib", "-L", f"dependency={kit}/rlibs"]
        for name in own:
            whole += ["--extern", f"{name}={compiled[name]}"]
        for file in compiled.values():
            whole += ["-L", f"dependency={file.parent}"]
        whole += ["--antt-project", f"{kit}/rattle/logic/antt-project.json", "--logic-built", f"{kit}/logic_built"]
        whole += ["--links", f"{crate}=", "--incremental", "out/incremental", "--jobs", "1", *words]
        said = run(whole, cwd=TOP / "crates" / crate).splitlines()
        verdicts = [line for line in said if line.startswith("logic=proved ")]
        if len(verdicts) != 1:
            raise CannotMake(f"the toolchain has not said that {crate} is proved: " + " ".join(said[-3:]))
        return verdicts[0]
