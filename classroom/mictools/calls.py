"""A call of mic: the command is the one that the variable MIC names, or `mic`. mic-check is found in the same way."""
import contextlib
import io
import os
import shutil
import subprocess
from dataclasses import dataclass

from .command_line import Fault


@dataclass
class Said:
    """What a call printed, and its status."""

    status: int
    out: str
    err: str


@dataclass
class Settings:
    """The options of a run, with mic's names."""

    machine: str = "mic1"
    map: str = "standard"
    bound: int = 10_000_000
    micro: str = None
    input: str = None  # a file, or None: the input is at its end

    @classmethod
    def of(cls, words):
        """The settings among parsed words."""
        return cls(**{name: getattr(words, name) for name in cls.__dataclass_fields__ if hasattr(words, name)})

    def given(self, *names):
        """These options as words of a command line, each as one word."""
        values = {name: getattr(self, name) for name in names}
        return [f"--{name}={value}" for name, value in values.items() if value is not None]


def mic_check():
    """The path of the command mic-check, or of the one that the variable MIC_CHECK names; None where there is none."""
    found = shutil.which(os.environ.get("MIC_CHECK") or "mic-check")
    return os.path.abspath(found) if found else None


class Mic:
    def __init__(self, command=None):
        self.command = shutil.which(command or os.environ.get("MIC") or "mic")
        if self.command is None:
            raise Fault(69, f"there is no command {command or os.environ.get('MIC') or 'mic'} (set MIC)")

    def says(self, *words, given=b""):
        """Calls mic to its end. The bytes `given` are its standard input."""
        called = subprocess.run([self.command, *words], input=given, stdout=subprocess.PIPE, stderr=subprocess.PIPE)
        return Said(called.returncode, called.stdout.decode("latin-1"), called.stderr.decode("latin-1"))

    @contextlib.contextmanager
    def trace(self, program, settings, *more):
        """The lines of a trace as they come. What the program writes is in the trace too, and dropped here. A trace that is left early is ended."""
        words = [self.command, "trace", *more, *settings.given("machine", "map", "bound", "micro"), "--", program]
        given = open(settings.input, "rb") if settings.input is not None else subprocess.DEVNULL
        with given if settings.input is not None else contextlib.nullcontext():
            running = subprocess.Popen(words, stdin=given, stdout=subprocess.DEVNULL, stderr=subprocess.PIPE)
        try:
            yield io.TextIOWrapper(running.stderr, "latin-1", newline="\n")
        finally:
            running.kill()
            running.stderr.close()
            running.wait()
