"""A run as mic itself prints it: the cycles of `mic trace --buses`, read here once more and apart from the workbench."""
from __future__ import annotations

import os
import re
import subprocess
import tempfile

CONSOLE = 0xFFFFFFFD


class Program:
    """The command mic, called in a folder of its own"""

    def __init__(self, mic):
        self.mic = mic

    def call(self, folder, *words, given=b""):
        done = subprocess.run([self.mic, *words], cwd=folder, input=given, stdout=subprocess.PIPE, stderr=subprocess.PIPE)
        return done.stdout, done.stderr.decode("latin-1"), done.returncode


def pairs(line):
    parts = line.split()
    return dict(zip(parts[::2], parts[1::2]))


class Cycle:
    """One cycle: its statement, what the buses carried, and the registers after its edge"""

    def __init__(self, number, mpc, label, text):
        self.number, self.mpc, self.label, self.text = int(number), mpc, label, text
        self.stalled = text == "stall"
        self.buses, self.after, self.boundary = {}, {}, None


def read_cycles(text):
    cycles, report = [], []
    for line in text.split("\n"):
        begins = re.match(r"(\d+) ([0-9a-f]{3}) (\S+) (.*)$", line)
        if report or line.startswith("end "):
            report.append(line)
        elif begins:
            cycles.append(Cycle(*begins.groups()))
        elif line.startswith("  a "):
            cycles[-1].buses = pairs(line)
        elif line.startswith("  MAR "):
            cycles[-1].after = pairs(line)
        elif line.startswith("at "):
            cycles[-1].boundary = line[3:]
    return cycles, [line for line in report if line]


def image_words(data):
    """The words of an image file by their addresses"""
    words, at = {}, 4
    while at < len(data):
        origin, size = (int.from_bytes(data[at + 4 * k:at + 4 * k + 4], "big") for k in range(2))
        block = data[at + 8:at + 8 + size] + bytes(-size % 4)
        for place in range(0, size, 4):
            words[(0x4000 if origin else 0) + place // 4] = int.from_bytes(block[place:place + 4], "big")
        at += 8 + size
    return words


class Run:
    """A run of mic: {program: {name, text}, micro, machine, map, bound, input}"""

    def __init__(self, program, run):
        self.run = run
        self.machine = run.get("machine", "mic1")
        with tempfile.TemporaryDirectory() as folder:
            self.read(program, folder)

    def write(self, folder, name, text):
        with open(os.path.join(folder, name), "wb") as file:
            file.write(text.encode("utf-8", "surrogateescape"))
        return name

    def read(self, program, folder):
        run, given = self.run, self.run.get("input", "").encode("utf-8", "surrogateescape")
        kind = run["program"]["name"].rsplit(".", 1)[1]
        source = self.write(folder, "program." + kind, run["program"]["text"])
        program.call(folder, "compile" if kind == "tiny" else "assemble", source, "image.ijvm")
        with open(os.path.join(folder, "image.ijvm"), "rb") as file:
            self.memory = image_words(file.read())
        options = ["--machine=" + ("mic1" if self.machine == "mic1" else "mic2")]
        micro = self.write(folder, "micro.mal", run["micro"]["text"]) if run.get("micro") else None
        if micro is None:
            micro = self.write(folder, "shipped.mal", program.call(folder, "print-micro", *options)[0].decode())
        placed = program.call(folder, "micro", *options, micro, "store.mic")[0].decode()
        listed = program.call(folder, "print-micro", "store.mic")[0].decode()
        self.words = {line[:3]: line.split(" ")[1] for line in listed.split("\n") if line}
        self.placed = {line[:3]: line.split(" ", 2)[2] for line in placed.split("\n") if re.match(r"[0-9a-f]{3} ", line)}
        options += ["--micro=micro.mal"] if run.get("micro") else []
        options += ["--map=" + run.get("map", "standard")]
        self.reset = pairs(program.call(folder, "debug", *options, "image.ijvm", given=b"regs\n")[1].split("\n")[0])
        if self.machine == "mic3":
            self.cycles = []
            return
        bound = "--bound=%d" % run.get("bound", 10_000_000)
        self.output, text, self.status = program.call(folder, "trace", "--buses", *options, bound, "image.ijvm", given=given)
        self.cycles, self.report = read_cycles(text)
