#!/usr/bin/env python3
"""Times `mic trace --buses` to a file and `mic profile` against `mic run`, and takes the most memory of each: best of ten, user time.

    watched.py [MIC]        MIC is a proved build of mic (crates/mic_tool/out/mic_tool, from `rt run` there)
"""
import os
import re
import shutil
import subprocess
import sys
import tempfile
import time
from pathlib import Path

HERE = Path(__file__).resolve().parent
TOP = HERE.parent
ROUNDS = 10
LENGTHS = (10_000, 100_000, 1_000_000)
BOUND = 10_000_000
# Instructions a cycle are those between these two bounds, so that the start does not count.
COUNTED = (1_000_000, 2_000_000)


def most_memory(child):
    """The most memory in kilobytes that the program itself has had, as long as it runs: what a child's usage tells has that of its parent too."""
    most = 0
    while child.poll() is None:
        try:
            found = re.search(r"VmHWM:\s*(\d+)", Path(f"/proc/{child.pid}/status").read_text())
        except OSError:
            break
        most = int(found.group(1)) if found else most
        time.sleep(0.002)
    return most


def seconds(words, err):
    """User time of a call, whose report goes to this file."""
    with open(err, "wb") as report:
        child = subprocess.Popen(words, stdin=subprocess.DEVNULL, stdout=subprocess.DEVNULL, stderr=report)
        _, status, used = os.wait4(child.pid, 0)
        child.returncode = os.waitstatus_to_exitcode(status)
    return used.ru_utime


def memory(words, err):
    with open(err, "wb") as report:
        return most_memory(subprocess.Popen(words, stdin=subprocess.DEVNULL, stdout=subprocess.DEVNULL, stderr=report))


def instructions(words):
    counted = subprocess.run(["valgrind", "--tool=callgrind", "--callgrind-out-file=/dev/null", *words], stdout=subprocess.DEVNULL, stderr=subprocess.PIPE)
    return int(re.search(rb"Collected : (\d+)", counted.stderr).group(1))


def per_cycle(words):
    few, many = (instructions([*words, "--bound", str(bound)]) for bound in COUNTED)
    return (many - few) / (COUNTED[1] - COUNTED[0])


def main():
    mic = sys.argv[1] if len(sys.argv) > 1 else str(TOP / "crates/mic_tool/out/mic_tool")
    with tempfile.TemporaryDirectory() as made:
        for name in ("loop", "calls"):
            program, err = str(HERE / f"programs/{name}.jas"), f"{made}/err"
            for cycles in LENGTHS:
                words = [mic, "trace", program, "--buses", "--bound", str(cycles)]
                best = min(seconds(words, err) for _ in range(ROUNDS))
                size = os.path.getsize(err)
                print(f"{name}: trace of {cycles} cycles with buses, {size} bytes: {best:.2f} s, {memory(words, err) / 1024:.1f} MB")
            best = {}
            for _ in range(ROUNDS):
                for command in ("run", "profile"):
                    taken = seconds([mic, command, program, "--bound", str(BOUND)], err)
                    best[command] = min(taken, best.get(command, taken))
            print(f"{name}: profile {best['profile']:.3f} s, run {best['run']:.3f} s, {best['profile'] / best['run']:.2f} times")
            if shutil.which("valgrind"):
                print("    instructions a cycle: " + ", ".join(f"{command} {per_cycle([mic, command, program]):.1f}" for command in ("run", "profile")))


if __name__ == "__main__":
    main()
