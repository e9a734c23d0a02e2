#!/usr/bin/env python3
"""Counts what a cycle of `mic rewind` takes against one of `mic run`, and what the kept cycles take of memory.

    rewound.py [MIC]        MIC is a proved build of mic (crates/mic_tool/out/mic_tool, from `rt run` there)
"""
import re
import subprocess
import sys
from pathlib import Path

HERE = Path(__file__).resolve().parent
TOP = HERE.parent
DEPTH = 65_536
# Instructions a cycle are those between these two numbers of cycles, so that the start does not count.
COUNTED = (100_000, 300_000)


def instructions(words, lines=""):
    """The host instructions of a call with these lines."""
    counted = subprocess.run(
        ["valgrind", "--tool=callgrind", "--callgrind-out-file=/dev/null", *words],
        input=lines.encode(), stdout=subprocess.DEVNULL, stderr=subprocess.PIPE,
    )
    return int(re.search(rb"Collected : (\d+)", counted.stderr).group(1))


def cycles_of(mic, program, machine):
    """Host instructions for a cycle that `run` clocks; that is clocked and kept; gone back over; gone forward over."""
    few, many = COUNTED
    run = [instructions([mic, "run", program, "--machine", machine, "--bound", str(it)]) for it in COUNTED]
    rewind = [mic, "rewind", program, "--machine", machine, "--depth", str(DEPTH)]
    short = instructions(rewind, f"micro {few}\n")
    long = instructions(rewind, f"micro {many}\n")
    back = instructions(rewind, f"micro {many}\nback {DEPTH}\n")
    forth = instructions(rewind, f"micro {many}\nback {DEPTH}\nmicro {DEPTH}\n")
    return (run[1] - run[0]) / (many - few), (long - short) / (many - few), (back - long) / DEPTH, (forth - back) / DEPTH


def kilobytes(mic, program, depth):
    """The most memory of a session that has kept all the cycles it can: it is asked while it waits for a line."""
    words = [mic, "rewind", program, "--depth", str(depth)]
    pipes = {"stdin": subprocess.PIPE, "stdout": subprocess.DEVNULL, "stderr": subprocess.PIPE}
    with subprocess.Popen(words, **pipes) as session:
        session.stdin.write(f"micro {DEPTH}\n".encode())
        session.stdin.flush()
        if not session.stderr.readline().startswith(b"cycle "):
            sys.exit(f"rewound.py: {' '.join(words)} does not go forward")
        status = Path(f"/proc/{session.pid}/status").read_text()
        session.stdin.write(b"quit\n")
    return int(re.search(r"VmHWM:\s*(\d+)", status).group(1))


def main():
    mic = sys.argv[1] if len(sys.argv) > 1 else str(TOP / "crates/mic_tool/out/mic_tool")
    for machine in ("mic1", "mic2"):
        for name in ("loop", "calls"):
            run, kept, back, forth = cycles_of(mic, f"{HERE}/programs/{name}.jas", machine)
            print(f"{machine} {name}: instructions a cycle: run {run:.0f}, clocked and kept {kept:.0f}, {kept / run:.2f} times; back {back:.0f}; forward again {forth:.0f}")
    program = f"{HERE}/programs/loop.jas"
    one = kilobytes(mic, program, 1)
    for depth in (4_096, DEPTH):
        all_of_it = kilobytes(mic, program, depth)
        print(f"depth {depth}: {all_of_it / 1000:.1f} MB, of which the kept cycles {(all_of_it - one) / 1000:.1f} MB")


if __name__ == "__main__":
    main()
