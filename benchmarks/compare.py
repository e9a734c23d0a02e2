#!/usr/bin/env python3
"""Times `mic run` against the C machines mic1.c and mic2.c: the same control store, images and input, run in turn.

    compare.py [OPTION..] [MIC]      MIC is a proved build of mic (crates/mic_tool/out/mic_tool, from `rt run` there)

    --rounds N               how often each runs (10); the best and the median of user time are taken
    --machines mic1,mic2     which machines
    --programs loop,..       which programs of the folder programs
    --compilers gcc,clang    what builds the C machines; those that are not installed are left out
    --flags=-O2              with which flags
    --plain                  builds them with PLAIN too: one function that tests the control lines in each cycle
    --alike                  builds them with ALIKE too: as PLAIN, and all that mic does and a run does not show
    --other NAME=COMMAND     times another program beside them, once for each option; COMMAND has {machine}, {image}, {locals}
                             (how many main has) and {bound} where they belong
    --no-instructions        does not count host instructions
    --bound N                cycles of a run (100000000); echo runs to its end

It prints a table and ends with status 1 if any output, report or status differs from that of mic. The report of another
program is its own, and is not compared.
"""
import argparse
import os
import re
import shutil
import statistics
import subprocess
import sys
import tempfile
import time
from pathlib import Path

HERE = Path(__file__).resolve().parent
TOP = HERE.parent
PROGRAMS = ("loop", "calls", "output", "echo")
# An echo of a megabyte comes to its end before this bound.
ECHO_BOUND = 1_000_000_000
# Instructions a cycle are those between these two bounds, so that the start does not count.
COUNTED = (100_000, 300_000)
# An echo reads this many bytes, none of which is 0.
INPUT = bytes(1 + n % 255 for n in range(1 << 20))


def told(*words):
    return subprocess.run(words, check=True, stdout=subprocess.PIPE, text=True).stdout


def ran(words, given):
    """What a run did (its status, and what it wrote to both streams), seconds of user time, and seconds in all."""
    with tempfile.TemporaryFile() as out, tempfile.TemporaryFile() as err, tempfile.TemporaryFile() as source:
        source.write(given)
        source.seek(0)
        began = time.perf_counter()
        child = subprocess.Popen(words, stdin=source, stdout=out, stderr=err)
        _, status, used = os.wait4(child.pid, 0)
        taken = time.perf_counter() - began
        child.returncode = os.waitstatus_to_exitcode(status)
        out.seek(0)
        err.seek(0)
        return (child.returncode, out.read(), err.read()), used.ru_utime, taken


def instructions_by_perf(words, given):
    """None where the processor's counters are not there."""
    (_, _, err), *_ = ran(["perf", "stat", "-x,", "-e", "instructions:u", *words], given)
    found = re.search(rb"^(\d+),[^,]*,instructions", err, re.M)
    return int(found.group(1)) if found else None


def instructions_by_valgrind(words, given):
    (_, _, err), *_ = ran(["valgrind", "--tool=callgrind", "--callgrind-out-file=/dev/null", *words], given)
    return int(re.search(rb"Collected : (\d+)", err).group(1))


def counter():
    """What counts host instructions, and its name."""
    if shutil.which("perf") and instructions_by_perf(["true"], b""):
        return instructions_by_perf, "perf"
    if shutil.which("valgrind"):
        return instructions_by_valgrind, "valgrind"
    return None, "nothing"


def per_cycle(count, run, given):
    """Instructions a cycle of `run`, which gives the words for a bound."""
    few, many = (count(run(bound), given) for bound in COUNTED)
    return (many - few) / (COUNTED[1] - COUNTED[0])


def built(name, compiler, flags, program):
    subprocess.run([compiler, *flags, "-o", program, str(HERE / f"{name}.c")], check=True)
    return program


def store_of(mic, machine, made):
    """The file of the control store that ships, and the address of Main1."""
    store = f"{made}/{machine}.mic"
    Path(f"{made}/{machine}.mal").write_text(told(mic, "print-micro", "--machine", machine))
    addresses = told(mic, "micro", f"{made}/{machine}.mal", store, "--machine", machine)
    return store, re.search(r"^([0-9a-f]{3}) [0-9a-f]+ Main1 ", addresses, re.M).group(1)


def compared(machine, name, given, runs, kinds, others, bound, rounds, count):
    """Prints a row, and gives whether all did the same."""
    seconds, seen = {who: [] for who in runs}, {}
    for _ in range(rounds):
        for who, run in runs.items():
            did, user, _ = ran(run(bound), given)
            # A run of few cycles can have no measured time at all.
            seconds[who].append(max(user, 1e-6))
            seen.setdefault(who, did)
            told_alike = 2 if who in others else 3
            if did[:told_alike] != seen["mic"][:told_alike]:
                print(f"{machine} {name}: what {who} wrote, or its status, differs from that of mic", file=sys.stderr)
                return False
    cycles = int(re.search(rb"^cycles (\d+)", seen["mic"][2], re.M).group(1))
    row = [machine, name] + [f"{cycles / min(seconds[who]) / 1e6:.0f}" for who in runs]
    for kind in kinds:
        for taken in (min, statistics.median):
            quickest = min(taken(seconds[who]) for who in kind)
            row.append(f"{quickest / taken(seconds['mic']):.2f}")
    if count:
        row += [f"{per_cycle(count, run, given):.0f}" for run in runs.values()]
    print("| " + " | ".join(row) + " |", flush=True)
    return True


def start(mic, memory):
    image = str(TOP / "examples/letter_b.ijvm")
    words = [mic, "run", image, "--bound", "10"]
    taken = min(ran(words, b"")[2] for _ in range(10))
    most = int(ran([memory, *words], b"")[0][2].split()[-1])
    print(f"start: mic clocks ten cycles in {1000 * taken:.1f} ms, and has {most / 1024:.1f} MB")


def asked():
    words = argparse.ArgumentParser(description=__doc__, formatter_class=argparse.RawDescriptionHelpFormatter)
    words.add_argument("mic", nargs="?", default=str(TOP / "crates/mic_tool/out/mic_tool"))
    words.add_argument("--rounds", type=int, default=10)
    words.add_argument("--machines", default="mic1,mic2")
    words.add_argument("--programs", default=",".join(PROGRAMS))
    words.add_argument("--compilers", default="gcc,clang")
    words.add_argument("--flags", default="-O2")
    words.add_argument("--plain", action="store_true")
    words.add_argument("--alike", action="store_true")
    words.add_argument("--other", action="append", default=[], metavar="NAME=COMMAND")
    words.add_argument("--no-instructions", action="store_true")
    words.add_argument("--bound", type=int, default=100_000_000)
    return words.parse_args()


def main():
    given = asked()
    mic, same = given.mic, True
    compilers = [compiler for compiler in given.compilers.split(",") if shutil.which(compiler)]
    if not compilers:
        sys.exit("no C compiler is there")
    # The kinds of C, with the flags of each.
    kinds = {"": given.flags.split()}
    if given.plain:
        kinds[" plain"] = [*given.flags.split(), "-DPLAIN"]
    if given.alike:
        kinds[" alike"] = [*given.flags.split(), "-DALIKE"]
    others = dict(other.split("=", 1) for other in given.other)
    groups = {f"C{kind}": [compiler + kind for compiler in compilers] for kind in kinds}
    if others:
        groups["the other"] = list(others)
    columns = ["mic", *(who for group in groups.values() for who in group)]
    count, counts = (None, "nothing") if given.no_instructions else counter()
    print(f"Million cycles a second by the best user time of {given.rounds} rounds; the speed of mic, of that of the fastest of a kind, by the best")
    print("and by the median" + (f"; host instructions a cycle, counted by {counts}" if count else "") + f". The C is built with {given.flags}.")
    print()
    heads = ["machine", "program", *columns]
    heads += [word for group in groups for word in (f"mic, of {group}", "by the median")]
    heads += ["instructions: mic", *columns[1:]] if count else []
    print("| " + " | ".join(heads) + " |")
    print("|---" * len(heads) + "|", flush=True)
    with tempfile.TemporaryDirectory() as made:
        for machine in given.machines.split(","):
            store, entry = store_of(mic, machine, made)
            programs = {}
            for kind, flags in kinds.items():
                for compiler in compilers:
                    programs[compiler + kind] = built(machine, compiler, flags, f"{made}/{machine} {compiler}{kind}")
            for name in given.programs.split(","):
                image = f"{made}/{name}.ijvm"
                told(mic, "assemble", str(HERE / f"programs/{name}.jas"), image)
                local = re.search(r"main (\d+)", told(mic, "verify", image)).group(1)
                runs = {"mic": lambda bound: [mic, "run", image, "--machine", machine, "--bound", str(bound)]}
                for who, program in programs.items():
                    runs[who] = lambda bound, program=program: [program, store, entry, local, image, str(bound)]
                for who, command in others.items():
                    runs[who] = lambda bound, command=command: [
                        word.format(machine=machine, image=image, locals=local, bound=bound) for word in command.split()
                    ]
                source, bound = (INPUT, ECHO_BOUND) if name == "echo" else (b"", given.bound)
                same &= compared(machine, name, source, runs, groups.values(), others, bound, given.rounds, count)
        print()
        start(mic, built("memory", compilers[0], ["-O2"], f"{made}/memory"))
    sys.exit(0 if same else 1)


if __name__ == "__main__":
    main()
