#!/usr/bin/env python3
"""Times the WebAssembly module in node beside the native program, and measures the memory of the largest calls.

usage: benchmarks/module.py [--program MIC] [--module FILE] [--bound N] [--rounds N]

MIC is the native program: else that of the environment's MIC, else the released one. FILE is a module or a page with one
inside, else release/mic.html. Program and module run in turn; what counts is the best processor time of a round: of the
program all, of the module that of node during the call. "Cold" is the first call of a new node. Standard library alone.
"""
import argparse
import base64
import os
import re
import sys
import tempfile
from pathlib import Path

TOP = Path(__file__).resolve().parent.parent
sys.dont_write_bytecode = True
sys.path.insert(0, str(TOP / "scripts"))

from mic_program import add_option, program_or_leave  # noqa: E402
from module_calls import RELEASED, NoEngine, Node, base64_of, program_of  # noqa: E402
from page_parts import NoPage, module_of  # noqa: E402

MACHINES = ["mic1", "mic2", "mic3"]
PROGRAMS = ["loop", "calls", "output", "echo"]
MIB = 1 << 20
SECONDS = 600
ROOM = 16 * MIB  # for each stream, as the page has it


def source_of_one_mib():
    """A program in IJVM whose source has as many bytes as may be read."""
    head, tail = b".main\n", b" HALT\n.end-main\n"
    comments = MIB - len(head) - len(tail)
    line = b"// " + b"x" * 60 + b"\n"
    return head + line * (comments // len(line)) + b"\n" * (comments % len(line)) + tail


def largest_calls():
    """Name, words, files and input of the largest calls."""
    output = (TOP / "benchmarks/programs/output.jas").read_bytes()
    loop = (TOP / "benchmarks/programs/loop.jas").read_bytes()
    back = b"micro 70000\nback 65536\nmicro 65536\nquit\n"
    yield "`run` of a source of 1 MiB", ["run", "a.jas"], {"a.jas": source_of_one_mib()}, b""
    yield "10 MB of output", ["run", "--bound=128000000", "a.jas"], {"a.jas": output}, b""
    yield "`trace --buses` of 200,000 cycles", ["trace", "--buses", "--bound=200000", "a.jas"], {"a.jas": loop}, b""
    yield "`rewind --depth 65536`, there and back", ["rewind", "--depth=65536", "a.jas"], {"a.jas": loop}, back


def native_call(program, words, files, given=b""):
    """Calls the program: seconds of processor, MiB of memory, and the bytes that it printed on both streams."""
    with tempfile.TemporaryDirectory() as room:
        for name, contents in files.items():
            Path(room, name).write_bytes(contents)
        Path(room, ".input").write_bytes(given)
        child = os.fork()
        if child == 0:
            os.chdir(room)
            for number, name, how in ((0, ".input", os.O_RDONLY), (1, ".out", os.O_WRONLY | os.O_CREAT), (2, ".err", os.O_WRONLY | os.O_CREAT)):
                os.dup2(os.open(name, how), number)
            os.execv(program, [program, *words])
        _, _, used = os.wait4(child, 0)
        printed = [Path(room, name).read_bytes() for name in (".out", ".err")]
    return used.ru_utime + used.ru_stime, used.ru_maxrss / 1024, printed


def module_call(node, words, files, given=b"", room=ROOM):
    files = {name: base64_of(contents) for name, contents in files.items()}
    limits = {"out": ROOM, "err": room}
    reply = node.ask({"words": words, "files": files, "input": base64_of(given), "limits": limits, "fails": {}})
    if "failure" in reply:
        raise NoEngine(f"{' '.join(words)}: {reply['failure']}")
    return reply["processor"] / 1000, reply["memory"] / MIB, [base64.b64decode(reply[name]) for name in ("out", "err")]


def cycles_in(messages):
    return int(re.search(rb"^cycles (\d+)", messages, re.M)[1])


def compare_speed(program, new_node, bound, rounds):
    print("| machine | program | native | module, warm | ratio | module, cold | ratio |\n|---|---|---|---|---|---|---|")
    warm = new_node()
    for machine in MACHINES:
        for name in PROGRAMS:
            words = ["run", f"--machine={machine}", f"--bound={bound}", "a.jas"]
            files = {"a.jas": (TOP / f"benchmarks/programs/{name}.jas").read_bytes()}
            given = b"The same line, a thousand times over.\n" * (MIB // 38) if name == "echo" else b""
            native, module = [], []
            for _ in range(rounds):
                native.append(native_call(program, words, files, given))
                module.append(module_call(warm, words, files, given))
            node = new_node()
            cold = module_call(node, words, files, given)
            node.close()
            if any(printed != native[0][2] for _, _, printed in [*native, *module, cold]):
                raise NoEngine(f"{machine} {name}: program and module do not print the same")
            cycles = cycles_in(native[0][2][1]) / 1e6
            speeds = [cycles / min(times)[0] for times in (native, module, [cold])]
            row = [f"{speeds[0]:.0f}", f"{speeds[1]:.0f}", f"{speeds[1] / speeds[0]:.2f}", f"{speeds[2]:.0f}", f"{speeds[2] / speeds[0]:.2f}"]
            print(f"| {machine} | {name} | {' | '.join(row)} |", flush=True)
    warm.close()


def compare_largest(program, new_node):
    print("\n| call | printed | native | module | ratio | memory, native | memory, module |\n|---|---|---|---|---|---|---|")
    for name, words, files, given in largest_calls():
        node, room = new_node(), 48 * MIB if "trace" in name else ROOM
        module_call(node, words, files, given, room)
        native, module = native_call(program, words, files, given), module_call(node, words, files, given, room)
        node.close()
        if native[2] != module[2]:
            raise NoEngine(f"{name}: program and module do not print the same")
        printed = sum(map(len, native[2])) / 1e6
        times = f"{native[0] * 1000:.0f} ms | {module[0] * 1000:.0f} ms | {native[0] / module[0]:.2f}"
        print(f"| {name} | {printed:.1f} MB | {times} | {native[1]:.0f} MiB | {module[1]:.0f} MiB |", flush=True)


def main():
    words = argparse.ArgumentParser(description=__doc__.splitlines()[0])
    add_option(words)
    words.add_argument("--module", default=RELEASED, metavar="FILE")
    words.add_argument("--bound", type=int, default=20_000_000, metavar="N", help="cycles of each run")
    words.add_argument("--rounds", type=int, default=8, metavar="N")
    given = words.parse_args()
    program = os.path.abspath(program_or_leave(given.program))
    try:
        with tempfile.TemporaryDirectory() as room:
            module = Path(room, "mic.wasm")
            module.write_bytes(module_of(given.module))
            compare_speed(program, lambda: Node(program_of("node"), module, SECONDS), given.bound, given.rounds)
            compare_largest(program, lambda: Node(program_of("node"), module, SECONDS))
    except (NoEngine, NoPage) as why:
        print(f"module.py: {why}", file=sys.stderr)
        return 1
    return 0


if __name__ == "__main__":
    sys.exit(main())
