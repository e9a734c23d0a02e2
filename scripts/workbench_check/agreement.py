"""The workbench's modules in node, beside mic itself"""
from __future__ import annotations

import copy
import json
import os
import random
import re
import subprocess
import tempfile

from .cycles import Comparison
from .runs import TOP, piped_runs, traced_runs
from .trace import Program, Run

SHORT_CYCLES = 150  # of a run, in the short form
REWOUND = 6  # cycles of a run whose frame is compared with `mic rewind`


def name_of(run):
    parts = [run["program"]["name"], "on", run.get("machine", "mic1")]
    parts += ["with", run["micro"]["name"]] if run.get("micro") else []
    return " ".join(parts + (["from %d" % run["from"]] if "from" in run else []))


def shown_of(node, mic, runs):
    """What the workbench shows of these runs, by workbench/test/shown.js"""
    script = os.path.join(TOP, "workbench", "test", "shown.js")
    done = subprocess.run([node, script, mic], input=json.dumps(runs).encode(), stdout=subprocess.PIPE, check=True)
    return [json.loads(line) for line in done.stdout.decode().splitlines()]


def check_agreement(results, mic, node, is_long):
    program, most = Program(mic), 20_000 if is_long else SHORT_CYCLES
    runs = [{"most": most, **run} for run in traced_runs()]
    for run, shown in zip(runs, shown_of(node, mic, runs)):
        if "error" in shown:
            results.check(name_of(run), False, shown["error"])
            continue
        its = Run(program, run)
        results.note(name_of(run), Comparison(its, shown).compare())
        results.note(name_of(run) + ", its frames", rewound(program, run, shown))
        results.note(name_of(run) + ", its lines", other_lines(run, shown))
        results.check(name_of(run) + ", its buses computed", shown["computed"] == 0, "%d cycles" % shown["computed"])
    drawn = subprocess.run([node, os.path.join(TOP, "workbench", "draw.js"), "--check"], stdout=subprocess.PIPE)
    results.check("docs/mic1.svg and docs/mic2.svg are the drawing with nothing lit", drawn.returncode == 0, drawn.stdout.decode())
    check_planted(results, program, node, mic)
    check_pipeline(results, node, mic, is_long)


def other_lines(run, shown):
    """The line of each cycle's instruction, compared with that of classroom/addresses; the boot has none"""
    if not run["program"]["name"].endswith(".jas"):
        return []
    with tempfile.NamedTemporaryFile(suffix=".jas") as source:
        source.write(run["program"]["text"].encode("utf-8", "surrogateescape"))
        source.flush()
        said = subprocess.run([os.path.join(TOP, "classroom", "addresses"), source.name], stdout=subprocess.PIPE, check=True).stdout.decode("latin-1")
    lines = {address: int(line) for address, line in re.findall(r"^([0-9a-f]{8}) (?!method ).{22} *?(\d+)  ", said, re.M)}
    wrong = []
    for one in shown["cycles"]:
        right = lines.get(one["instruction"][:8], 0) if not one["instruction"].endswith("?") else one["line"]
        if one["line"] != right:
            wrong.append("cycle %d, %s: line %d, and not %d" % (one["cycle"], one["instruction"], one["line"], right))
    return wrong


def rewound(program, run, shown):
    """Words of frames at some cycles, compared with those of `mic rewind`"""
    if run.get("micro") or not shown["cycles"]:
        return []
    chosen = sorted(random.Random(1).sample(range(shown["count"]), min(REWOUND, shown["count"])))
    asked, wanted, at = [], [], 0
    for cycle in (shown["cycles"][place] for place in chosen):
        asked.append("micro %d" % (cycle["cycle"] - 1 - at) if cycle["cycle"] - 1 > at else "regs")
        at = cycle["cycle"] - 1
        rows = [row for row in cycle["frame"] if row[0] < 0x10000]
        asked += ["word 0x%x" % address for address, _, _ in rows]
        wanted += ["%08x %08x" % (address, value) for address, value, _ in rows]
    with tempfile.TemporaryDirectory() as folder:
        name = "program." + run["program"]["name"].rsplit(".", 1)[1]
        files = {name: run["program"]["text"].encode("utf-8", "surrogateescape"), "input": run.get("input", "").encode("utf-8", "surrogateescape")}
        for file, content in files.items():
            with open(os.path.join(folder, file), "wb") as opened:
                opened.write(content)
        if name.endswith("tiny"):
            program.call(folder, "compile", name, "program.ijvm")
            name = "program.ijvm"
        options = ["--machine=" + run.get("machine", "mic1"), "--map=" + run.get("map", "standard"), "--input=input"]
        said = program.call(folder, "rewind", *options, name, given=("\n".join(asked) + "\n").encode())[1]
    given = re.findall(r"^[0-9a-f]{8} [0-9a-f]{8}$", said, re.M)
    return ["%s, and not %s" % pair for pair in zip(wanted, given) if pair[0] != pair[1]] + ([] if len(wanted) == len(given) else ["some words are missing"])


# Faults as they would come of a wrong drawing: each is put into what is shown of one cycle, and must be found
PLANTED = {
    "a wire of the C bus is missing": lambda one: one["wires"].remove(next(wire for wire in one["wires"] if wire.startswith("C "))),
    "a wire of the B bus is lit": lambda one: one["wires"].append("B CPP"),
    "the ALU's operation": lambda one: one["fields"].update(operation="1" if one["fields"]["alu"] == "ffffffff" else "-1"),
    "the value of the C bus": lambda one: one["fields"].update(c="C 12345678"),
    "a register after the edge": lambda one: one["fields"].update({"next-SP": "00000001"}),
    "a bit of the word": lambda one: one["fields"].update({"bit-ALU-3": "1" if one["fields"]["bit-ALU-3"] == "0" else "0"}),
    "the next address": lambda one: one["fields"].update({"next-addr": "1ff"}),
    "memory's port": lambda one: one["fields"].update(wordPort="fetch"),
    "a word of the frame": lambda one: one["frame"].append([0x8000, 0xDEAD, ""]),
    "the label": lambda one: one["fields"].update(label="000  other"),
}


def check_planted(results, program, node, mic):
    run = {**next(run for run in traced_runs() if run["program"]["name"] == "add.jas"), "most": 100}
    [shown] = shown_of(node, mic, [run])
    place = next(k for k, one in enumerate(shown["cycles"]) if k > 20 and any(wire.startswith("C ") for wire in one["wires"]))
    for name, plant in PLANTED.items():
        spoilt = copy.deepcopy(shown)
        plant(spoilt["cycles"][place])
        results.check("planted: " + name, Comparison(Run(program, run), spoilt).compare(), "not found")


# `OUT` of the first program of the tutorial on Mic-3, as docs/machines.md has it: what issues, computes and retires in cycles 9 to 23
OUT_STAGES = [
    ("out1", "", ""), ("", "out1", ""), ("", "", "out1"), ("out2", "", ""), ("", "out2", ""), ("", "", "out2"), ("out3", "", ""), ("out4", "out3", ""),
    ("out5", "out4", "out3"), ("out6", "out5", "out4"), ("", "out6", "out5"), ("", "", "out6"), ("out7", "", ""), ("", "out7", ""), ("", "", "out7"),
]


def check_pipeline(results, node, mic, is_long):
    """Mic-3: that the totals are those of mic the modules see to themselves; the table of the document is compared here"""
    first = {"program": {"name": "first.jas", "text": ".main\n BIPUSH 72\n OUT\n HALT\n.end-main\n"}, "machine": "mic3"}
    runs = [first] + [{**run, "most": 20_000 if is_long else 2_000} for run in piped_runs()]
    for run, shown in zip(runs, shown_of(node, mic, runs)):
        results.check(name_of(run), "error" not in shown, shown.get("error"))
        if run is first and "error" not in shown:
            stages = [tuple(one["stages"]) for one in shown["cycles"][8:23]]
            results.note("the pipeline's table in docs/machines.md", ["cycle %d: %s, and not %s" % (9 + k, given, right)
                         for k, (given, right) in enumerate(zip(stages, OUT_STAGES)) if given != right])
