"""`coverage`, `calls` and `misses`: their counts are those of `mic profile`, the report and `mic cache`."""
import itertools
import json
import os
import re

from .running import Runs, profile_of, programs
from .where import lines_of


def check_coverage(check):
    runs = Runs(check)
    for (path, given), machine in check.some(itertools.product(programs(), ("mic1", "mic2")), 40):
        source, image, options = check.file("input", given), runs.image(path), ["--machine=" + machine, runs.bound(path)]
        said = check.mic.says("run", image, *options, given=given.encode("latin-1"))
        rows, more = profile_of(check, image, given, *options)
        if said.status not in (0, 1):
            continue
        if image == path and path.endswith(".jas"):
            image = os.path.join(check.folder, "made.ijvm")
            check.mic.says("assemble", path, image)
        printed = check.tool("coverage", image, *options, "--input", source)[0]
        counts, at = {}, {}
        for count, ways, address, name in re.findall(r"^ *(\d+|#####) +(\S+)? *([0-9a-f]{8})  ((?:WIDE )?[A-Z_]+)", printed, re.M):
            counts[name] = counts.get(name, 0) + int(count.replace("#####", "0"))
            at[int(address, 16)] = (int(count.replace("#####", "0")), ways)
        check.agree(f"coverage {path} on {machine}", {name: count for name, count in counts.items() if count}, {name: row[0] for name, row in rows.items()})
        micro = check.tool("coverage", path, *options, "--input", source, "--micro-lines")[0]
        clocked = sum(int(count) for count in re.findall(r"^ *(\d+) [0-9a-f]{3} ", micro, re.M))
        check.agree(f"statements of {path} on {machine}", clocked, more["cycles"] - more["stalls"])
        check_lines(check, path, options, source, at)


def check_lines(check, path, options, source, at):
    """Of a source the counts of its lines, by an own count of sizes, and the ways of its branches."""
    with open(path, encoding="latin-1") as file:
        text = file.read()
    if not path.endswith(".jas") or re.search(r"wide|[A-Z]+ +\d{3}\b|IINC +\w+ +-?\d{3}", text, re.IGNORECASE) or path.endswith("wide_locals.jas"):
        return
    lines = lines_of(text)
    printed = check.tool("coverage", path, *options, "--input", source)[0]
    shown = {int(line): int(count.replace("#####", "0")) for count, line in re.findall(r"^ *(\d+|#####) [ \d/-]{12} +(\d+)  ", printed, re.M)}
    check.agree(f"lines of {path}", shown, {lines[address]: count for address, (count, _) in at.items()})


def check_calls(check):
    runs = Runs(check)
    for (path, given), machine in check.some(itertools.product(programs(), ("mic1", "mic2")), 40):
        source, image, options = check.file("input", given), runs.image(path), ["--machine=" + machine, runs.bound(path)]
        rows, more = profile_of(check, image, given, *options)
        folded = check.tool("calls", "--folded", path, *options, "--input", source)[0]
        check.agree(f"cycles of calls {path} on {machine}", sum(int(line.split()[-1]) for line in folded.splitlines()), more["cycles"])
        tree = [json.loads(line) for line in check.tool("calls", "--json", "--depth", 100000, path, *options, "--input", source)[0].splitlines()]
        returned = sum(call["result"] is not None for call in tree)
        check.agree(f"calls {path} on {machine}", (len(tree) - 1, returned), (rows.get("INVOKEVIRTUAL", (0,))[0], rows.get("IRETURN", (0,))[0]))
        check.agree(f"cycles of main in {path} on {machine}", tree[0]["cycles"] + more["boot"], more["cycles"])


def check_misses(check):
    runs = Runs(check)
    for (path, given), lines in check.some(itertools.product(programs(), (1, 4, 64, 4096)), 40):
        source, bound = check.file("input", given), runs.bound(path)
        said = check.mic.says("cache", runs.image(path), str(lines), bound, given=given.encode("latin-1")).err
        printed = check.tool("misses", path, lines, bound, "--input", source)[0]
        check.agree(f"misses {path} {lines}", printed.splitlines()[-1:], said.splitlines()[-1:])
