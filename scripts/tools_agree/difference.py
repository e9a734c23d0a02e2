"""`difference`: the cycles of equal runs are those of `mic profile`, and damages of microprograms are found."""
import glob
import itertools
import json
import os
import re

from .running import EXERCISES, Runs, load, profile_of, programs


def check_difference(check):
    pairs = [("mic1", "examples/quick_jumps.mal"), ("mic1", f"{EXERCISES}/11-branches/solution.mal"), ("mic2", f"{EXERCISES}/13-branches-on-mic2/solution.mal")]
    runs = Runs(check)
    for (machine, micro), (path, given) in check.some(itertools.product(pairs, programs()), 30):
        with open(os.path.join(check.folder, "input"), "w", encoding="latin-1", newline="") as file:
            file.write(given)
        options = ["--machine=" + machine, runs.bound(path)]
        printed, status = check.tool("difference", "--json", path, "--micro", micro, *options, "--input", os.path.join(check.folder, "input"))
        found = json.loads(printed)
        if not check.agree(f"difference {path} {micro}", (status, found["same"]), (0, True)) or found["bound"]:
            continue
        for place, own in ((0, []), (1, ["--micro=" + micro])):
            rows, more = profile_of(check, runs.image(path), given, *options, *own)
            wanted = {**rows, "boot": (1, more["boot"])}
            costs = {row["instruction"]: (row["count"], row["cycles"][place]) for row in found["costs"]}
            check.agree(f"difference {path} {micro}, run {place}", costs, wanted)
            check.agree(f"difference {path} {micro}, cycles of run {place}", found["runs"][place]["cycles"], more["cycles"])
    check_two_programs(check)
    check_forgotten_writes(check)
    check_damages(check)


def check_two_programs(check):
    """Text and pool that are laid out differently are no difference, and neither are return addresses; another operand is one, where it is pushed."""
    for name in ("factorial", "fibonacci", "hanoi", "add"):
        with open(f"examples/{name}.jas", encoding="utf-8") as file:
            text = file.read()
        moved = text.replace(".constant\n", ".constant\n        UNUSED 7\n", 1).replace(".method", ".method unused()\n        BIPUSH 1\n        IRETURN\n.end-method\n\n.method", 1)
        printed, status = check.tool("difference", "--json", f"examples/{name}.jas", check.file("moved.jas", moved))
        check.agree(f"difference of {name} and the same elsewhere", (status, json.loads(printed)["same"]), (0, True))
        place = [found.start() for found in re.finditer("BIPUSH 1\n", moved)][-1] if moved.count("BIPUSH 1\n") > 1 else None
        if place is not None:
            other = check.file("other.jas", moved[:place] + "BIPUSH 3\n" + moved[place + 9 :])
            found = json.loads(check.tool("difference", "--json", check.file("moved.jas", moved), other)[0])
            values = [re.sub(r"  \[.*", "", value).split(" ", 1)[1] for value in found["what"][0]["values"]]
            check.agree(f"difference of {name} and another operand", values, ["BIPUSH 1", "BIPUSH 3"])


def check_forgotten_writes(check):
    """A write that is forgotten differs in the word at once; the statement is marked, and no other one is."""
    text = check.mic.says("print-micro").out
    writes = {"bipush3": "countdown", "iload4": "countdown", "istore3": "countdown", "iinc6": "countdown", "iadd3": "add", "invokevirtual16": "add",
              "invokevirtual18": "add", "invokevirtual20": "add", "ireturn8": "factorial", "dup2": "hello"}
    for label, program in writes.items():
        statement = re.search(rf"^{label} .*$", text, re.M)[0]
        path = check.file("forgotten.mal", text.replace(statement, statement.replace("; wr", "")))
        found = json.loads(check.tool("difference", "--json", f"examples/{program}.jas", "--micro", path)[0])
        marked = {row["label"] for run in found["runs"] for row in run["statements"] if row["mark"] == ">"}
        check.agree(f"difference without the wr of {statement}", ("word" in [row["kind"] for row in found["what"]], marked), (True, {label}))


def check_damages(check):
    """Each damage that the programs of an exercise catch is named: a damaged statement is marked, or what differs is its first effect."""
    damages = load("scripts/damage-exercises")
    for name, machine in (("11-branches", "mic1"), ("13-branches-on-mic2", "mic2")):
        folder = f"{EXERCISES}/{name}"
        fixed, statements = damages.read_microprogram(damages.MIC, f"{folder}/solution.mal", machine)
        _, start = damages.read_microprogram(damages.MIC, f"{folder}/start.mal", machine)
        flow = damages.Flow(fixed, statements, machine)
        places = flow.around([place for place, statement in enumerate(statements) if statement not in start])
        whole, found = check.file("whole.mal", "\n".join([*fixed, *map(str, statements)]) + "\n"), 0
        for what, program in check.some(damages.damaged(statements, places, machine), 12):
            path = check.file("damaged.mal", "\n".join([*fixed, *map(str, program)]) + "\n")
            if check.mic.says("micro", path, os.path.join(check.folder, "made"), "--machine=" + machine).status == 0:
                found += check_damage(check, folder, machine, whole, path, what, (statements, program))
        check.agree(f"damages of {name} that show", found > 0, True)


def check_damage(check, folder, machine, whole, path, what, both):
    """Compares over the cases until one shows the damage. Returns whether one did."""
    for case in sorted(glob.glob(f"{folder}/cases/*.in")):
        program = case[:-3] + ".jas" if os.path.exists(case[:-3] + ".jas") else f"{folder}/program.jas"
        words = [program, "--micro", whole, "--micro", path, "--machine", machine, "--bound", "20000", "--input", case]
        printed, status = check.tool("difference", "--json", *words)
        found = json.loads(printed)
        if status != 1:
            continue
        changed = {str(statement) for side, other in (both, both[::-1]) for statement in set(side) - set(other)}
        marked = {f"{row['label']} {row['text']}" for run in found["runs"] for row in run["statements"]}
        named = any(f"{statement}" in marked or statement.split(" ")[0] in {row.split(" ")[0] for row in marked} for statement in changed)
        check.agree(f"difference of {what}", named or is_first_effect(check, words, found), True)
        return True
    return False


def is_first_effect(check, words, found):
    """Whether at no earlier boundary `mic debug` shows another next instruction, SP, LV, CPP, TOS or stack for the two microprograms."""
    sides = []
    for micro in (words[2], words[4]):
        options = ["--micro=" + micro, "--machine=" + words[6], "--input=" + words[10]]
        said = check.mic.says("debug", words[0], *options, given=b"step\nregs\nstack\n" * found["boundaries"]).err
        sides.append(re.findall(r" at (.*) mpc|(?:SP|LV|CPP|TOS) (\w+)|^(\w{8} \w{8})$", said.split("\nend ")[0], re.M))
    return sides[0] == sides[1]
