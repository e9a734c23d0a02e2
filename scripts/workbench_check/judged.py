"""What the workbench says of microprograms, in node, beside what mic-check itself prints of them"""
from __future__ import annotations

import copy
import json
import os
import re
import subprocess
import tempfile

from .runs import TOP, example, own
from .trace import Program

ROW = re.compile(r"([A-Za-z_ ]+) (\d.*) \(shipped (.*)\)$")
ASKED = re.compile(r"(?:WIDE )?[A-Z_]+(?: \(opcode 80\))?|boot")


def damaged(name, *changes):
    """A microprogram like quick_jumps.mal, but for these texts"""
    text = example("quick_jumps.mal")["text"]
    for old, new in changes:
        if text.count(old) != 1:
            raise ValueError("quick_jumps.mal does not have %r once" % old)
        text = text.replace(old, new)
    return own(name, text)


def microprograms():
    """Some that are proved, some that are not shown, with statements that have no label or no line on their ways, and one that is refused"""
    with open(os.path.join(TOP, "classroom", "exercises", "11-branches", "start.mal"), encoding="utf-8") as file:
        start = own("start.mal", file.read())
    no_wr = ("isub3 TOS=MDR=MDR-H; wr; goto", "isub3 TOS=MDR=MDR-H; goto")
    return [
        example("quick_jumps.mal"), start,
        damaged("slow_swap.mal", ("swap2 MAR=SP\n", "swap2 MAR=SP\n\n        // one cycle more\n        \nidle\n")),
        damaged("no_wr.mal", no_wr),
        damaged("two.mal", no_wr, ("dup2 MDR=TOS; wr;", "dup2 MDR=TOS;")),
        damaged("no_label.mal", ("isub2 H=TOS\n", "H=TOS\n"), no_wr),
        damaged("astray.mal", ("nop1 goto Main1", "nop1 PC=PC-1; goto (MBR OR 0x100)")),
        damaged("refused.mal", ("nop1 goto Main1", "nop1 goto Main2")),
    ]


class Asked:
    """What mic-check prints of a microprogram, and the lines of its statements, by mic"""

    def __init__(self, program, check, file):
        with tempfile.TemporaryDirectory() as folder:
            with open(os.path.join(folder, "micro.mal"), "wb") as opened:
                opened.write(file["text"].encode("utf-8", "surrogateescape"))
            done = subprocess.run([check, "micro.mal"], cwd=folder, stdout=subprocess.PIPE, stderr=subprocess.PIPE)
            placed = program.call(folder, "micro", "micro.mal", "store.mic")[0].decode()
        self.status, self.said, self.lines = done.returncode, done.stderr.decode(), done.stdout.decode().split("\n")[:-1]
        rows = [number for number, row in enumerate(file["text"].split("\n"), 1) if not re.match(r"\s*(\.|//|$)", row)]
        statements = re.findall(r"^([0-9a-f]{3}) [0-9a-f]+ (\S+)", placed, re.M)
        self.line_of = {name: line for (address, label), line in reversed([*zip(statements, rows)]) for name in ("0x" + address, label)}

    def named(self, head):
        """The instructions of the line that begins so"""
        return [name for line in self.lines if line.startswith(head) for name in ASKED.findall(line[len(head):])]


class Compared:
    """Compares what is shown of a microprogram with what mic-check prints"""

    def __init__(self, asked, shown):
        self.asked, self.shown, self.differences = asked, shown, []

    def want(self, what, given, right):
        if given != right:
            self.differences.append("%s is %r, and not %r" % (what, given, right))

    def compare(self):
        if self.asked.status == 65:
            self.want("the line that is refused", (self.shown.get("refusal") or {}).get("line"), int(re.search(r"micro\.mal:(\d+):", self.asked.said)[1]))
        elif "error" in self.shown:
            self.differences.append(self.shown["error"])
        else:
            self.want("the answer", self.shown["isProved"], self.asked.status == 0)
            if self.shown["isProved"] == (self.asked.status == 0):
                (self.proved if self.shown["isProved"] else self.not_shown)()
        return self.differences

    def proved(self):
        rows = [ROW.match(line).groups() for line in self.asked.lines[1:]]
        self.want("the rows", [(row["name"], row["own"]["text"], row["shipped"]["text"]) for row in self.shown["rows"]], rows)
        for row in self.shown["rows"]:
            for cost in (row["own"], row["shipped"]):
                self.want("the counts of " + row["name"], cost["counts"], [int(n) for n in re.findall(r"\d+", cost["text"].partition(" where ")[0])])
        counts = [[int(n) for n in re.findall(r"\d+", text.partition(" where ")[0])] for row in rows for text in row[1:]]
        pairs = [*zip(counts[::2], counts[1::2])]
        for word, is_so in (("fewer", lambda one, other: one < other), ("more", lambda one, other: one > other)):
            found = re.search(r"(\d+) (?:instructions )?with %s" % word, self.shown["said"])
            number = sum(any(is_so(*cycles) for cycles in zip(*pair)) for pair in pairs)
            self.want("how many take " + word, int(found[1]) if found else 0, number)

    def not_shown(self):
        sentence, way = re.match(r"not shown: (.*?)(?:  \((.*)\))?$", self.asked.lines[0]).groups()
        self.want("the difference", "%s: %s" % (self.shown["where"], self.shown["what"]), sentence)
        names = way.split(" ") if way else []
        self.want("the statements", [(one["label"], one["line"]) for one in self.shown["way"]], [(name, self.asked.line_of.get(name, 0)) for name in names])
        self.want("the other instructions", self.shown["others"], self.asked.named("not shown either:"))
        self.want("those that are not followed", self.shown["unfollowed"], self.asked.named("too much is asked:"))


def judged(node, mic, check, files):
    """What the workbench says of these files, by workbench/test/judged.js"""
    script = os.path.join(TOP, "workbench", "test", "judged.js")
    done = subprocess.run([node, script, mic, check], input=json.dumps(files).encode(), stdout=subprocess.PIPE, check=True)
    return [json.loads(line) for line in done.stdout.decode().splitlines()]


# Faults of what is shown, each of which must be found: of a microprogram that is proved, and of one that is not shown
SPOILT_PROOF = {
    "a count of cycles": lambda shown: shown["rows"][3]["own"]["counts"].__setitem__(0, 99),
    "a row is missing": lambda shown: shown["rows"].pop(),
    "the cycles are exchanged": lambda shown: next(row.update(own=row["shipped"], shipped=row["own"]) for row in shown["rows"] if row["own"] != row["shipped"]),
    "one more is quicker": lambda shown: shown.update(said=re.sub(r"\d+ instr", "9 instr", shown["said"])),
}
SPOILT_DIFFERENCE = {
    "proved, and it is not shown": lambda shown: shown.update(isProved=True, rows=[]),
    "another line of a statement": lambda shown: shown["way"][-1].update(line=shown["way"][-1]["line"] + 1),
    "a statement is missing": lambda shown: shown["way"].pop(0),
    "another instruction is missing": lambda shown: shown["others"].pop(),
    "what is and what is wanted": lambda shown: shown.update(what=shown["what"] + "."),
}


def check_judged(results, node, mic, check):
    program, files = Program(mic), microprograms()
    answers = {}
    for file, shown in zip(files, judged(node, mic, check, files)):
        asked = answers[file["name"]] = (Asked(program, check, file), shown)
        results.note("mic-check on " + file["name"], Compared(*asked).compare())
    proved = {name: asked.status == 0 for name, (asked, _) in answers.items()}
    results.check("some are proved, and some are not shown", [*proved.values()] == [True, True, True, False, False, False, False, False], proved)
    for name, spoils in (("quick_jumps.mal", SPOILT_PROOF), ("two.mal", SPOILT_DIFFERENCE)):
        for what, spoil in spoils.items():
            asked, shown = answers[name][0], copy.deepcopy(answers[name][1])
            spoil(shown)
            results.check("planted: " + what, Compared(asked, shown).compare(), "not found")
