"""`debug-adapter`: sessions of the Debug Adapter Protocol, compared with `mic debug` and `mic rewind`."""
import os
import re

from .client import Client
from .running import EXERCISES, Runs, programs
from .step import Rewind, moment_is_boundary

SESSIONS = 24
MICRO_SESSIONS = 6
STEPS = ["continue", "next", "stepIn", "stepOut", "stepBack", "reverseContinue", "stepIn", "next"]


class Session:
    """A session of the protocol, and what mic says of its moments."""

    def __init__(self, check, client, path, given, machine, number):
        self.check, self.client, self.path, self.name = check, client, path, f"session {number}, {path} on {machine}"
        self.source = check.file("input", given)
        self.image, self.options = Runs(check).image(path), ["--machine=" + machine]
        self.moments = []
        client.request("initialize", adapterID="mic", linesStartAt1=True)
        client.request("launch", program=os.path.abspath(path), machine=machine, bound=6000, input=self.source)
        client.take("initialized")

    def begin(self):
        """Sets breakpoints in two lines, or at two addresses of an image, and stops at the beginning."""
        addresses = re.findall(r"^([0-9a-f]{8}) (?!method|byte)", self.check.mic.says("list", self.image).out, re.M)
        chosen = self.check.random.sample(addresses, min(2, len(addresses)))
        body = self.client.request("setInstructionBreakpoints", breakpoints=[{"instructionReference": "0x" + address} for address in chosen])
        self.check.agree(f"{self.name}: breakpoints", [answer["verified"] for answer in body["breakpoints"]], [True] * len(chosen))
        self.client.request("configurationDone")
        self.client.take("stopped")
        self.chosen = chosen

    def stop(self):
        """What the protocol shows of a moment: its cycle, the registers, and the words of the running frame."""
        client = self.client
        where = client.request("evaluate", expression="where", context="repl")["result"]
        cycle = int(re.search(r"cycle (\d+)$", where, re.M)[1])
        frames = client.request("stackTrace", threadId=1)["stackFrames"]
        top = next((frame for frame in frames if "instructionPointerReference" in frame), None)
        scopes = {scope["name"]: scope["variablesReference"] for scope in client.request("scopes", frameId=(top or {"id": 1})["id"])["scopes"]}
        registers = {row["name"]: row["value"] for row in client.request("variables", variablesReference=scopes["Registers"])["variables"]}
        rows = [row for name in ("Locals", "Operands") if name in scopes for row in client.request("variables", variablesReference=scopes[name])["variables"]]
        words = {int(row["memoryReference"], 16): row["value"] for row in rows} if moment_is_boundary(where) else {}
        self.moments.append((cycle, registers, words, top and top["instructionPointerReference"], frames))
        return cycle

    def compare(self):
        """All moments with `mic rewind`, in the order of their cycles."""
        rewind, wanted = Rewind(self.check, self.image, *self.options, "--input=" + self.source), []
        for cycle, registers, words, _, _ in sorted(self.moments, key=lambda moment: moment[0]):
            rewind.moment(cycle, words)
            wanted.append(" ".join(f"{name} {value}" for name, value in registers.items()))
            wanted += [f"{address:08x} {int(value.split()[0]) % 2**32:08x}" for address, value in words.items()]
        self.check.agree(self.name, wanted, rewind.answers())


def check_adapter(check):
    environment = {**os.environ, "MIC": check.mic.command}
    chosen = [(path, given) for path, given in programs() if not path.endswith(".tiny")] + [(path, given) for path, given in programs() if path.endswith(".tiny")][:6]
    for number in range(SESSIONS):
        (path, given), machine = check.random.choice(chosen), ("mic1", "mic2")[number % 2]
        with Client(os.path.join("classroom", "debug-adapter"), environment) as client:
            session = Session(check, client, path, given, machine, number)
            session.begin()
            session.stop()
            check_continues(check, session)
            for step in check.random.choices(STEPS, k=6):
                client.request(step, threadId=1)
                if client.take("stopped", "terminated")[0] == "terminated":
                    break
                session.stop()
            session.compare()
            client.request("disconnect")
    check_micro_sessions(check, environment)


def check_continues(check, session):
    """Three times to the next breakpoint: as `mic debug` goes."""
    lines = ["step", *(f"break 0x{address}" for address in session.chosen), "go", "go", "go"]
    said = check.mic.says("debug", session.image, *session.options, "--bound=6000", "--input=" + session.source, given="\n".join([*lines, ""]).encode()).err
    wanted = [int(cycle) for cycle in re.findall(r"^break\ncycle (\d+) at", said, re.M)]
    stops = []
    for _ in wanted:
        session.client.request("continue", threadId=1)
        session.client.take("stopped")
        stops.append(session.stop())
    check.agree(f"{session.name}: stops", stops, wanted)


def check_micro_sessions(check, environment):
    """Sessions over a microprogram: breakpoints in its lines, and steps of a cycle. `mic debug` prints every cycle for comparison."""
    own = check.file("own.mal", check.mic.says("print-micro", "--machine=mic2").out)
    micros = [("mic1", "examples/quick_jumps.mal"), ("mic1", f"{EXERCISES}/11-branches/solution.mal"), ("mic2", own)]
    for number in range(MICRO_SESSIONS):
        machine, micro = micros[number % len(micros)]
        program = check.random.choice(["examples/add.jas", "examples/gcd.jas", "examples/countdown.jas", "examples/factorial.jas"])
        with Client(os.path.join("classroom", "debug-adapter"), environment) as client:
            client.request("initialize", adapterID="mic")
            client.request("launch", program=program, machine=machine, micro=micro, bound=6000, level="microprogram")
            client.take("initialized")
            check_micro_session(check, client, f"session {number} over {micro}", program, machine, micro)
            client.request("disconnect")


def check_micro_session(check, client, name, program, machine, micro):
    with open(micro, encoding="utf-8") as file:
        rows = file.read().split("\n")
    said = check.mic.says("debug", program, "--micro=" + micro, "--machine=" + machine, "--bound=6000", given=b"micro 6000\n").err
    cycles = {int(cycle): (rest, registers) for cycle, rest, registers in re.findall(r"^(\d+) (.*)\n  (MAR .*)$", said, re.M)}
    chosen = [number for number, row in enumerate(rows, 1) if re.match(r"\s*(iload|bipush|goto|iadd|F|T)\d?:?\s", row)]
    lines = sorted(check.random.sample(chosen, min(2, len(chosen))))
    client.request("setBreakpoints", source={"path": os.path.abspath(micro)}, breakpoints=[{"line": line} for line in lines])
    client.request("configurationDone")
    client.take("stopped")
    for step in ["continue", *check.random.choices(["continue", "stepIn", "stepBack", "next", "reverseContinue", "stepOut"], k=8)]:
        client.request(step, threadId=1)
        event, body = client.take("stopped", "terminated")
        if event == "terminated":
            break
        where = client.request("evaluate", expression="where", context="repl")["result"]
        cycle = int(re.search(r"cycle (\d+)$", where, re.M)[1])
        top = client.request("stackTrace", threadId=1)["stackFrames"][0]
        registers = client.request("variables", variablesReference=10 * top["id"] + 3)["variables"]
        given = " ".join(f"{row['name']} {row['value']}" for row in registers)
        if cycle in cycles:
            check.agree(f"{name}: registers after cycle {cycle}", given, cycles[cycle][1])
        if cycle + 1 in cycles:
            statement = cycles[cycle + 1][0]
            check.agree(f"{name}: the statement after cycle {cycle}", top["name"], statement)
            if not statement.endswith(" stall"):
                check.agree(f"{name}: the line after cycle {cycle}", statement.split(" ")[1] in (rows[top["line"] - 1] + " -").replace(":", " ").split(), True)
            if body["reason"] == "breakpoint":
                check.agree(f"{name}: a breakpoint's line", top["line"] in lines, True)
