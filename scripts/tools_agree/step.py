"""`step`: moments and stops are those of `mic rewind` and `mic debug`."""
import itertools
import re

from .running import Runs, programs


class Rewind:
    """The registers and words of memory at moments, by `mic rewind`."""

    def __init__(self, check, path, *options):
        self.check, self.words, self.lines, self.wanted = check, [path, *options], [], []
        self.at = 0

    def moment(self, cycle, addresses):
        """Asks for a moment; moments come in their order."""
        if cycle > self.at:
            self.lines.append(f"micro {cycle - self.at}")
        self.at = max(cycle, self.at)
        self.lines += ["regs", *(f"word {address:#x}" for address in addresses)]

    def answers(self):
        said = self.check.mic.says("rewind", *self.words, given="\n".join([*self.lines, ""]).encode()).err
        return [line for line in said.split("\n") if re.match(r"MAR |[0-9a-f]{8} [0-9a-f]{8}$", line)]


def check_step(check):
    runs = Runs(check)
    printed = check.tool("step", "examples/countdown.jas", given="break done\ngo\nprint digit\nregs\n")[0]
    check.agree("a negative local", re.findall(r"^digit = .*$", printed, re.M), ["digit = -1"])
    for (path, given), machine in check.some(itertools.product(programs(), ("mic1", "mic2")), 16):
        source = check.file("input", given)
        image, options = runs.image(path), ["--machine=" + machine]
        cycles = int(re.search(r"^cycles (\d+)", check.mic.says("run", image, *options, "--bound=6000", given=given.encode("latin-1")).err, re.M)[1])
        moments = sorted(check.random.sample(range(cycles + 1), min(8, cycles)))
        typed = [line for moment in moments for line in (f"cycle {moment}", "regs", "stack")]
        printed = check.tool("step", path, *options, "--bound=6000", "--input", source, given="\n".join(typed) + "\n")[0]
        answers = re.split(r"^\(step\) .*\n", printed, flags=re.M)[1:]
        rewind, given_lines = Rewind(check, image, *options, "--input=" + source), []
        for place, moment in enumerate(moments):
            registers, stack = answers[3 * place + 1].strip(), re.findall(r"^([0-9a-f]{8}) ([0-9a-f]{8})", answers[3 * place + 2], re.M)
            if moment_is_boundary(answers[3 * place]):
                lv, sp = (int(re.search(rf"{name} (\w+)", registers)[1], 16) for name in ("LV", "SP"))
                check.agree(f"the frame of {path} on {machine} after {moment}", [int(address, 16) for address, _ in stack], list(range(lv, sp + 1)))
                rewind.moment(moment, [int(address, 16) for address, _ in stack])
                given_lines += [registers, *(" ".join(word) for word in stack)]
            else:
                rewind.moment(moment, [])
                given_lines.append(registers)
        check.agree(f"step {path} on {machine}, {len(moments)} moments", given_lines, rewind.answers())
        check_stops(check, path, image, options, source)


def moment_is_boundary(answer):
    return " next " not in answer and "before the first" not in answer


def check_stops(check, path, image, options, source):
    """Two breakpoints: each stop is where `mic debug` stops, and the same stops come backwards."""
    listing = check.mic.says("list", image).out
    addresses = re.findall(r"^([0-9a-f]{8}) (?!method|byte)", listing, re.M)
    chosen = check.random.sample(addresses, min(2, len(addresses)))
    lines = [f"break 0x{address}" for address in chosen] + ["go"] * 12
    said = check.mic.says("debug", image, *options, "--bound=6000", "--input=" + source, given="\n".join([*lines, ""]).encode()).err
    wanted = re.findall(r"^break\ncycle (\d+) at ([0-9a-f]{8})", said, re.M)
    back = ["back go"] * (len(wanted) + 1)
    typed = "\n".join([*lines[:2], "cycle 0", *lines[2:], *back, ""])
    printed = check.tool("step", path, *options, "--bound=6000", "--input", source, given=typed)[0]
    stops = [int(cycle) for cycle in re.findall(r"^breakpoint\n(?:.*\n)*?.*  cycle (\d+)$", printed, re.M)]
    there = [int(cycle) for cycle, _ in wanted]
    # the last stop comes again on the way back where the run went on to its end
    last = int(re.search(r"^cycles (\d+)", said, re.M)[1])
    backwards = there[::-1] if len(there) < 12 and there[-1:] != [last] else there[-2::-1]
    check.agree(f"stops of step {path} {options[0]} at {chosen}", stops, there + backwards)
