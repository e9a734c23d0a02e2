"""One run of a submission over a case, and what differs."""
import decimal
import hashlib
import os
import re
import stat
from dataclasses import dataclass

from .exercise import Case
from .proof import MOST, Proof, missing, proof_of
from .texts import first_difference, shown

MIC_READS = 1048576  # bytes of a file; mic refuses a longer one


@dataclass
class Outcome:
    case: Case
    status: int = 0
    cycles: int = 0
    instructions: int = 0
    misses: int = 0  # of the cache, where there is one
    given: bytes = b""  # its first bytes, some more than wanted
    length: int = 0  # of all that was given
    reason: str = ""  # why it failed, or nothing
    report: str = ""  # the first line that mic reported

    @property
    def points(self):
        return self.case.points if not self.reason else decimal.Decimal(0)

    @property
    def is_trouble(self):
        """The run failed by something else than the submission: a file, a stream, memory, or a signal."""
        return self.status < 0 or self.status in (66, 70, 71, 75)


# how files begin that are no text
ARCHIVES = (b"PK\x03\x04", b"PK\x05\x06", b"\x1f\x8b", b"\xfd7zXZ\x00", b"7z\xbc\xaf\x27\x1c", b"Rar!\x1a\x07", b"BZh", b"\x28\xb5\x2f\xfd")
PAGE = re.compile(rb"(\xef\xbb\xbf)?\s*<(!doctype|html|head|body|p|div|span|br|pre|h[1-6]|ul|ol|table)\b", re.IGNORECASE)


def kind_of_data(data):
    """What a submission is that no course takes, or nothing."""
    if data.startswith(ARCHIVES) or data[257:262] == b"ustar":
        return "an archive, and not the file itself"
    return "an HTML page, and not the file itself" if PAGE.match(data) else ""


class Grader:
    """What a worker has: a folder of its own, with the copy of a submission, and the files that take a run's output and report."""

    def __init__(self, exercise, mic, work, check=None):
        self.exercise, self.mic, self.check = exercise, mic, check
        self.copy = os.path.join(work, "submission" + exercise.suffix)
        self.image = os.path.join(work, "image")
        flags = os.O_RDWR | os.O_CREAT | os.O_TRUNC
        self.out = os.open(os.path.join(work, "out"), flags, 0o600)
        self.err = os.open(os.path.join(work, "err"), flags, 0o600)

    def take(self, submission):
        """Copies a submission; returns why it cannot, or nothing. What is longer than mic reads is cut after the first byte too many."""
        try:
            source = os.open(submission.path, os.O_RDONLY | os.O_NOFOLLOW | os.O_NONBLOCK)
        except OSError as error:
            return f"cannot be read: {error.strerror}"
        with open(source, "rb") as file:
            if not stat.S_ISREG(os.fstat(source).st_mode):
                return "not a file"
            try:
                data = file.read(MIC_READS + 1)
            except OSError as error:
                return f"cannot be read: {error.strerror}"
        with open(self.copy, "wb") as target:
            target.write(data)
        return kind_of_data(data)

    def call(self, *words, given=os.devnull, program=None):
        """Calls mic, or another program. Returns the status and the first lines of what it reports; what it writes is in `out`."""
        program = program or self.mic
        for file in (self.out, self.err):
            os.ftruncate(file, 0)
            os.lseek(file, 0, os.SEEK_SET)
        actions = [(os.POSIX_SPAWN_OPEN, 0, given, os.O_RDONLY, 0), (os.POSIX_SPAWN_DUP2, self.out, 1), (os.POSIX_SPAWN_DUP2, self.err, 2)]
        child = os.posix_spawn(program, [program, *words], os.environ, file_actions=actions)
        status = os.waitstatus_to_exitcode(os.waitpid(child, 0)[1])
        return status, os.pread(self.err, 4096, 0).decode("utf-8", "replace").split("\n")

    def run(self, case):
        exercise = self.exercise
        program = self.image if exercise.suffix == ".tiny" else self.copy
        words = ["--micro=" + self.copy, "--", case.program] if case.program else ["--", program]
        if exercise.lines is None:
            status, report = self.call("run", *exercise.options, *words, given=case.input)
        else:
            status, report = self.call("cache", *exercise.options, *words, str(exercise.lines), given=case.input)
        outcome = Outcome(case, status, length=os.fstat(self.out).st_size)
        outcome.given = os.pread(self.out, len(case.wanted) + 1000, 0)
        for line in report:
            counts = line.split(" ")
            if len(counts) == 4 and counts[0] == "cycles" and counts[2] == "instructions":
                outcome.cycles, outcome.instructions = int(counts[1]), int(counts[3])
            if len(counts) == 7 and counts[:2] == ["cache", "lines"] and counts[5] == "misses":
                outcome.misses = int(counts[6])
        outcome.reason = self.what_differs(outcome, report[0])
        return outcome

    def what_differs(self, outcome, report):
        case, outcome.report = outcome.case, report
        if outcome.status < 0:
            return f"mic was ended by signal {-outcome.status}"
        if outcome.status:
            said = report.removeprefix(f"mic: {self.copy}:")
            said = "line " + said if said[:1].isdigit() and said != report else said.strip()
            return f"status {outcome.status}, {shown(said[:200].encode())}"
        if outcome.length != len(case.wanted) or outcome.given != case.wanted:
            return first_difference(case.wanted, outcome.given)
        if case.most is not None and outcome.cycles > case.most:
            return f"{outcome.cycles} cycles, and at most {case.most} are allowed"
        if case.misses is not None and outcome.misses > case.misses:
            return f"{outcome.misses} misses, and at most {case.misses} are allowed"
        return ""

    def proof(self):
        """What mic-check says of the submission that was taken."""
        if self.check is None:
            return missing()
        status, report = self.call("--", self.copy, program=self.check)
        return proof_of(status, os.pread(self.out, MOST, 0), report[0].removeprefix("mic: ").removeprefix(f"{self.copy}: "))

    def grade(self, submission):
        """Returns why there is nothing to grade, or nothing, an outcome for each case, and a proof or None where none is asked for."""
        fault, cases = submission.fault or self.take(submission), self.exercise.cases
        is_asked = self.exercise.proved is not None
        if fault:
            return fault, [Outcome(case, reason=fault) for case in cases], Proof() if is_asked else None
        proof = self.proof() if is_asked else None
        return "", self.outcomes(), proof

    def outcomes(self):
        """An outcome for each case of the submission that was taken."""
        cases = self.exercise.cases
        if self.exercise.suffix == ".tiny":
            status, report = self.call("compile", "--", self.copy, self.image)
            if status:
                refused = [Outcome(case, status) for case in cases]
                for outcome in refused:
                    outcome.reason = self.what_differs(outcome, report[0])
                return refused
        return [self.run(case) for case in cases]

    def digest(self, fault):
        """A sum of what the submission becomes, its image or its control store; nothing where it is refused. Names, comments and spaces are not in it."""
        machine = [word for word in self.exercise.options if word.startswith("--machine=") or word in ("--machine", "mic1", "mic2")]
        command, options = {".jas": ("assemble", []), ".tiny": ("compile", []), ".mal": ("micro", machine)}[self.exercise.suffix]
        if fault or self.call(command, *options, "--", self.copy, self.image)[0]:
            return ""
        with open(self.image, "rb") as file:
            return hashlib.sha256(file.read()).hexdigest()
