"""The text for a student: each case that failed, with its input, both outputs, and the command that repeats it."""
import os

from ..refusal import refusal
from .records import summary_of
from .texts import given_by_printf, lines_of, plain, shell_word, shown

MOST_EXPLAINED = 200_000  # bytes of a source


def command_of(exercise, submission, case):
    """The command that repeats a case, in the exercise's folder with the submission in it."""
    file = shell_word(os.path.basename(submission.path), exercise.suffix)
    words, first = ["mic run" if exercise.lines is None else "mic cache", *exercise.options], ""
    if exercise.suffix == ".tiny" and exercise.lines is None and not any(word.startswith("--map") for word in exercise.options):
        words[0] = "mic tiny"
    elif exercise.suffix == ".tiny":
        first, file = f"mic compile {file} program.ijvm && ", "program.ijvm"
    words += ["--micro", file, os.path.relpath(case.program, exercise.folder)] if case.program else [file]
    if exercise.lines is not None:
        words.append(str(exercise.lines))
    with open(case.input, "rb") as source:
        data = source.read(401)
    if len(data) > 400:
        return first + " ".join(words) + f" <cases/{case.name}.in"
    return first + (given_by_printf(data) if data else "") + " ".join(words) + ("" if data else " </dev/null")


def parts_of(exercise, submission, outcome):
    """The parts of a case that failed: a name, and its lines."""
    case = outcome.case
    with open(case.input, "rb") as source:
        yield "input", lines_of(source.read(4000), os.stat(case.input).st_size)
    yield "wanted", lines_of(case.wanted, len(case.wanted))
    if outcome.status in (0, 1, 2, 3) or outcome.length:
        yield "given", lines_of(outcome.given, outcome.length)
    yield "command", [command_of(exercise, submission, case)]


def refusal_lines(outcome, copy):
    """A refusal with its line and its names: what `where` prints."""
    if outcome.status != 65 or os.path.getsize(copy) > MOST_EXPLAINED:
        return []
    found = refusal(copy, outcome.report)
    found.file = "your file"
    return ["", shown(str(found).encode("utf-8", "replace")), *("  " + line for line in found.rest())]


def proof_lines(exercise, submission, proof):
    """What mic-check says, and the command that asks it."""
    if not proof or not proof.verdict:
        return []
    if proof.verdict == "proved":
        return ["", "mic-check: proved. With this microprogram Mic-1 interprets IJVM, whatever the program and its input."]
    if proof.verdict == "not asked":
        return ["", f"mic-check: {proof}"]
    file = shell_word(os.path.basename(submission.path), exercise.suffix)
    lines = ["", "mic-check: it is not shown that Mic-1 interprets IJVM with this microprogram. It may be right: the cases decide."]
    return [*lines, *(["  " + exercise.proved] if exercise.proved else []), f"  {'first':8} {proof.text}", f"  {'command':8} mic-check {file}"]


def feedback_of(exercise, submission, fault, outcomes, proof, copy):
    """The text; `copy` is the file that was graded."""
    record = summary_of(submission, fault, outcomes, proof)
    lines = [f"{exercise.name}: {record['points']} of {record['of']} points, {record['passed']} of {record['cases']} cases passed"]
    if fault:
        return "\n".join(lines + ["", "There is nothing to grade: " + fault, ""])
    lines += ["Submission: " + shown(os.path.basename(submission.path)),
              "A command repeats its case, in the exercise's folder with your file in it."]
    lines += refusal_lines(outcomes[0], copy)
    lines += proof_lines(exercise, submission, proof)
    for outcome in outcomes:
        case = outcome.case
        result = "passed" if not outcome.reason else "failed: " + outcome.reason
        lines += ["", f"{case.name} ({plain(outcome.points)} of {plain(case.points)} points), {result}"]
        for name, rows in parts_of(exercise, submission, outcome) if outcome.reason else ():
            lines += [f"  {name if not i else '':8} {row}" for i, row in enumerate(rows)]
    return "\n".join(lines) + "\n"
