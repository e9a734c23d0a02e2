"""An exercise: its cases, and what a submission to it is."""
import decimal
import os
from dataclasses import dataclass

from ..command_line import Fault


@dataclass
class Case:
    name: str
    input: str
    wanted: bytes
    program: str  # what a microprogram runs, or None
    most: int  # cycles, or None
    misses: int  # the most of a cache, or None
    points: decimal.Decimal


@dataclass
class Exercise:
    folder: str
    name: str
    cases: list
    options: list
    suffix: str  # of a submission: .jas, .tiny or .mal
    lines: int  # of a cache, or None
    proved: str = None  # what is said to a student whose microprogram is not shown; None where mic-check is not asked


def number_in(path, kind, otherwise):
    """The number that a file of the exercise holds, or `otherwise` where there is no such file."""
    try:
        with open(path, encoding="ascii") as file:
            number = kind(file.read().strip())
    except FileNotFoundError:
        return otherwise
    except (ValueError, decimal.InvalidOperation):
        raise Fault(65, f"{path}: no number") from None
    if not 0 <= number < 10**12:
        raise Fault(65, f"{path}: no number from 0 to 999999999999")
    return number


def words_in(path):
    """The words that a file of the exercise holds; none where there is no such file."""
    try:
        with open(path, encoding="ascii") as file:
            return file.read().split()
    except FileNotFoundError:
        return []
    except UnicodeDecodeError:
        raise Fault(65, f"{path}: not ASCII") from None


def sentence_in(path):
    """The text that a file of the exercise holds, on one line, or None where there is no such file."""
    try:
        with open(path, encoding="utf-8") as file:
            return " ".join(file.read().split())
    except FileNotFoundError:
        return None
    except UnicodeDecodeError:
        raise Fault(65, f"{path}: not UTF-8") from None


def read_case(path, shared):
    """Reads the case whose files begin with `path`."""
    try:
        with open(path + ".out", "rb") as file:
            wanted = file.read()
    except OSError as error:
        raise Fault(65, f"{path}.out: {error.strerror}") from None
    program = next((p for p in (path + ".jas", shared) if os.path.isfile(p)), None)
    most, misses = (number_in(path + end, int, None) for end in (".cycles", ".misses"))
    points = number_in(path + ".points", decimal.Decimal, decimal.Decimal(1))
    return Case(os.path.basename(path), path + ".in", wanted, program, most, misses, points)


def read_cases(folder):
    cases_folder, shared = os.path.join(folder, "cases"), os.path.join(folder, "program.jas")
    if not os.path.isdir(cases_folder):
        raise Fault(64, f"{folder} has no folder cases")
    names = sorted((name for name in os.listdir(cases_folder) if name.endswith(".in") and not name.startswith(".")), key=os.fsencode)
    if not names:
        raise Fault(65, f"{cases_folder} has no case")
    return [read_case(os.path.join(cases_folder, name[:-3]), shared) for name in names]


def read_exercise(folder):
    cases = read_cases(folder)
    language = words_in(os.path.join(folder, "language"))
    if language not in ([], ["tiny"]):
        raise Fault(65, f"{folder}/language: not `tiny`")
    suffix = ".mal" if any(case.program for case in cases) else ".tiny" if language else ".jas"
    lines = number_in(os.path.join(folder, "lines"), int, None)
    if language and suffix == ".mal":
        raise Fault(65, f"{folder}/language: a microprogram is not in Tiny")
    if lines is not None and not 1 <= lines <= 4096:
        raise Fault(65, f"{folder}/lines: no number from 1 to 4096")
    if lines is not None and suffix == ".mal":
        raise Fault(65, f"{folder}/lines: a microprogram does not run with a cache")
    if lines is None and any(case.misses is not None for case in cases):
        raise Fault(65, f"{folder} has misses and no file lines")
    proved, options = sentence_in(os.path.join(folder, "proved")), words_in(os.path.join(folder, "options"))
    if proved is not None and (suffix != ".mal" or {"mic2", "--machine=mic2"} & {*options}):
        raise Fault(65, f"{folder}/proved: mic-check judges microprograms of Mic-1 alone")
    return Exercise(folder, os.path.basename(os.path.abspath(folder)), cases, options, suffix, lines, proved)
