"""The submissions that lie at some paths."""
import itertools
import os
import stat
from dataclasses import dataclass

from ..command_line import Fault
from .texts import shown


@dataclass
class Submission:
    label: bytes  # what its row says
    path: bytes  # its file
    fault: str = ""  # why there is no file to grade
    folder: bool = False  # it lies in a student's folder
    feedback: bytes = b""  # where its text goes


def kind_of(path):
    try:
        mode = os.lstat(path).st_mode
    except OSError:
        return "not there"
    return next((name for name, test in (("", stat.S_ISREG), ("a link", stat.S_ISLNK), ("a folder", stat.S_ISDIR)) if test(mode)), "not a file")


def in_folder_of_student(folder, label, suffix, name):
    """The one file in a student's folder that is the submission."""
    files, links = [], 0
    for place, folders, names in os.walk(folder):
        folders[:] = sorted(f for f in folders if not f.startswith(b".") and f != b"__MACOSX")
        for file in sorted(names):
            kind = kind_of(os.path.join(place, file))
            links += kind == "a link"
            if not file.startswith(b".") and kind == "":
                files.append(os.path.join(place, file))
    if name is not None:
        wanted, what = [f for f in files if os.path.basename(f) == name], "is called " + shown(name)
    else:
        wanted, what = [f for f in files if f.lower().endswith(suffix)], "ends in " + suffix.decode()
        if not wanted and len(files) == 1:
            wanted = files
    if len(wanted) == 1:
        return Submission(label, wanted[0], folder=True)
    if wanted:
        few = ", ".join(shown(os.path.relpath(f, folder)) for f in wanted[:3]) + (", .." if len(wanted) > 3 else "")
        fault = f"{len(wanted)} files, and each {what}: {few}"
    else:
        fault = f"no file {what}" + (" (a link is not read)" if links else "")
    return Submission(label, folder, fault, folder=True)


def find_submissions(paths, suffix, name):
    """The submissions that lie at these paths, in order, and how many hidden names were passed over."""
    found, hidden = [], 0
    for path in paths:
        if not os.path.isdir(path):
            if not os.path.lexists(path):
                raise Fault(66, f"{shown(path)} is not there")
            found.append(Submission(path, path, kind_of(path)))
            continue
        for entry in sorted(os.listdir(path)):
            if entry.startswith(b"."):
                hidden += 1
                continue
            label = entry if len(paths) == 1 else os.path.join(path, entry)
            inner = os.path.join(path, entry)
            kind = kind_of(inner)
            if kind == "a folder":
                found.append(in_folder_of_student(inner, label, suffix, name))
            else:
                found.append(Submission(label, inner, kind))
    return found, hidden


def name_feedback(submissions):
    """Gives each submission a file for its text: LABEL.txt, or LABEL/feedback.txt where it has a folder. No two have the same."""
    taken = {b".", b".."}
    for submission in submissions:
        base = submission.label.strip(b"/").replace(b"/", b"_")
        for number in itertools.count(len(base) > 240):
            name = (base[:230] + b".%d" % number if number else base) + (b"" if submission.folder else b".txt")
            if name not in taken:
                break
        taken.add(name)
        submission.feedback = os.path.join(name, b"feedback.txt") if submission.folder else name
