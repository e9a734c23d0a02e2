"""Which programs the checks try. Of mic it is the one that is named, else that of the environment's MIC, else the released
one; of mic-check the one that is named, else that of the environment's MIC_CHECK, else the one beside that mic, if there is
one."""
import os
import shutil
import subprocess
import sys

RELEASED = os.path.join(os.path.dirname(os.path.abspath(__file__)), "released-program")
HOW = "Name a program by --program MIC, or by the environment's MIC."


class NoProgram(Exception):
    """Why there is no program, and how to name one."""


def add_option(words):
    """Adds --program to the words of a check."""
    words.add_argument("--program", metavar="MIC", help="the program to try; else that of the environment's MIC, else the released one")


def program_path(named=None):
    """Returns the absolute path of the program to try."""
    given = named or os.environ.get("MIC")
    if not given:
        return released_program()
    found = shutil.which(given)
    if found is None:
        raise NoProgram(f"{given} is no program that can be run")
    return os.path.abspath(found)


def released_program():
    try:
        asked = subprocess.run([RELEASED], stdout=subprocess.PIPE, stderr=subprocess.PIPE, text=True)
    except OSError as error:
        raise NoProgram(f"{error}\n{HOW}") from None
    if asked.returncode:
        raise NoProgram(f"{asked.stderr.strip()}\n{HOW}")
    return asked.stdout.strip()


def check_program_path(mic, named=None):
    """Returns the absolute path of mic-check, or None where none is named and none is beside this mic."""
    given = named or os.environ.get("MIC_CHECK")
    if given:
        found = shutil.which(given)
        if found is None:
            raise NoProgram(f"{given} is no program that can be run")
        return os.path.abspath(found)
    folder, name = os.path.split(mic)
    # as installed or released, and as proved
    beside = [f"{folder}/mic-check{name[3:]}"] if name.startswith("mic") else []
    beside.append(f"{folder}/../../mic_check/out/mic_check")
    return next((os.path.abspath(it) for it in beside if os.path.isfile(it) and os.access(it, os.X_OK)), None)


def program_or_leave(named=None):
    """Returns the path of the program to try, or ends the script that asks with status 2 and the reason."""
    try:
        return program_path(named)
    except NoProgram as why:
        print(f"{os.path.basename(sys.argv[0])}: {why}", file=sys.stderr)
        sys.exit(2)
