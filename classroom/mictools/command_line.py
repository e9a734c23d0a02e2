"""Command lines, faults and statuses, as all scripts here have them."""
import argparse
import os
import sys


class Fault(Exception):
    """Why a script cannot do its work: the status it ends with, and the text that it prints."""

    def __init__(self, status, text):
        super().__init__(text)
        self.status, self.text = status, text


class Words(argparse.ArgumentParser):
    """A command line without short cuts, whose faults have status 64."""

    def __init__(self, name, **more):
        more.setdefault("formatter_class", argparse.RawDescriptionHelpFormatter)
        super().__init__(prog=name, allow_abbrev=False, **more)

    def error(self, message):
        raise Fault(64, f"{message}\n{self.format_usage()}".rstrip())


def number(least, most):
    """Returns a reader of a number in this range, for an argument's type."""

    def read(text):
        try:
            value = int(text, 0) if text.startswith("0x") else int(text)
        except ValueError:
            value = least - 1
        if not least <= value <= most or not text.isascii():
            raise argparse.ArgumentTypeError(f"{text!r} is no number from {least} to {most}")
        return value

    return read


def add_run_options(words, *names, machines=("mic1", "mic2")):
    """Adds options that `mic` has too, with mic's names and values."""
    rows = {
        "machine": {"choices": machines, "default": "mic1", "help": "the machine (mic1)"},
        "bound": {"type": number(0, 1_000_000_000), "metavar": "N", "default": 10_000_000, "help": "the most cycles (10000000)"},
        "micro": {"metavar": "MAL", "help": "a microprogram instead of the one that ships"},
        "map": {"choices": ["standard", "large"], "default": "standard", "help": "the memory map (standard)"},
        "input": {"metavar": "INPUT", "help": "the file that the program reads (without it, the input is at its end)"},
    }
    for name in names:
        words.add_argument("--" + name, **rows[name])


def run(name, main):
    """Runs main over the words of the command line, and leaves with its status. A fault is one message on standard error."""
    if sys.version_info < (3, 9):
        sys.exit(f"{name}: needs Python 3.9")
    for stream in (sys.stdout, sys.stderr):
        stream.reconfigure(errors="backslashreplace")  # names of files may be any bytes
    try:
        status = main(sys.argv[1:])
        if not sys.stdout.closed:
            sys.stdout.flush()
    except Fault as fault:
        print(f"{name}: {fault.text}", file=sys.stderr)
        status = fault.status
    except KeyboardInterrupt:
        status = 130
    except BrokenPipeError:
        os.dup2(os.open(os.devnull, os.O_WRONLY), 1)
        status = 141
    except OSError as error:
        print(f"{name}: {error.filename or ''}: {error.strerror}".replace(": : ", ": "), file=sys.stderr)
        status = 66 if isinstance(error, (FileNotFoundError, PermissionError, IsADirectoryError)) else 74
    sys.exit(status)
