"""Makes the calls of cases by programs of this machine: real files in a temporary folder, real standard streams.

    with NativeCalls("/usr/bin/mic", "/usr/bin/mic-check", seconds=20) as calls:
        for way, answer in calls.answers_of(case):

This is what scripts/run-cases asks of whatever makes calls:

  name               of what is called, for the first line
  lacks(case)        why the call of a case cannot be made, in the words after "because", or None
  endless            how many calls have not ended so far
  answers_of(case)   gives pairs: how the call was made, a text for messages that may be empty, and its Answer or NoAnswer.
                     Several threads may call it at once

A case with input is called twice, with a pipe and then with a file as standard input; the others with an empty pipe. What
is left is what is really left: the bytes in the pipe after the call, or the file from its offset on. Standard output and
standard error are a pipe each. Files are dated back before the call, so that a file which is written with the bytes that
it had counts as written too.

A stream can fail from its first call on: standard output and standard error as /dev/full, which takes no byte, and standard
input as a folder, which gives none. What is left of such an input cannot be seen.
"""
import fcntl
import os
import selectors
import shutil
import signal
import subprocess
import tempfile
import time

from case_files import Answer, NoAnswer

MOST_PRINTED = 64 << 20  # bytes on both streams together
SURE_IN_PIPE = 4096  # bytes that each pipe holds; without more rights one can be made to hold 1 MiB
SET_PIPE_SIZE = 1031  # F_SETPIPE_SZ, which the module fcntl has from Python 3.10 on
LONG_AGO = 0  # seconds since 1970


class Unanswered(Exception):
    """Why a call has no answer."""


class NativeCalls:
    def __init__(self, program, check_program, seconds):
        self.name, self.seconds, self.endless = program, seconds, 0
        self.programs = {"mic": program, "mic-check": check_program}
        self.room = tempfile.mkdtemp(prefix="run-cases-")
        self.full = os.open("/dev/full", os.O_WRONLY)

    def __enter__(self):
        return self

    def __exit__(self, *_):
        os.close(self.full)
        shutil.rmtree(self.room, ignore_errors=True)

    def lacks(self, case):
        if self.programs[case.program] is None:
            return f"there is no {case.program}"
        if "files" in case.fails or any(calls != [1] for calls in case.fails.values()):
            return "their calls cannot be made to fail so from outside"
        return None

    def answers_of(self, case):
        if "console" in case.fails:
            yield "", self.answer_of(case, os.open(self.room, os.O_RDONLY))
            return
        yield "", self.answer_of(case, piped_input(case.console))
        if case.console:
            yield "with a file as standard input", self.answer_of(case, self.input_file(case.console))

    def answer_of(self, case, given):
        """Makes the call in a new folder, with this descriptor as standard input, and closes it."""
        folder = tempfile.mkdtemp(dir=self.room)
        try:
            for name, contents in case.files.items():
                write_file(os.path.join(folder, name), contents)
            answer = self.call(case, folder, given)
            answer.left = None if "console" in case.fails else bytes_left(given)
            answer.written = files_written(folder, case.files)
            return answer
        except Unanswered as why:
            return NoAnswer(str(why))
        finally:
            os.close(given)
            shutil.rmtree(folder)

    def input_file(self, contents):
        with tempfile.TemporaryFile(dir=self.room) as file:
            file.write(contents)
            file.seek(0)
            return os.dup(file.fileno())

    def call(self, case, folder, given):
        stdout, stderr = (self.full if it in case.fails else subprocess.PIPE for it in ("out", "err"))
        how = {"stdin": given, "stdout": stdout, "stderr": stderr, "cwd": folder, "start_new_session": True}
        with subprocess.Popen([self.programs[case.program], *case.words], **how) as process:
            try:
                ends = time.monotonic() + self.seconds
                out, err = printed_by(process, ends)
                process.wait(timeout=max(0, ends - time.monotonic()))
            except subprocess.TimeoutExpired:
                self.endless += 1
                raise Unanswered(f"it had not ended after {self.seconds:g} seconds") from None
            finally:
                if process.returncode is None:
                    os.killpg(process.pid, signal.SIGKILL)
        if process.returncode < 0:
            raise Unanswered(f"it was ended by signal {-process.returncode}: {signal.strsignal(-process.returncode)}")
        return Answer(status=process.returncode, out=out, err=err)


def piped_input(contents):
    """Returns the end of a pipe that holds these bytes and then its end."""
    reading, writing = os.pipe()
    with open(writing, "wb", buffering=0) as pipe:
        if len(contents) > SURE_IN_PIPE:
            fcntl.fcntl(writing, SET_PIPE_SIZE, len(contents))
        pipe.write(contents)
    return reading


def printed_by(process, ends):
    """Returns what a process prints on standard output and on standard error, up to the end of both pipes."""
    streams, total = (process.stdout, process.stderr), 0
    pieces = {stream: [] for stream in streams}
    with selectors.PollSelector() as selector:
        for stream in streams:
            if stream is not None:
                selector.register(stream, selectors.EVENT_READ)
        while selector.get_map():
            ready = selector.select(max(0, ends - time.monotonic()))
            if not ready:
                raise subprocess.TimeoutExpired(process.args, 0)
            for key, _ in ready:
                piece = os.read(key.fd, 1 << 20)
                pieces[key.fileobj].append(piece)
                total += len(piece)
                if not piece:
                    selector.unregister(key.fileobj)
            if total > MOST_PRINTED:
                raise Unanswered(f"it printed more than {MOST_PRINTED >> 20} MiB")
    return [b"".join(pieces[stream]) for stream in streams]


def bytes_left(given):
    """Returns the rest of standard input after a call."""
    pieces = []
    while piece := os.read(given, 1 << 20):
        pieces.append(piece)
    return b"".join(pieces)


def write_file(path, contents):
    with open(path, "wb") as file:
        file.write(contents)
    os.utime(path, (LONG_AGO, LONG_AGO))


def files_written(folder, before):
    """Returns the files of a folder that are new, have another date, or other contents."""
    written = {}
    with os.scandir(folder) as entries:
        found = {it.name: it for it in entries}
    for name, entry in found.items():
        if not entry.is_file(follow_symlinks=False):
            raise Unanswered(f"it leaves {name}, which is no file")
        with open(entry.path, "rb") as file:
            contents = file.read()
        if name not in before or entry.stat().st_mtime != LONG_AGO or contents != before[name]:
            written[name] = contents
    gone = [name for name in before if name not in found]
    if gone:
        raise Unanswered(f"the file {gone[0]} is gone")
    return written
