"""A new folder in which shell commands are run, none of which can hang the caller.

    with Room({"mic": path}, ["examples", "classroom"]) as room:
        ran = room.run("mic run examples/hello.jas")    # ran.printed, ran.status

A command finds copies of the named folders of the repository, the programs by their names, and a home of its own. It has no
terminal, no display, and no input but what is typed. It is ended after SECONDS, and what it has begun ends with it. A file
that it writes has at most BYTES.
"""
import os
import resource
import shutil
import signal
import subprocess
import tempfile
import threading
from dataclasses import dataclass

TOP = os.path.dirname(os.path.dirname(os.path.abspath(__file__)))
SECONDS = 60
BYTES = 64 * 2**20
LEFT_OUT = {"DISPLAY", "WAYLAND_DISPLAY", "MIC", "MIC_CHECK"}


@dataclass
class Ran:
    """What a command printed, and its status: None if it had not ended after SECONDS."""

    printed: bytes
    status: int


class Room:
    def __init__(self, programs, copied):
        self.place = tempfile.mkdtemp(prefix="command-room-")
        self.folder = os.path.join(self.place, "here")
        for name in ("bin", "home", "here"):
            os.mkdir(os.path.join(self.place, name))
        for name, path in programs.items():
            os.symlink(path, os.path.join(self.place, "bin", name))
        for name in copied:
            shutil.copytree(os.path.join(TOP, name), os.path.join(self.folder, name))
        kept = {name: value for name, value in os.environ.items() if name not in LEFT_OUT}
        path = f"{self.place}/bin:{os.environ['PATH']}"
        self.names = {**kept, "PATH": path, "HOME": os.path.join(self.place, "home"), "LC_ALL": "C"}

    def __enter__(self):
        return self

    def __exit__(self, *_):
        shutil.rmtree(self.place)

    def run(self, command, typed=b"", folder=".", with_errors=True):
        """Runs a command in a folder of the room. Without errors, only its standard output is kept."""
        with tempfile.TemporaryFile() as keyboard, tempfile.TemporaryFile() as screen:
            keyboard.write(typed)
            keyboard.seek(0)
            process = subprocess.Popen(
                ["sh", "-c", command],
                cwd=os.path.join(self.folder, folder),
                env=self.names,
                stdin=keyboard,
                stdout=screen,
                stderr=screen if with_errors else subprocess.DEVNULL,
                start_new_session=True,
                preexec_fn=limit_files,
            )
            status = status_of(process)
            screen.seek(0)
            return Ran(screen.read(), status)

    def has_command(self, word, folder="."):
        return self.run(f"command -v -- '{word}' >/dev/null", folder=folder).status == 0

    def write(self, name, text):
        with open(os.path.join(self.folder, name), "w", encoding="utf-8") as it:
            it.write(text)

    def has_file(self, name, folder="."):
        return os.path.isfile(os.path.join(self.folder, folder, name))


def limit_files():
    resource.setrlimit(resource.RLIMIT_FSIZE, (BYTES, BYTES))


def status_of(process):
    """Waits for a process, and ends what is left of its group."""
    late = threading.Timer(SECONDS, end_group, [process])
    late.start()
    status = process.wait()
    late.cancel()
    end_group(process)
    return None if status == -signal.SIGKILL else status


def end_group(process):
    try:
        os.killpg(process.pid, signal.SIGKILL)
    except ProcessLookupError:
        pass
