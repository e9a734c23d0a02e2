"""Makes the calls of cases by the WebAssembly module, in node and in browsers.

    with ModuleCalls(module, ["node", "firefox"], seconds=20) as calls:
        for way, answer in calls.answers_of(case):

It is what native_calls.py is for programs: its head says what scripts/run-cases asks for. Every call can be made, since the
module takes the numbers of the calls that fail; those of mic-check by a module that has its function, as all have that were
made since there is mic-check. Each thread has a node of its own; a browser makes one call at a time.
"""
import atexit
import base64
import contextlib
import json
import os
import re
import select
import shutil
import subprocess
import tarfile
import tempfile
import threading
import time
from pathlib import Path

import case_files
from bundle import bundle
from case_files import Answer, NoAnswer
from devtools import Browser as Chromium
from firefox import Firefox

TOP = Path(__file__).resolve().parent.parent
ENGINE = TOP / "workbench/engine"
RELEASED = TOP / "release/mic.html"
PROGRAMS = {"node": ["node", "nodejs"], "chromium": ["chromium", "chromium-browser", "google-chrome"], "firefox": ["firefox", "firefox-esr"]}
ENGINES = list(PROGRAMS)
FUNCTIONS = {"mic": b"mic_web_call", "mic-check": b"mic_check_call"}  # of the module, by what they call
ROOM = 1_200_000  # bytes of each sink, as the gate's cases have it


class NoEngine(Exception):
    """Why no calls can be made."""


def program_of(engine):
    found = [path for name in PROGRAMS[engine] if (path := shutil.which(name))]
    if not found:
        raise NoEngine(f"there is no {engine} on the PATH")
    return found[0]


def take_released_cases():
    """Has the cases read as they were when the released module was made, where git can tell; else as they are."""
    found = re.search(r"^commit ([0-9a-f]{40})", (RELEASED.parent / "VERSION").read_text(encoding="utf-8"), re.M)
    git = ["git", "-C", str(TOP)]
    cases = "crates/cases/data"
    if not found or subprocess.run([*git, "diff", "--quiet", found[1], "--", cases], capture_output=True).returncode != 1:
        return
    room = tempfile.mkdtemp(prefix="released-cases-")
    atexit.register(shutil.rmtree, room, ignore_errors=True)
    with subprocess.Popen([*git, "archive", found[1], cases], stdout=subprocess.PIPE) as archive:
        with tarfile.open(fileobj=archive.stdout, mode="r|") as packed:
            packed.extractall(room)
    case_files.DATA = os.path.join(room, cases)
    print(f"the cases are those of commit {found[1][:8]}, of which the release is")


def request_of(case, seconds):
    """A case as workbench/engine/tests/json.js reads it."""
    return {
        "program": case.program,
        "words": case.words,
        "files": {name: base64_of(contents) for name, contents in case.files.items()},
        "input": base64_of(case.console),
        "limits": {"out": ROOM, "err": ROOM, "time": 1000 * seconds},
        "fails": case.fails,
    }


def base64_of(contents):
    return base64.b64encode(contents).decode()


def answer_of(case, reply):
    if "failure" in reply:
        return NoAnswer(reply["failure"])
    streams = {name: base64.b64decode(reply[name]) for name in ("out", "err")}
    written = {name: base64.b64decode(contents) for name, contents in reply["written"].items()}
    left = case.console[len(case.console) - reply["left"] :]
    return Answer(status=reply["status"], left=left, written=written, **streams)


class Node:
    """A node that makes one call after the other."""

    def __init__(self, program, module, seconds):
        words = [program, ENGINE / "tests/lines.js", module]
        self.process = subprocess.Popen(words, stdin=subprocess.PIPE, stdout=subprocess.PIPE)
        self.seconds = seconds

    def ask(self, request):
        self.process.stdin.write(json.dumps(request).encode() + b"\n")
        self.process.stdin.flush()
        ends, pieces = time.monotonic() + self.seconds, []
        while not pieces or not pieces[-1].endswith(b"\n"):
            ready, _, _ = select.select([self.process.stdout], [], [], max(0, ends - time.monotonic()))
            if not ready:
                self.close()
                return {"failure": f"TimedOut: it had not ended after {self.seconds:g} seconds"}
            pieces.append(os.read(self.process.stdout.fileno(), 1 << 20))
            if not pieces[-1]:
                return {"failure": f"node ended with status {self.process.wait()}"}
        return json.loads(b"".join(pieces))

    @property
    def is_open(self):
        return self.process.poll() is None

    def close(self):
        self.process.kill()
        self.process.wait()
        self.process.stdin.close()
        self.process.stdout.close()


PAGE = """<!DOCTYPE html><meta charset="utf-8"><title>calls</title>
<script type="text/plain" id="module">{module}</script>
<script type="text/plain" id="worker">{worker}</script>
<script>{script}</script>"""


def page_of(module):
    """The page whose `window.ask` makes calls."""
    scripts = {"worker": bundle(ENGINE / "worker.js"), "script": bundle(ENGINE / "tests/calls.js")}
    return PAGE.format(module=base64_of(module), **scripts)


class Page:
    """A page in a browser that makes one call after the other, for all threads."""

    def __init__(self, browser, path):
        self.browser, self.turn = browser, threading.Lock()
        browser.open(path.as_uri())

    def ask(self, request):
        with self.turn:
            return self.browser.value(f"window.ask({json.dumps(request)})")


class ModuleCalls:
    def __init__(self, module, engines, seconds):
        self.seconds, self.engines, self.endless = seconds, engines, 0
        self.name = f"the module in {', '.join(engines)}"
        self.programs = {engine: program_of(engine) for engine in engines}
        self.programs_inside = [name for name, function in FUNCTIONS.items() if function in module]
        self.nodes, self.own = [], threading.local()
        self.pages, self.opened = {}, contextlib.ExitStack()
        self.room = Path(self.opened.enter_context(tempfile.TemporaryDirectory(prefix="module-calls-")))
        (self.room / "mic.wasm").write_bytes(module)
        (self.room / "calls.html").write_text(page_of(module), encoding="utf-8")

    def __enter__(self):
        for engine, make in (("chromium", Chromium), ("firefox", Firefox)):
            if engine in self.programs:
                browser = self.opened.enter_context(make(self.programs[engine], 800, 600))
                self.pages[engine] = Page(browser, self.room / "calls.html")
        return self

    def __exit__(self, *_):
        for node in self.nodes:
            if node.is_open:
                node.close()
        self.opened.close()

    def lacks(self, case):
        return None if case.program in self.programs_inside else f"the module has no {case.program}"

    def node(self):
        """This thread's node."""
        node = getattr(self.own, "node", None)
        if node is None or not node.is_open:
            node = self.own.node = Node(self.programs["node"], self.room / "mic.wasm", self.seconds)
            self.nodes.append(node)
        return node

    def answers_of(self, case):
        request = request_of(case, self.seconds)
        for engine in self.engines:
            reply = (self.node() if engine == "node" else self.pages[engine]).ask(request)
            self.endless += reply.get("failure", "").startswith("TimedOut")
            yield f"in {engine}", answer_of(case, reply)
