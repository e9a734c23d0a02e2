"""Drives headless Chromium over its devtools pipe, with the standard library alone.

    with Browser(chromium, 1440, 900) as browser:
        browser.open("file:///../page.html")
        browser.value("document.title")
        browser.key("F8")
"""
from __future__ import annotations

import base64
import json
import os
import shutil
import subprocess
import tempfile
import time

KEYS = {"ArrowLeft": 37, "ArrowUp": 38, "ArrowRight": 39, "ArrowDown": 40, "Home": 36, "End": 35, "PageUp": 33, "PageDown": 34, "Enter": 13, "Escape": 27,
        "Tab": 9, " ": 32, "F1": 112, "F8": 119, "F9": 120, "F10": 121, "F11": 122, "Backspace": 8}
ALT, CONTROL, SHIFT = 1, 2, 8
COMMANDS, ANSWERS = 3, 4  # the descriptors of the pipe in the browser


class Fault(Exception):
    """What the browser answered in place of a result"""


class Browser:
    def __init__(self, program, width, height):
        self.folder = tempfile.mkdtemp(prefix="devtools.")
        self.number, self.rest, self.events, self.session = 0, b"", [], None
        commands, self.write_end = os.pipe()
        self.read_end, answers = os.pipe()
        words = ["--headless=new", "--no-sandbox", "--disable-gpu", "--no-first-run", "--remote-debugging-pipe", "--user-data-dir=" + self.folder,
                 "--window-size=%d,%d" % (width, height), "about:blank"]

        def connect():
            kept = os.dup(commands), os.dup(answers)
            os.dup2(kept[0], COMMANDS)
            os.dup2(kept[1], ANSWERS)

        self.process = subprocess.Popen([program, *words], preexec_fn=connect, close_fds=False, stdout=subprocess.DEVNULL, stderr=subprocess.DEVNULL)
        os.close(commands)
        os.close(answers)
        self.attach(next(target for target in self.call("Target.getTargets")["targetInfos"] if target["type"] == "page")["targetId"])
        self.size(width, height)

    def __enter__(self):
        return self

    def __exit__(self, *about):
        self.session = None
        try:
            self.call("Browser.close")
        except (Fault, OSError):
            pass
        self.process.wait(timeout=30)
        for end in (self.read_end, self.write_end):
            os.close(end)
        shutil.rmtree(self.folder, ignore_errors=True)

    def attach(self, target):
        """From here on the calls go to this page"""
        self.session = None
        self.session = self.call("Target.attachToTarget", targetId=target, flatten=True)["sessionId"]
        for domain in ("Page", "Runtime", "Log"):
            self.call(domain + ".enable")

    def new_page(self):
        """A second page; returns what `attach` takes"""
        kept, self.session = self.session, None
        target = self.call("Target.createTarget", url="about:blank")["targetId"]
        self.session = kept
        return target

    def size(self, width, height):
        self.call("Emulation.setDeviceMetricsOverride", width=width, height=height, deviceScaleFactor=1, mobile=False)

    def call(self, method, **given):
        self.number += 1
        message = {"id": self.number, "method": method, "params": given}
        if self.session:
            message["sessionId"] = self.session
        os.write(self.write_end, json.dumps(message).encode() + b"\0")
        while True:
            answer = self.receive()
            if answer.get("id") != self.number:
                self.events.append(answer)
            elif "error" in answer:
                raise Fault(answer["error"])
            else:
                return answer["result"]

    def receive(self):
        while b"\0" not in self.rest:
            piece = os.read(self.read_end, 1 << 20)
            if not piece:
                raise Fault("the browser has ended")
            self.rest += piece
        message, self.rest = self.rest.split(b"\0", 1)
        return json.loads(message)

    def open(self, address):
        self.call("Page.navigate", url=address)
        self.wait("document.readyState === 'complete' && location.href.split('#')[0] === %s" % json.dumps(address.split("#")[0]))

    def value(self, expression):
        """The value of an expression in the page"""
        answer = self.call("Runtime.evaluate", expression=expression, returnByValue=True, awaitPromise=True)
        if "exceptionDetails" in answer:
            raise Fault("%s: %s" % (expression[:200], json.dumps(answer["exceptionDetails"].get("exception", answer["exceptionDetails"]))[:600]))
        return answer["result"].get("value")

    def wait(self, expression, seconds=60):
        """Waits until an expression holds, and returns whether it did"""
        end = time.monotonic() + seconds
        while time.monotonic() < end:
            if self.value("!!(%s)" % expression):
                return True
            time.sleep(0.02)
        return False

    def key(self, key, modifiers=0):
        given = {"key": key, "code": key, "windowsVirtualKeyCode": KEYS.get(key) or ord(key.upper()), "modifiers": modifiers}
        text = {"Enter": "\r", "Tab": "\t"}.get(key) or (key if len(key) == 1 else None)
        kind = {"type": "keyDown", "text": text} if text and not modifiers & (ALT | CONTROL) else {"type": "rawKeyDown"}
        self.call("Input.dispatchKeyEvent", **given, **kind)
        self.call("Input.dispatchKeyEvent", type="keyUp", **given)

    def type(self, text):
        self.call("Input.insertText", text=text)

    def click(self, selector):
        """A click of the mouse in the middle of an element"""
        place = self.value("(() => { const e = document.querySelector(%s); e.scrollIntoView({block: 'nearest', inline: 'nearest'}); "
                           "const r = e.getBoundingClientRect(); return [r.x + r.width / 2, r.y + r.height / 2]; })()" % json.dumps(selector))
        for kind in ("mousePressed", "mouseReleased"):
            self.call("Input.dispatchMouseEvent", type=kind, x=place[0], y=place[1], button="left", clickCount=1)

    def picture(self, path):
        with open(path, "wb") as file:
            file.write(base64.b64decode(self.call("Page.captureScreenshot", format="png")["data"]))

    def print(self, path):
        with open(path, "wb") as file:
            file.write(base64.b64decode(self.call("Page.printToPDF", preferCSSPageSize=True, printBackground=False)["data"]))

    def problems(self):
        """Exceptions and messages that the page has written to the browser's console"""
        kinds = ("Runtime.exceptionThrown", "Log.entryAdded", "Runtime.consoleAPICalled")
        return [json.dumps(event)[:400] for event in self.events if event.get("method") in kinds]
