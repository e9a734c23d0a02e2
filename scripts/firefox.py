"""Drives headless Firefox over WebDriver BiDi, with the standard library alone, as devtools.py drives Chromium.

    with Firefox(program, 1440, 900) as browser:
        browser.open("file:///../page.html")
        browser.value("document.title")
        browser.key("Enter")
"""
import base64
import json
import os
import re
import shutil
import socket
import struct
import subprocess
import tempfile
import time

SECONDS_TO_START = 60
PREFERENCES = {
    "app.update.enabled": False,
    "browser.shell.checkDefaultBrowser": False,
    "datareporting.policy.dataSubmissionEnabled": False,
    "dom.max_script_run_time": 0,
    "remote.prefs.recommended": True,
}
# The code points that WebDriver has for keys without a character.
KEYS = {"Enter": "\ue007", "Escape": "\ue00c", "Tab": "\ue004", "Control": "\ue009", "Shift": "\ue008", "ArrowUp": "\ue013",
        "ArrowDown": "\ue015", "Backspace": "\ue003"}
CONTROL, SHIFT = 2, 8
TEXT, CLOSED = 1, 8
LONG, VERY_LONG = 126, 127


class Fault(Exception):
    """What the browser answered in place of a result."""


class WebSocket:
    """A client of one connection: texts, one message at a time."""

    def __init__(self, port, path):
        self.connection = socket.create_connection(("127.0.0.1", port), timeout=300)
        key = base64.b64encode(os.urandom(16)).decode()
        head = f"GET {path} HTTP/1.1\r\nHost: 127.0.0.1:{port}\r\nUpgrade: websocket\r\nConnection: Upgrade\r\n"
        self.connection.sendall(f"{head}Sec-WebSocket-Key: {key}\r\nSec-WebSocket-Version: 13\r\n\r\n".encode())
        self.rest = b""
        while b"\r\n\r\n" not in self.rest:
            self.rest += self.received()
        answer, self.rest = self.rest.split(b"\r\n\r\n", 1)
        if b" 101 " not in answer.split(b"\r\n")[0]:
            raise Fault(answer.decode(errors="replace"))

    def received(self):
        piece = self.connection.recv(1 << 20)
        if not piece:
            raise Fault("the browser has ended")
        return piece

    def take(self, count):
        while len(self.rest) < count:
            self.rest += self.received()
        taken, self.rest = self.rest[:count], self.rest[count:]
        return taken

    def send(self, text):
        bytes_, mask = text.encode(), os.urandom(4)
        if len(bytes_) < LONG:
            size = struct.pack(">B", 0x80 | len(bytes_))
        elif len(bytes_) < 1 << 16:
            size = struct.pack(">BH", 0x80 | LONG, len(bytes_))
        else:
            size = struct.pack(">BQ", 0x80 | VERY_LONG, len(bytes_))
        repeated = (mask * (len(bytes_) // 4 + 1))[: len(bytes_)]
        masked = int.from_bytes(bytes_, "little") ^ int.from_bytes(repeated, "little")
        self.connection.sendall(bytes([0x80 | TEXT]) + size + mask + masked.to_bytes(len(bytes_), "little"))

    def receive(self):
        """The next text, of one frame or several."""
        pieces = []
        while True:
            first, size = self.take(2)
            size &= 0x7F
            if size == LONG:
                (size,) = struct.unpack(">H", self.take(2))
            elif size == VERY_LONG:
                (size,) = struct.unpack(">Q", self.take(8))
            piece = self.take(size)
            if first & 0x0F == CLOSED:
                raise Fault("the browser has closed the connection")
            if first & 0x0F <= TEXT:
                pieces.append(piece)
                if first & 0x80:
                    return b"".join(pieces).decode()

    def close(self):
        self.connection.close()


class Firefox:
    def __init__(self, program, width, height):
        self.folder = tempfile.mkdtemp(prefix="firefox.")
        self.number, self.events = 0, []
        with open(os.path.join(self.folder, "user.js"), "w", encoding="utf-8") as file:
            file.writelines(f"user_pref({json.dumps(name)}, {json.dumps(value)});\n" for name, value in PREFERENCES.items())
        words = ["--headless", "--no-remote", "--remote-debugging-port=0", "--profile", self.folder]
        self.said = open(os.path.join(self.folder, "said"), "wb")
        self.process = subprocess.Popen([program, *words], stdout=self.said, stderr=subprocess.STDOUT)
        self.socket = WebSocket(self.port(), "/session")
        self.call("session.new", capabilities={})
        self.call("session.subscribe", events=["log.entryAdded"])
        self.context = self.call("browsingContext.getTree")["contexts"][0]["context"]
        self.size(width, height)

    def port(self):
        """The port that the browser has chosen and printed."""
        for _ in range(10 * SECONDS_TO_START):
            with open(self.said.name, encoding="utf-8", errors="replace") as said:
                found = re.search(r"ws://127\.0\.0\.1:(\d+)", said.read())
            if found:
                return int(found[1])
            if self.process.poll() is not None:
                break
            time.sleep(0.1)
        raise Fault("Firefox did not start")

    def __enter__(self):
        return self

    def __exit__(self, *about):
        try:
            self.call("browser.close")
        except (Fault, OSError):
            self.process.terminate()
        self.socket.close()
        self.process.wait(timeout=30)
        self.said.close()
        shutil.rmtree(self.folder, ignore_errors=True)

    def size(self, width, height):
        self.call("browsingContext.setViewport", context=self.context, viewport={"width": width, "height": height})

    def call(self, method, **given):
        self.number += 1
        self.socket.send(json.dumps({"id": self.number, "method": method, "params": given}))
        while True:
            answer = json.loads(self.socket.receive())
            if answer.get("id") != self.number:
                self.events.append(answer)
            elif answer.get("type") == "error":
                raise Fault(f"{answer['error']}: {answer['message']}")
            else:
                return answer["result"]

    def open(self, address):
        self.call("browsingContext.navigate", context=self.context, url=address, wait="complete")

    def value(self, expression):
        """The value of an expression in the page."""
        source = f"(async () => JSON.stringify(await ({expression})))()"
        target = {"context": self.context}
        answer = self.call("script.evaluate", expression=source, target=target, awaitPromise=True, userActivation=True)
        if answer["type"] == "exception":
            raise Fault(f"{expression[:200]}: {answer['exceptionDetails']['text'][:600]}")
        text = answer["result"].get("value")
        return None if text is None else json.loads(text)

    def wait(self, expression, seconds=60):
        """Waits until an expression holds, and returns whether it did."""
        end = time.monotonic() + seconds
        while time.monotonic() < end:
            if self.value(f"!!({expression})"):
                return True
            time.sleep(0.02)
        return False

    def act(self, kind, actions):
        source = {"type": kind, "id": kind, "actions": actions}
        self.call("input.performActions", context=self.context, actions=[source])

    def key(self, key, modifiers=0):
        held = [KEYS[name] for name, bit in (("Control", CONTROL), ("Shift", SHIFT)) if modifiers & bit]
        pressed = KEYS.get(key, key)
        downs = [{"type": "keyDown", "value": value} for value in [*held, pressed]]
        ups = [{"type": "keyUp", "value": value} for value in [pressed, *reversed(held)]]
        self.act("key", downs + ups)

    def type(self, text):
        for character in text:
            self.key(character)

    def click(self, selector):
        """A click of the mouse in the middle of an element."""
        element = f"document.querySelector({json.dumps(selector)})"
        self.value(f"{element}.scrollIntoView({{block: 'nearest'}})")
        box = self.value(f"(({{x, y, width, height}}) => [x + width / 2, y + height / 2])({element}.getBoundingClientRect())")
        x, y = (int(place) for place in box)
        buttons = [{"type": "pointerDown", "button": 0}, {"type": "pointerUp", "button": 0}]
        self.act("pointer", [{"type": "pointerMove", "x": x, "y": y}, *buttons])

    def picture(self, path):
        with open(path, "wb") as file:
            file.write(base64.b64decode(self.call("browsingContext.captureScreenshot", context=self.context)["data"]))

    def problems(self):
        """Errors and warnings that the page has written to the browser's console."""
        entries = [event["params"] for event in self.events if event.get("method") == "log.entryAdded"]
        return [str(entry.get("text"))[:400] for entry in entries if entry.get("level") in ("error", "warn")]
