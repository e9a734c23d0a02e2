"""A client of the Debug Adapter Protocol, written from its specification: for the checks of classroom/debug-adapter."""
import json
import subprocess
import sys


class Client:
    """Sends requests one after another. Events are kept in `events` until `take` removes them."""

    def __init__(self, adapter, environment):
        self.process = subprocess.Popen([sys.executable, adapter], stdin=subprocess.PIPE, stdout=subprocess.PIPE, env=environment)
        self.number, self.last, self.events = 0, 0, []

    def __enter__(self):
        return self

    def __exit__(self, *_):
        self.process.stdin.close()
        self.process.stdout.close()
        self.process.wait()

    def request(self, command, **arguments):
        """Returns the body of the response; a refusal is a ValueError."""
        self.number += 1
        data = json.dumps({"seq": self.number, "type": "request", "command": command, "arguments": arguments}).encode()
        self.process.stdin.write(f"Content-Length: {len(data)}\r\n\r\n".encode() + data)
        self.process.stdin.flush()
        while True:
            message = self.message()
            if message["type"] == "event":
                self.events.append(message)
            elif message["request_seq"] != self.number or message["command"] != command:
                raise AssertionError(f"an answer to another request: {message}")
            elif not message["success"]:
                raise ValueError(message["message"])
            else:
                return message.get("body", {})

    def message(self):
        length = None
        while (line := self.process.stdout.readline()) != b"\r\n":
            if not line:
                raise AssertionError("the adapter has ended")
            name, _, value = line.partition(b":")
            if name == b"Content-Length":
                length = int(value)
        message = json.loads(self.process.stdout.read(length))
        if message["seq"] <= self.last:
            raise AssertionError(f"the numbers of messages do not grow: {message}")
        self.last = message["seq"]
        return message

    def take(self, *names):
        """Waits for an event of one of these names, and returns its name and its body."""
        while True:
            for place, event in enumerate(self.events):
                if event["event"] in names:
                    del self.events[place]
                    return event["event"], event["body"]
            message = self.message()
            if message["type"] != "event":
                raise AssertionError(f"no event: {message}")
            self.events.append(message)
