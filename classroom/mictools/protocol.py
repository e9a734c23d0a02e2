"""The base protocol of the Debug Adapter Protocol: messages of JSON, each after a header with its length in bytes."""
import json

from .command_line import Fault


def read_message(stream):
    """Reads the next message, or returns None at the end of the stream."""
    length = None
    while True:
        line = stream.readline()
        if not line:
            return None
        name, _, value = line.decode("ascii", "replace").partition(":")
        if name.strip().lower() == "content-length":
            if not value.strip().isdecimal():
                raise Fault(65, "a message without a length")
            length = int(value)
        if not line.strip() and length is not None:
            data = stream.read(length)
            return message_of(data) if len(data) == length else None


def message_of(data):
    try:
        message = json.loads(data)
    except ValueError as error:
        raise Fault(65, f"a message that is no JSON: {error}") from None
    if not isinstance(message, dict) or message.get("type") == "request" and not {"seq", "command"} <= message.keys():
        raise Fault(65, "a message that is none of the protocol")
    return message


def write_message(stream, message):
    data = json.dumps(message, ensure_ascii=False).encode("utf-8")
    stream.write(b"Content-Length: %d\r\n\r\n" % len(data) + data)
    stream.flush()
