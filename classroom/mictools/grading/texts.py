"""Bytes, points and differences as texts: on one line, harmless in a spreadsheet, as a shell reads them."""
import re
import shlex


def shown(data, kept=""):
    """Bytes as a printable text on one line: what cannot be printed as \\n, \\t, \\r or \\xNN, and \\ doubled."""
    text = []
    for sign in data.decode("utf-8", "surrogateescape"):
        if sign in kept or (sign.isprintable() and sign != "\\"):
            text.append(sign)
        elif sign in "\n\t\r\\":
            text.append({"\n": "\\n", "\t": "\\t", "\r": "\\r", "\\": "\\\\"}[sign])
        else:
            text += [f"\\x{byte:02x}" for byte in sign.encode("utf-8", "surrogateescape")]
    return "".join(text)


def csv_field(value):
    """A field of CSV: text in quotes, on one line, that no spreadsheet takes for a formula whichever separator it looks for."""
    if not isinstance(value, str):
        return str(value)
    text = value.replace(";", "\\x3b").replace('"', '""')
    return '"\'' + text + '"' if text.startswith(tuple("=+-@＝＋－＠")) else '"' + text + '"'


def csv_row(values):
    return ",".join(map(csv_field, values)) + "\n"


def plain(points):
    """Points without zeros at the end."""
    return points.to_integral_value() if points == points.to_integral_value() else points.normalize()


def json_number(points):
    return int(points) if points == points.to_integral_value() else float(points)


def first_difference(wanted, given):
    """Where two outputs differ, and what stands there in each, in the line from 20 bytes before the difference on."""
    at = next((i for i, (w, g) in enumerate(zip(wanted, given)) if w != g), min(len(wanted), len(given)))
    start = max(wanted.rfind(b"\n", 0, at) + 1, at - 20)

    def piece(output):
        end = output.find(b"\n", start) + 1 or len(output)
        return ("..." if output[start - 1 : start] not in (b"", b"\n") else "") + shown(output[start : min(end, start + 40)]) + (
            "..." if end > start + 40 else "")

    return f"line {wanted.count(10, 0, at) + 1}: wanted '{piece(wanted)}', given '{piece(given)}'"


def lines_of(data, length):
    """An output, line by line, each with its newline to be seen: at most 20 lines of 200 bytes."""
    if not length:
        return ["(nothing)"]
    lines, left = [], length
    for line in re.findall(rb"[^\n]*\n|[^\n]+", data)[:20]:
        lines.append(shown(line[:200]) + ("..." if len(line) > 200 else ""))
        left -= len(line)
    return lines + ([f"(and {left} bytes more)"] if left else [])


def shell_word(word, suffix):
    """A file's name as a shell reads it, on one line: in quotes where it must be, as $'..' where it cannot be printed.
    mic takes no name that is no UTF-8, so such a file needs another."""
    try:
        name = word.decode()
    except UnicodeDecodeError:
        return "submission" + suffix
    if name.startswith("-"):
        name = "./" + name
    if name.isprintable():
        return shlex.quote(name)
    return "$'" + "".join(chr(b) if 32 <= b < 127 and b not in b"\\'" else f"\\{b:03o}" for b in name.encode()) + "'"


def given_by_printf(data):
    text = "".join(
        {10: "\\n", 92: "\\\\", 37: "%%", 39: "'\\''"}.get(b) or (chr(b) if 32 <= b < 127 else f"\\{b:03o}") for b in data)
    return f"printf -- '{text}' | " if text.startswith("-") else f"printf '{text}' | "
