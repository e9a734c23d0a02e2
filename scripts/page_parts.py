"""Parts of a page that is one file: sums for its policy, text that may stand in a script, and the module."""
import base64
import gzip
import hashlib
import os
import re
import subprocess
import sys
import tempfile

TOP = os.path.dirname(os.path.dirname(os.path.realpath(__file__)))


class NoPage(Exception):
    """Why the page cannot be made"""


def sum_of(text):
    """The sum of a script or a style, as a Content-Security-Policy names it"""
    return "'sha256-" + base64.b64encode(hashlib.sha256(text.encode("utf-8")).digest()).decode() + "'"


def in_script(text):
    """A text as it may stand in a script element: nothing in it ends the element or begins a comment"""
    if re.search(r"</script|<!--", text, re.I):
        raise NoPage("a script has the text of an end or of a comment of HTML")
    return text


def packed(module):
    """The module as a page carries it: the same bytes for the same module"""
    return base64.b64encode(gzip.compress(module, 9, mtime=0)).decode()


def module_of(path):
    """The module at this path, which is a module or a page with one inside"""
    try:
        with open(path, "rb") as file:
            contents = file.read()
    except OSError as why:
        raise NoPage(f"{path}: {why.strerror}") from None
    if contents.startswith(b"\0asm"):
        return contents
    found = re.search(rb'<script type="[^"]*" id="module">([^<]*)</script>', contents)
    if not found:
        raise NoPage(f"{path} is no module, and no page with one")
    return gzip.decompress(base64.b64decode(found[1]))


def module_bytes(path):
    """The WebAssembly module at this path, or the one that scripts/make-module makes"""
    if path is not None:
        with open(path, "rb") as file:
            return file.read()
    with tempfile.TemporaryDirectory() as folder:
        made = os.path.join(folder, "mic.wasm")
        if subprocess.run([os.path.join(TOP, "scripts", "make-module"), made], stdout=sys.stderr).returncode:
            raise NoPage("scripts/make-module has made no module; --module names one")
        return module_bytes(made)
