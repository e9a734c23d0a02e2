"""The lines of a program in Tiny: of each instruction the line of its statement, and the names of each function's variables.

mic compiles; its image has no lines. So the code of each form is laid out here once more, by the table of docs/tiny.md, with the line
of its statement. Whoever uses it must compare `text` with that of mic's image, and use no lines where they differ."""
import re

from .source import Unit

TOKEN = re.compile(r"//[^\n]*|0x[0-9A-Fa-f]+|[0-9]+|[A-Za-z_][A-Za-z0-9_]*|'[ -~]'|==|!=|[-+&|<=(){},;]|\n|[ \t\r]+")
BIPUSH, LDC_W, ILOAD, ISTORE, POP, ISUB = 0x10, 0x13, 0x15, 0x36, 0x57, 0x64
IFLT, IF_ICMPEQ, GOTO, IRETURN, INVOKEVIRTUAL, IN, OUT, HALT = 0x9B, 0x9F, 0xA7, 0xAC, 0xB6, 0xFC, 0xFD, 0xFF
OPERATORS = {"+": 0x60, "-": ISUB, "&": 0x7E, "|": 0xB0}
SIZES = {BIPUSH: 2, LDC_W: 3, ILOAD: 2, ISTORE: 2, IFLT: 3, IF_ICMPEQ: 3, GOTO: 3, INVOKEVIRTUAL: 3}
HEADER = None  # in place of an opcode: a method's header; LABEL: a place that jumps lead to
LABEL = "label"


class NotTiny(Exception):
    """The text does not read; mic refuses it, with a line."""


class TinySource:
    def __init__(self, text):
        self.tokens, self.at = tokens_of(text), 0
        self.numbers, self.functions, self.labels = [], [], 0
        while self.next():
            self.function()
        self.functions.sort(key=lambda function: function.unit.name != "main")
        self.lay_out()

    def next(self):
        return self.tokens[self.at][0]

    def take(self, wanted=None):
        token = self.next()
        if not token or wanted not in (None, token):
            raise NotTiny
        self.at += 1
        return token

    # ---- the code of each form

    def put(self, opcode, operand=None):
        self.code.append((self.line, opcode, operand))

    def label(self):
        self.labels += 1
        return self.labels

    def function(self):
        self.take("fn")
        name, start = self.take(), self.tokens[self.at][1]
        self.unit, self.code = Unit(name, self.list_of(self.take), 0 if name == "main" else 1, start - 1), []
        self.block()
        self.line = self.tokens[self.at - 1][1]
        if name == "main":
            self.put(HALT)
        else:
            self.put(BIPUSH, 0)
            self.put(IRETURN)
        self.functions.append(Function(self.unit, self.code))

    def list_of(self, read):
        """Reads `( .. , .. )`."""
        found = []
        self.take("(")
        while self.next() != ")":
            found.append(read())
            if self.next() == ",":
                self.take()
        self.take(")")
        return found

    def block(self):
        self.take("{")
        while self.next() != "}":
            self.statement()
        self.take("}")

    def block_apart(self):
        """Reads a block, and returns its code without putting it."""
        before, self.code = self.code, []
        self.block()
        block, self.code = self.code, before
        return block

    def statement(self):
        self.line = self.tokens[self.at][1]
        word = self.take()
        if word == "if":
            return self.choice(self.line)
        if word == "while":
            return self.loop(self.line)
        if word == "var":
            name = self.take()
            self.assignment()
            self.unit.add(name)
            self.put(ISTORE, self.unit.local(name))
        elif word in ("return", "put"):
            self.value()
            self.put(IRETURN if word == "return" else OUT)
        elif word == "halt":
            self.put(HALT)
        elif self.next() == "(":
            self.call(word)
            self.put(POP)
        else:
            self.assignment()
            self.put(ISTORE, self.unit.local(word))
        return self.take(";")

    def assignment(self):
        self.take("=")
        self.value()

    def choice(self, line):
        to, jumps_in = self.condition()
        done, first, other = self.label(), self.block_apart(), []
        if self.next() == "else":
            self.take()
            other = self.block_apart()
        self.line = line
        near, far = (other, first) if jumps_in else (first, other)
        self.code += near
        self.put(GOTO, done)
        self.put(LABEL, to)
        self.code += far
        self.put(LABEL, done)

    def loop(self, line):
        start, done = self.label(), self.label()
        self.put(LABEL, start)
        to, jumps_in = self.condition()
        if jumps_in:
            self.put(GOTO, done)
            self.put(LABEL, to)
        self.block()
        self.line = line
        self.put(GOTO, start)
        self.put(LABEL, done)
        if not jumps_in:
            self.put(LABEL, to)

    def condition(self):
        """Returns the label that the jump leads to, and whether it is taken where the condition holds."""
        self.value()
        relation = self.take()
        self.value()
        to = self.label()
        if relation == "<":
            self.put(ISUB)
        self.put(IFLT if relation == "<" else IF_ICMPEQ, to)
        return to, relation != "!="

    def value(self):
        self.term()
        while self.next() in OPERATORS:
            operator = self.take()
            self.term()
            self.put(OPERATORS[operator])

    def term(self):
        word = self.take()
        if word == "(":
            self.value()
            self.take(")")
        elif word == "get":
            self.put(IN)
        elif word[0] == "'" or word[0].isdigit():
            self.number(ord(word[1]) if word[0] == "'" else int(word, 16 if word.startswith("0x") else 10))
        elif self.next() == "(":
            self.call(word)
        else:
            self.put(ILOAD, self.unit.local(word))

    def number(self, value):
        if value < 128:
            self.put(BIPUSH, value)
            return
        if value not in self.numbers:
            self.numbers.append(value)
        self.put(LDC_W, value)

    def call(self, name):
        self.put(LDC_W, None)
        self.list_of(self.value)
        self.put(INVOKEVIRTUAL, name)

    # ---- addresses and bytes

    def lay_out(self):
        """Gives each instruction its address, and makes the text."""
        self.line_of, address, places, placed = {}, 0, {}, []
        for function in self.functions:
            function.unit.address = address
            if function.unit.name != "main":
                placed.append((address, HEADER, function.unit))
                address += 4
            for line, opcode, operand in function.code:
                if opcode == LABEL:
                    places[operand] = address
                    continue
                self.line_of[address] = line
                placed.append((address, opcode, operand))
                address += SIZES.get(opcode, 1)
        self.text = b"".join(self.bytes_of(places, *instruction) for instruction in placed)

    def bytes_of(self, places, address, opcode, operand):
        names = [function.unit.name for function in self.functions]
        if opcode is HEADER:
            return bytes([0, operand.parameters + 1, 0, len(operand.names) - operand.parameters])
        if opcode in (IFLT, IF_ICMPEQ, GOTO):
            operand = (places[operand] - address) % 65536
        elif opcode == LDC_W:
            operand = 0 if operand is None else len(names) + self.numbers.index(operand)
        elif opcode == INVOKEVIRTUAL:
            operand = names.index(operand)
        size = SIZES.get(opcode, 1) - 1
        return bytes([opcode]) + (operand.to_bytes(size, "big") if size else b"")


class Function:
    def __init__(self, unit, code):
        self.unit, self.code = unit, code


def tokens_of(text):
    """The tokens with their lines; the last one is empty."""
    tokens, line, at = [], 1, 0
    for found in TOKEN.finditer(text):
        if found.start() != at:
            raise NotTiny
        at = found.end()
        if found[0] == "\n":
            line += 1
        elif not found[0].isspace() and not found[0].startswith("//"):
            tokens.append((found[0], line))
    if at != len(text):
        raise NotTiny
    return tokens + [("", line)]


def read_tiny(text):
    """The program, or None where it does not read."""
    try:
        return TinySource(text)
    except (NotTiny, ValueError, IndexError, KeyError, TypeError, OverflowError, RecursionError):
        return None
