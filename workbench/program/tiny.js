// Which line of a program in Tiny each instruction comes from. Its image has no lines, so the code of each form is laid out here
// once more, by the table of docs/tiny.md, and used only where the bytes are those that mic has compiled.

const TINY_TOKEN = /\/\/[^\n]*|0x[0-9A-Fa-f]+|[0-9]+|[A-Za-z_][A-Za-z0-9_]*|'[ -~]'|==|!=|[-+&|<=(){},;]|\n|[ \t\r]+/gy;
const CODE = {
  BIPUSH: 0x10, LDC_W: 0x13, ILOAD: 0x15, ISTORE: 0x36, POP: 0x57, IADD: 0x60, ISUB: 0x64, IAND: 0x7e, IFLT: 0x9b,
  IF_ICMPEQ: 0x9f, GOTO: 0xa7, IRETURN: 0xac, IOR: 0xb0, INVOKEVIRTUAL: 0xb6, IN: 0xfc, OUT: 0xfd, HALT: 0xff,
};
const SIZE = { BIPUSH: 2, LDC_W: 3, ILOAD: 2, ISTORE: 2, IFLT: 3, IF_ICMPEQ: 3, GOTO: 3, INVOKEVIRTUAL: 3 };
const OPERATORS = { "+": "IADD", "-": "ISUB", "&": "IAND", "|": "IOR" };

class NoTiny extends Error {}

function tinyTokens(text) {
  const tokens = [];
  let line = 1, at = 0;
  for (const [token] of text.matchAll(TINY_TOKEN)) {
    at += token.length;
    if (token === "\n") line++;
    else if (/\S/.test(token) && !token.startsWith("//")) tokens.push({ token, line });
  }
  if (at !== text.length) throw new NoTiny();
  return [...tokens, { token: "", line }];
}

class Compiler {
  constructor(text) {
    this.tokens = tinyTokens(text);
    this.at = 0;
    this.numbers = [];          // above 127, in the order of the source
    this.functions = new Map();
    while (this.peek()) this.functionText();
  }
  peek() { return this.tokens[this.at].token; }
  take(wanted) {
    const { token } = this.tokens[this.at++];
    if (!token || wanted !== undefined && token !== wanted) throw new NoTiny();
    return token;
  }
  put(name, operand) { this.code.push({ line: this.line, name, operand }); }
  place(label) { this.code.push({ label }); }
  list(each) {
    this.take("(");
    while (this.peek() !== ")") {
      each();
      if (this.peek() === ",") this.take();
    }
    this.take(")");
  }

  functionText() {
    this.take("fn");
    this.name = this.take();
    this.names = [];
    this.code = [];
    this.list(() => this.names.push(this.take()));
    const made = { name: this.name, parameters: this.names.length, names: this.names, code: this.code };
    this.block();
    this.line = this.tokens[this.at - 1].line;
    if (this.name === "main") this.put("HALT");
    else { this.put("BIPUSH", 0); this.put("IRETURN"); }
    made.code = this.code;
    this.functions.set(made.name, made);
  }
  block() {
    this.take("{");
    while (this.peek() !== "}") this.statement();
    this.take("}");
  }
  local(name) {
    const k = this.names.indexOf(name);
    if (k < 0) throw new NoTiny();
    return k + (this.name === "main" ? 0 : 1);
  }

  statement() {
    this.line = this.tokens[this.at].line;
    const word = this.take();
    if (word === "if") return this.choice();
    if (word === "while") return this.loop();
    if (word === "var") {
      const name = this.take();
      this.take("=");
      this.expression();
      this.names.push(name);
      this.put("ISTORE", this.local(name));
    } else if (word === "return" || word === "put") {
      this.expression();
      this.put(word === "return" ? "IRETURN" : "OUT");
    } else if (word === "halt") {
      this.put("HALT");
    } else if (this.peek() === "(") {
      this.call(word);
      this.put("POP");
    } else {
      this.take("=");
      this.expression();
      this.put("ISTORE", this.local(word));
    }
    return this.take(";");
  }

  // The code that `each` makes, apart
  apart(each) {
    const kept = this.code;
    this.code = [];
    each();
    const made = this.code;
    this.code = kept;
    return made;
  }
  choice() {
    const { line } = this, { target, ifTrue } = this.condition(), end = {};
    const first = this.apart(() => this.block());
    const other = this.apart(() => {
      if (this.peek() !== "else") return;
      this.take();
      this.block();
    });
    this.line = line;
    this.code.push(...(ifTrue ? other : first));
    this.put("GOTO", end);
    this.place(target);
    this.code.push(...(ifTrue ? first : other));
    this.place(end);
  }
  loop() {
    const { line } = this, start = {}, end = {};
    this.place(start);
    const { target, ifTrue } = this.condition();
    if (ifTrue) {
      this.put("GOTO", end);
      this.place(target);
    }
    this.block();
    this.line = line;
    this.put("GOTO", start);
    this.place(ifTrue ? end : target);
  }
  // Where it jumps, and whether it jumps if the condition holds
  condition() {
    this.expression();
    const relation = this.take(), target = {};
    this.expression();
    if (relation === "<") this.put("ISUB");
    this.put(relation === "<" ? "IFLT" : "IF_ICMPEQ", target);
    return { target, ifTrue: relation !== "!=" };
  }

  expression() {
    this.term();
    while (OPERATORS[this.peek()]) {
      const operator = this.take();
      this.term();
      this.put(OPERATORS[operator]);
    }
  }
  term() {
    const word = this.take();
    if (word === "(") {
      this.expression();
      this.take(")");
    } else if (word === "get") {
      this.put("IN");
    } else if (/^['0-9]/.test(word)) {
      this.number(word[0] === "'" ? word.charCodeAt(1) : Number(word));
    } else if (this.peek() === "(") {
      this.call(word);
    } else {
      this.put("ILOAD", this.local(word));
    }
  }
  number(value) {
    if (value < 128) return this.put("BIPUSH", value);
    if (!this.numbers.includes(value)) this.numbers.push(value);
    return this.put("LDC_W", value);
  }
  call(name) {
    this.put("LDC_W", null);
    this.list(() => this.expression());
    this.put("INVOKEVIRTUAL", name);
  }
}

// The bytes of the text, the line of each instruction's address, and the units by their headers
function layOutTiny({ functions, numbers }) {
  const order = ["main", ...[...functions.keys()].filter(name => name !== "main")], placed = [];
  const lines = new Map(), units = new Map(), labels = new Map();
  let address = 0;
  for (const name of order) {
    const { parameters, names, code } = functions.get(name);
    units.set(name === "main" ? -1 : address, { name, names });
    if (name !== "main") {
      placed.push({ bytes: [0, parameters + 1, 0, names.length - parameters] });
      address += 4;
    }
    for (const part of code) {
      if (part.label) { labels.set(part.label, address); continue; }
      lines.set(address, part.line);
      placed.push({ ...part, address });
      address += SIZE[part.name] || 1;
    }
  }
  const number = ({ name, operand, address: at }) => ({
    LDC_W: () => (operand === null ? 0 : order.length + numbers.indexOf(operand)),
    INVOKEVIRTUAL: () => order.indexOf(operand),
  }[name] || (() => labels.get(operand) - at))();
  const bytes = placed.flatMap(part => {
    if (part.bytes) return part.bytes;
    const size = SIZE[part.name] || 1, value = size === 3 ? number(part) : part.operand;
    return [CODE[part.name], ...(size === 3 ? [value >> 8 & 255, value & 255] : size === 2 ? [value] : [])];
  });
  return { bytes, lines, units };
}

const NO_LINES = { lines: new Map(), texts: new Map(), units: new Map(), constants: [], methods: [] };

// `compiled` is the text that mic has compiled; without it, or where the bytes differ, there are no lines
export function linesOfTiny(text, compiled) {
  try {
    const { bytes, lines, units } = layOutTiny(new Compiler(text));
    const isSame = compiled && bytes.length === compiled.length && bytes.every((byte, k) => byte === compiled[k]);
    return isSame ? { ...NO_LINES, lines, units } : NO_LINES;
  } catch (error) {
    if (error instanceof NoTiny || error instanceof TypeError || error instanceof RangeError) return NO_LINES;
    throw error;
  }
}
