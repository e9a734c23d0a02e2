// The lines of a source in IJVM's assembly language: the address and the text of each instruction, and the names of each unit.
// The source may be one that is refused; a line that cannot be read has no instruction, and takes no bytes.

const PLAIN = new Set("NOP POP DUP SWAP IADD ISUB IAND IOR IRETURN IN OUT ERR HALT".split(" "));
const JUMPS = new Set("IFEQ IFLT IF_ICMPEQ GOTO".split(" "));
const TOKEN = /[ \t]*(\.[A-Za-z0-9_-]*|'.{0,2}|[-0-9][A-Za-z0-9_]*|[A-Za-z_][A-Za-z0-9_]*|[^ \t])/gs;
export const HEADER_BYTES = 4;  // of a method, before its code

const tokensOf = line => [...line.split("//")[0].replace(/[ \t]+$/, "").matchAll(TOKEN)].map(found => found[1]);

function numberOf(token, least, most) {
  const value = /^'[ -~]'$/.test(token) ? token.charCodeAt(1)
    : /^-?0x[0-9A-Fa-f]+$/.test(token) ? (token[0] === "-" ? -1 : 1) * parseInt(token.replace("-", ""), 16)
      : /^-?[0-9]+$/.test(token) ? Number(token) : null;
  return value !== null && value >= least && value <= most ? value : null;
}

// Reads sections, names and labels. Returns {units, constants, lines}; `units` has main first.
function readSource(text) {
  const reading = { units: [], methods: [], constants: [], unit: null, inside: null, rows: text.split("\n") };
  reading.rows.forEach((row, place) => readLine(reading, tokensOf(row.replace(/\r$/, "")), place + 1));
  const main = reading.units.filter(unit => unit.name === "main" && unit.first === 0);
  const source = { units: [...main, ...reading.methods], methods: reading.methods, constants: reading.constants };
  layOut(source);
  return source;
}

function readLine(reading, tokens, line) {
  if (!tokens.length) return;
  const { unit, inside } = reading, [word] = tokens;
  const begin = made => {
    reading.unit = made;
    reading.inside = "code";
    reading.units.push(made);
  };
  if (word === ".main") {
    begin({ name: "main", first: 0, names: [], parameters: 0, line, labels: new Map(), rows: [] });
  } else if (word === ".method" && tokens.length > 1) {
    const names = tokens.slice(2).filter(token => /^[A-Za-z_][A-Za-z0-9_]*$/.test(token));
    begin({ name: tokens[1], first: 1, names, parameters: names.length, line, labels: new Map(), rows: [] });
    reading.methods.push(reading.unit);
  } else if (word === ".constant") reading.inside = "constants";
  else if (word === ".var") reading.inside = "names";
  else if (word === ".end-var") reading.inside = "code";
  else if (/^\.end-/.test(word)) reading.unit = reading.inside = null;
  else if (inside === "constants" && tokens.length === 2) reading.constants.push(word);
  else if (inside === "names" && unit && tokens.length === 1) unit.names.push(word);
  else if (inside === "code" && unit) unit.rows.push({ line, tokens });
}

// Main comes first, and the methods in their order, each after its header. Each label is known before operands are written.
function layOut(source) {
  let address = 0;
  for (const unit of source.units) {
    unit.address = address;
    if (unit.first === 1) address += HEADER_BYTES;
    for (const row of unit.rows) {
      if (row.tokens[1] === ":") {
        if (!unit.labels.has(row.tokens[0])) unit.labels.set(row.tokens[0], address);
        row.tokens = row.tokens.slice(2);
      }
      row.address = address;
      address += instructionOf(source, unit, row.tokens).size;
    }
  }
  for (const unit of source.units) {
    for (const row of unit.rows) row.text = instructionOf(source, unit, row.tokens).text;
  }
}

function localOf(unit, operand) {
  const k = unit.names.indexOf(operand);
  return k >= 0 ? k + unit.first : numberOf(operand, 0, 65535);
}

const spelled = (name, ...operands) => [name, ...operands.map(operand => (operand === null ? "?" : operand))].join(" ");
const UNREAD = { size: 0, text: "" };

function instructionOf(source, unit, tokens) {
  if (!tokens.length) return UNREAD;
  const wide = tokens[0].toUpperCase() === "WIDE", name = (tokens[wide ? 1 : 0] || "").toUpperCase();
  const operands = tokens.slice(wide ? 2 : 1), [first] = operands;
  if (wide && !["ILOAD", "ISTORE", "IINC"].includes(name)) return UNREAD;
  if (PLAIN.has(name)) return operands.length ? UNREAD : { size: 1, text: name };
  if (name === "IINC") return operands.length === 2 ? increment(unit, wide, operands) : UNREAD;
  if (operands.length !== 1) return UNREAD;
  if (JUMPS.has(name)) {
    const to = unit.labels.get(first);
    return { size: 3, text: spelled(name, to === undefined ? null : to.toString(16).padStart(8, "0")) };
  }
  if (name === "BIPUSH") {
    const value = numberOf(first, -128, 255);
    return { size: 2, text: spelled(name, value !== null && value > 127 ? value - 256 : value) };
  }
  if (name === "LDC_W") {
    const k = source.constants.indexOf(first);
    return { size: 3, text: spelled(name, k >= 0 ? k : numberOf(first, 0, 65535)) };
  }
  if (name === "INVOKEVIRTUAL") {
    const k = source.methods.findIndex(method => method.name === first);
    return { size: 3, text: spelled(name, k >= 0 ? source.constants.length + k : null) };
  }
  if (name !== "ILOAD" && name !== "ISTORE") return UNREAD;
  const local = localOf(unit, first);
  return wide || local > 255 ? { size: 4, text: spelled(`WIDE ${name}`, local) } : { size: 2, text: spelled(name, local) };
}

function increment(unit, wide, [operand, by]) {
  const local = localOf(unit, operand), value = numberOf(by, -32768, 32767);
  if (wide || local > 255 || value < -128 || value > 255) return { size: 6, text: spelled("WIDE IINC", local, value) };
  return { size: 3, text: spelled("IINC", local, value > 127 ? value - 256 : value) };
}

// Of each instruction's address its line and its text, and of each unit's header its name and names; main's header is -1
export function linesOfSource(text) {
  const source = readSource(text), lines = new Map(), texts = new Map(), units = new Map();
  for (const unit of source.units) {
    units.set(unit.first === 0 ? -1 : unit.address, { name: unit.name, names: unit.names, line: unit.line });
    for (const { address, line, text: shown } of unit.rows) {
      if (!shown) continue;
      lines.set(address, line);
      texts.set(address, shown);
    }
  }
  return { lines, texts, units, constants: source.constants, methods: source.methods.map(method => method.name) };
}
