// The word of the control store, field by field, as docs/machines.md draws it.

export const CONSOLE = 0xfffffffd;

const C_BITS = ["H", "OPC", "TOS", "CPP", "LV", "SP", "PC", "MDR", "MAR"];

export const MACHINES = {
  mic1: {
    name: "Mic-1",
    bits: 36,
    fields: [["Addr", 9], ["JAM", 3], ["ALU", 8], ["C", 9], ["Mem", 3], ["B", 4]],
    sources: ["MDR", "PC", "MBR", "MBRU", "SP", "LV", "CPP", "TOS", "OPC"],
    registers: ["MAR", "MDR", "PC", "MBR", "SP", "LV", "CPP", "TOS", "OPC", "H", "MPC"],
  },
  mic2: {
    name: "Mic-2",
    bits: 39,
    fields: [["Addr", 9], ["JAM", 3], ["ALU", 8], ["C", 9], ["Mem", 2], ["A", 4], ["B", 4]],
    sources: ["MDR", "PC", "MBR1", "MBR1U", "SP", "LV", "CPP", "TOS", "OPC", "MBR2", "MBR2U", "H"],
    registers: ["MAR", "MDR", "PC", "BYTES", "IMAR", "SP", "LV", "CPP", "TOS", "OPC", "H", "MPC"],
  },
};

// F0 F1 ENA ENB INVA INC
const OPERATIONS = {
  "011000": "A", "010100": "B", "011010": "NOT A", "101100": "NOT B",
  "111100": "A+B", "111101": "A+B+1", "111001": "A+1", "110101": "B+1",
  "111111": "B-A", "110110": "B-1", "111011": "-A", "001100": "A AND B",
  "011100": "A OR B", "010000": "0", "110001": "1", "110010": "-1",
};

const OPERATION_VALUES = {
  "A": a => a, "B": (a, b) => b, "NOT A": a => ~a, "NOT B": (a, b) => ~b,
  "A+B": (a, b) => a + b, "A+B+1": (a, b) => a + b + 1, "A+1": a => a + 1, "B+1": (a, b) => b + 1,
  "B-A": (a, b) => b - a, "B-1": (a, b) => b - 1, "-A": a => -a, "A AND B": (a, b) => a & b,
  "A OR B": (a, b) => a | b, "0": () => 0, "1": () => 1, "-1": () => -1,
};

export const hex = (value, digits = 8) => (value >>> 0).toString(16).padStart(digits, "0");

const bitsOf = (word, count) =>
  [...word].map(digit => parseInt(digit, 16).toString(2).padStart(4, "0")).join("").slice(-count);

function fieldsOf(machine, word) {
  const bits = bitsOf(word, machine.bits), fields = {};
  let at = 0;
  for (const [name, width] of machine.fields) {
    fields[name] = bits.slice(at, at + width);
    at += width;
  }
  return fields;
}

// How many bytes of Mic-2's queue the operands take
const operandBytes = sources => Math.max(0, ...sources.map(source => +(/^MBR([12])/.exec(source || "") || [0, 0])[1]));

// A statement of the control store: `mpc` and `word` in hexadecimal, `label` or "-", and the canonical text
export function statementOf(version, mpc, label, text, word) {
  const machine = MACHINES[version], fields = fieldsOf(machine, word);
  const operation = OPERATIONS[fields.ALU.slice(2)];
  const uses = side => new RegExp(`\\b${side}\\b`).test(operation);
  const [jmpc, jamn, jamz] = [...fields.JAM].map(bit => bit === "1");
  const [write, read, fetch] = [...fields.Mem].map(bit => bit === "1");
  const b = machine.sources[parseInt(fields.B, 2)] || null;
  const a = version === "mic1" ? (uses("A") ? "H" : null) : machine.sources[parseInt(fields.A, 2)] || null;
  const taken = version === "mic1" ? 0 : operandBytes([a, b]);
  const loads = C_BITS.filter((_, k) => fields.C[k] === "1");
  return {
    mpc: parseInt(mpc, 16), label, text, word, fields, operation, loads, a, b, write, read, jmpc, jamn, jamz,
    fetch: fetch === true,
    address: parseInt(fields.Addr, 2),
    shift: fields.ALU[0] === "1" ? "<<8" : fields.ALU[1] === "1" ? ">>1" : "",
    tests: jamn || jamz,
    computes: loads.length > 0 || jamn || jamz,
    operandBytes: taken,
    demand: version === "mic1" ? 0 : taken + (jmpc ? 1 : 0),
  };
}

function shifted(value, shift) {
  return (shift === "<<8" ? value << 8 : shift === ">>1" ? value >> 1 : value) >>> 0;
}

// The value that a register has on a bus, with MBR and the front of the queue, with or without their sign
export function sourceValue(name, register, [one, two]) {
  const bytes = { MBR1: () => one << 24 >> 24, MBR1U: () => one, MBR2: () => (one << 8 | two) << 16 >> 16, MBR2U: () => one << 8 | two,
    MBR: () => register("MBR") << 24 >> 24, MBRU: () => register("MBR") };
  return (name === null ? 0 : bytes[name] ? bytes[name]() : register(name)) >>> 0;
}

// What ALU and shifter make of two operands: the value, the shifted value, and the flags N (1) and Z (2)
export function computed(statement, a, b) {
  const alu = OPERATION_VALUES[statement.operation](a, b) >>> 0;
  return { alu, c: shifted(alu, statement.shift), flags: alu >>> 31 | (alu === 0 ? 2 : 0) };
}
