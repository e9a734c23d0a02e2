// Reads what `mic trace` prints, piece by piece, into arrays. Beside it the memory is kept, and each word and byte that arrives in MDR or
// MBR must be the one that this memory has. With `--buses` the buses are those that mic prints; without, they are computed.
import { CONSOLE, MACHINES, computed, hex, sourceValue } from "./word.js";
import { Calls } from "./calls.js";

const NEWLINE = 10, SPACE = 32, ZERO = 48, NINE = 57, SMALL_A = 97;
const DIGIT = new Int8Array(256).fill(-1);
for (let k = 0; k < 16; k++) DIGIT["0123456789abcdef".charCodeAt(k)] = k;

class BadTrace extends Error {}

// Columns that grow: register r has at place i its value in cycle i, and at i + 1 the one after its edge.
export class Columns {
  constructor(version, room) {
    this.version = version;
    this.room = room;
    this.word = new Uint16Array(room);
    this.stalled = new Uint8Array(room);
    this.flags = new Uint8Array(room);
    this.boundary = new Int32Array(room);
    this.a = new Uint32Array(room);
    this.b = new Uint32Array(room);
    this.alu = new Uint32Array(room);
    this.c = new Uint32Array(room);
    this.registers = {};
    for (const name of MACHINES[version].registers) {
      if (name !== "BYTES") this.registers[name] = new Uint32Array(room + 1);
    }
    this.queue = version === "mic2" ? [] : null;  // of each cycle the bytes of the queue, as they are printed
  }
  grow() {
    this.room *= 2;
    const larger = (array, more) => {
      const made = new array.constructor(this.room + more);
      made.set(array);
      return made;
    };
    for (const name of ["word", "stalled", "flags", "boundary", "a", "b", "alu", "c"]) this[name] = larger(this[name], 0);
    for (const name in this.registers) this.registers[name] = larger(this.registers[name], 1);
  }
}

export class TraceReader {
  // `setup` has the machine, its statements, the registers at the reset, the memory image, the units and the pool;
  // the window has the cycles from `first` on, at most `most`.
  constructor(setup, first, most, hasBuses = true) {
    this.setup = setup;
    this.hasBuses = hasBuses;
    this.first = first;
    this.most = most;
    this.names = MACHINES[setup.machine].registers;
    this.columns = new Columns(setup.machine, Math.max(64, Math.min(most, (setup.expected || 0) - first + 1) + 64));
    this.into = this.names.map(name => this.columns.registers[name] || null);
    this.now = new Uint32Array(this.names.length);
    this.bytes = setup.reset.BYTES || "";
    this.names.forEach((name, k) => { this.now[k] = name === "BYTES" ? 0 : parseInt(setup.reset[name], 16); });
    this.index = Object.fromEntries(this.names.map((name, k) => [name, k]));
    this.memory = new Map(setup.image);
    this.calls = new Calls(setup.units, setup.pool);
    this.instructions = [];
    this.instructionNumbers = new Map();
    this.queues = new Map();
    this.count = 0;             // cycles read
    this.place = -1;            // of the present cycle in the columns, or -1 before the window
    this.arriving = null;       // the word that a read brings at the next edge; -1 from the console
    this.arrivingByte = null;
    this.writes = false;        // whether the last cycle's edge has written
    this.under = null;          // the instruction that runs, and its first cycle
    this.rest = new Uint8Array(0);
    this.whole = false;
    if (first === 1) this.open();
  }

  // What is known where the window begins
  open() {
    this.into.forEach((column, k) => { if (column) column[0] = this.now[k]; });
    if (this.columns.queue) this.columns.queue[0] = this.bytes;
    this.opening = {
      memory: new Map(this.memory), reading: this.arriving !== null, writing: this.writes, fetching: this.arrivingByte !== null,
      instruction: this.under,
    };
    this.calls.openWindow(this.first);
  }

  feed(piece) {
    if (this.whole) return;
    let data = piece;
    if (this.rest.length) {
      data = new Uint8Array(this.rest.length + piece.length);
      data.set(this.rest);
      data.set(piece, this.rest.length);
    }
    let from = 0, to;
    while (!this.whole && (to = data.indexOf(NEWLINE, from)) >= 0) {
      this.line(data, from, to);
      from = to + 1;
    }
    this.rest = data.slice(from);
  }

  fault(text) { throw new BadTrace(`cycle ${this.count}: ${text}`); }

  line(data, from, to) {
    const sign = data[from];
    if (sign === SPACE && data[from + 2] === SMALL_A) this.buses(data, from);
    else if (sign === SPACE) this.edge(data, from + 2, to);
    else if (sign >= ZERO && sign <= NINE) this.cycle(data, from);
    else if (sign === SMALL_A && data[from + 2] === SPACE) this.boundary(textOf(data, from + 3, to));
    else if (textOf(data, from, Math.min(to, from + 4)) === "end ") this.whole = true;
  }

  cycle(data, from) {
    let at = from, number = 0;
    while (data[at] !== SPACE) number = number * 10 + data[at++] - ZERO;
    if (number !== this.count + 1) this.fault(`cycle ${number} follows`);
    if (number === this.first && number > 1) this.open();
    if (number >= this.first + this.most) { this.whole = true; this.cut = true; return; }
    this.count = number;
    if (number >= this.first) this.place++;
    this.mpc = DIGIT[data[at + 1]] << 8 | DIGIT[data[at + 2]] << 4 | DIGIT[data[at + 3]];
    this.stall = this.hasBuses ? true : isStall(data, at + 5);  // with buses, a cycle that does not stall has a line of them
    if (this.place < 0) return;
    if (this.place >= this.columns.room) {
      this.columns.grow();
      this.into = this.names.map(name => this.columns.registers[name] || null);
    }
    this.columns.word[this.place] = this.mpc;
    this.columns.boundary[this.place] = -1;
    if (!this.hasBuses && !this.stall) this.computeBuses();
  }

  // The buses of a cycle, from the registers as they are in it
  computeBuses() {
    const statement = this.setup.statements[this.mpc], { columns, place: i, now, index } = this, register = name => now[index[name]];
    const queue = this.bytes === "-" ? [] : [this.bytes.slice(0, 2), this.bytes.slice(2, 4)].map(text => parseInt(text, 16));
    columns.a[i] = this.setup.machine === "mic1" ? register("H") : sourceValue(statement.a, register, queue);
    columns.b[i] = sourceValue(statement.b, register, queue);
    const { alu, c, flags } = computed(statement, columns.a[i], columns.b[i]);
    columns.alu[i] = alu;
    columns.c[i] = c;
    columns.flags[i] = flags;
  }

  buses(data, from) {
    this.stall = false;
    if (this.place < 0) return;
    const { a, b, alu, c, flags } = this.columns, i = this.place;
    a[i] = wordAt(data, from + 4);
    b[i] = wordAt(data, from + 15);
    alu[i] = wordAt(data, from + 28);
    c[i] = wordAt(data, from + 39);
    flags[i] = data[from + 50] - ZERO | data[from + 54] - ZERO << 1;
  }

  edge(data, from, to) {
    let at = from;
    for (let k = 0; k < this.into.length; k++) {
      while (data[at++] !== SPACE);
      if (this.names[k] === "BYTES") {
        const end = data.indexOf(SPACE, at);
        this.bytes = textOf(data, at, end);
        at = end + 1;
        continue;
      }
      let value = 0, digit;
      while (at < to && (digit = DIGIT[data[at]]) >= 0) { value = value * 16 + digit; at++; }
      this.now[k] = value;
      if (this.place >= 0) this.into[k][this.place + 1] = value;
      at++;
    }
    if (this.place >= 0) {
      this.columns.stalled[this.place] = this.stall ? 1 : 0;
      if (this.columns.queue) this.columns.queue[this.place + 1] = this.shared(this.bytes);
    }
    this.writes = !this.stall && this.setup.statements[this.mpc].write;
    if (!this.stall) this.access();
  }

  // The one text of equal queues
  shared(bytes) {
    if (!this.queues.has(bytes)) this.queues.set(bytes, bytes);
    return this.queues.get(bytes);
  }

  access() {
    const { now, index, memory } = this, statement = this.setup.statements[this.mpc];
    const address = now[index.MAR], data = now[index.MDR];
    if (this.arriving !== null && this.arriving >= 0 && data !== this.arriving) {
      this.fault(`MDR got ${hex(data)}, and memory has ${hex(this.arriving)}`);
    }
    if (this.arrivingByte !== null && now[index.MBR] !== this.arrivingByte) {
      this.fault(`MBR got ${hex(now[index.MBR], 2)}, and memory has ${hex(this.arrivingByte, 2)}`);
    }
    this.arriving = this.arrivingByte = null;
    if (statement.write && address !== CONSOLE) memory.set(address, data);
    if (statement.read) this.arriving = address === CONSOLE ? -1 : memory.get(address) || 0;
    if (statement.fetch) {
      const pc = now[index.PC];
      this.arrivingByte = (memory.get(pc >>> 2) || 0) >>> (24 - 8 * (pc & 3)) & 255;
    }
  }

  boundary(text) {
    if (this.place >= 0) {
      let number = this.instructionNumbers.get(text);
      if (number === undefined) {
        this.instructionNumbers.set(text, number = this.instructions.length);
        this.instructions.push(text);
      }
      this.columns.boundary[this.place] = number;
    }
    this.calls.boundary(this.under && this.under.text, this.now[this.index.SP], this.now[this.index.LV], this.count + 1);
    this.under = { text, cycle: this.count + 1 };
  }

  finish() {
    const count = this.place + 1;
    if (count < 1) throw new BadTrace(`the trace has no cycle ${this.first}`);
    return { columns: this.columns, count, first: this.first, instructions: this.instructions, frames: this.calls.frames,
      opening: this.opening, cut: this.cut === true, lastMpc: this.now[this.index.MPC] };
  }
}

// Whether the statement's text, after its label, is "stall"
function isStall(data, from) {
  const at = data.indexOf(SPACE, from) + 1;
  return textOf(data, at, at + 6) === "stall\n";
}

function wordAt(data, at) {
  const byte = k => DIGIT[data[at + k]] << 4 | DIGIT[data[at + k + 1]];
  return (byte(0) << 24 | byte(2) << 16 | byte(4) << 8 | byte(6)) >>> 0;
}

function textOf(data, from, to) {
  return String.fromCharCode.apply(null, data.subarray(from, to));
}
