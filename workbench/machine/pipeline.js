// Mic-3: Mic-2's control store as a pipeline, by the rules of docs/machines.md. mic prints no trace of it, so its cycles are computed here,
// and shown only where cycles, instructions, boundary and registers at the end are those that mic reports.
import { Calls } from "./calls.js";
import { Columns } from "./reader.js";
import { Trace } from "./trace.js";
import { CONSOLE, computed, hex, sourceValue } from "./word.js";

const HALT = 0xff, ERROR = 0xfe, QUEUE_ROOM = 2, NONE = 0xffff, STACK_WRITES_BELOW = 0x80000000;

export const WAITS = [
  "", "the next address is not known", "it names a register that is to be loaded", "it names MDR, and a read is to fill it",
  "PC is still to be set", "the queue has too few bytes",
];
const [, ADDRESS, REGISTER, MDR, PC, BYTES] = WAITS.keys();

const takesByte = statement => statement.jmpc;
const isDispatch = statement => statement.jmpc && statement.address === 0;

// The memory of a run: words, and the console at its address
class Memory {
  constructor(image, words, input) {
    Object.assign(this, { map: new Map(image), words, input, taken: 0, output: [] });
  }
  word(address) { return this.map.get(address) || 0; }
  byte(address) { return this.word(address >>> 2) >>> (24 - 8 * (address & 3)) & 255; }
  accepts(address) { return address === CONSOLE || address < this.words; }
  read(address) { return address === CONSOLE ? this.input[this.taken++] || 0 : this.word(address); }
  write(address, value) {
    if (address === CONSOLE) this.output.push(value & 255);
    else this.map.set(address, value);
  }
}

class Pipeline {
  // setup as a TraceReader has it, with Mic-2's statements; input: the bytes of the console
  constructor(setup, { bound, input, asks }) {
    const value = name => parseInt(setup.reset[name], 16);
    this.statements = setup.statements;
    this.memory = new Memory(setup.image, setup.memoryWords, input);
    this.asks = asks;           // whether a read after the input's end waits for more
    this.registers = Object.fromEntries(["MAR", "MDR", "PC", "SP", "LV", "CPP", "TOS", "OPC", "H", "MPC"].map(name => [name, value(name)]));
    this.queue = [];
    this.imar = 0;
    this.pending = this.wordBytes(0);         // the bytes that are under way to the queue, or null
    this.operand = null;        // the slots: {statement, a, b, byte} and {statement, c, byte}
    this.result = null;
    this.arrived = null;        // a word that waits for MDR
    this.bound = bound;
    this.cycles = 0;
    this.end = null;
  }

  // Why the statement at MPC cannot issue, as a number of WAITS
  waits(statement) {
    const { operand, result } = this, slots = [operand, result].filter(Boolean).map(slot => slot.statement), named = [statement.a, statement.b];
    const loads = name => slots.some(other => other.loads.includes(name));
    if (operand && operand.statement.tests || slots.some(isDispatch)) return ADDRESS;
    if (named.some(name => name && loads(name))) return REGISTER;
    const willFill = this.arrived !== null && slots.length > 0 || operand && result && result.statement.read;
    if (named.includes("MDR") && willFill) return MDR;
    if ((statement.demand > 0 || named.includes("PC")) && loads("PC")) return PC;
    return statement.demand > this.queue.length ? BYTES : 0;
  }

  source(name) { return sourceValue(name, register => this.registers[register], this.queue); }

  // One cycle, or null where it is refused or the run has ended; `record(i)` is what happened in it
  cycle() {
    const { registers, operand, result } = this, statement = this.statements[registers.MPC], why = this.waits(statement);
    const refused = result && this.refusal(result.statement, result.c);
    if (refused) { this.end = refused; return null; }
    const issues = why === 0, a = issues ? this.source(statement.a) : 0, b = issues ? this.source(statement.b) : 0;
    const byte = issues && takesByte(statement) ? this.queue[statement.operandBytes] : 0;
    const { alu, c, flags } = operand ? computed(operand.statement, operand.a, operand.b) : { alu: 0, c: 0, flags: 0 };
    if (result) this.retire(result);
    const jumps = result !== null && result.statement.loads.includes("PC");
    this.fetch(jumps, issues ? statement.demand : 0);
    this.nextAddress(issues ? { statement, byte } : null, alu, result);
    this.result = operand ? { statement: operand.statement, c, byte: operand.byte } : null;
    this.operand = issues ? { statement, a, b, byte } : null;
    this.cycles++;
    return { why, issues, statement, operand, result, a, b, alu, c, flags };
  }

  // An access to where there is no memory: that cycle is not clocked
  refusal(statement, value) {
    const address = statement.loads.includes("MAR") ? value : this.registers.MAR;
    if (!statement.write && !statement.read) return null;
    if (statement.read && address === CONSOLE && this.asks && this.memory.taken >= this.memory.input.length) return "read-fault";
    if (this.memory.accepts(address)) return null;
    return statement.write && address < STACK_WRITES_BELOW ? "stack-limit" : `out-of-map at ${hex(address)}`;
  }

  retire({ statement, c }) {
    const { registers, memory } = this;
    for (const name of statement.loads) registers[name] = c;
    if (this.arrived !== null) registers.MDR = this.arrived;
    this.arrived = null;
    if (statement.write) memory.write(registers.MAR, registers.MDR);
    if (statement.read) this.arrived = memory.read(registers.MAR);
  }

  // The edge of the fetch unit
  fetch(jumps, taken) {
    const { registers } = this;
    if (jumps) {
      this.queue = [];
      this.imar = registers.PC >>> 2;
      this.pending = this.wordBytes(registers.PC & 3);
      return;
    }
    this.queue = this.queue.slice(taken);
    registers.PC = registers.PC + taken >>> 0;
    if (this.pending) {
      this.queue.push(...this.pending);
      this.imar++;
      this.pending = null;
    }
    if (this.queue.length <= QUEUE_ROOM) this.pending = this.wordBytes(0);
  }
  // The bytes of the word at IMAR, without the first `skip`
  wordBytes(skip) { return [0, 1, 2, 3].slice(skip).map(k => this.memory.byte(4 * this.imar + k)); }

  nextAddress(issued, alu, result) {
    const { registers, operand } = this;
    if (issued && !issued.statement.tests && !isDispatch(issued.statement)) {
      registers.MPC = issued.statement.address | (issued.statement.jmpc ? issued.byte : 0);
    }
    if (operand && operand.statement.tests) {
      const { jamn, jamz, address } = operand.statement, high = jamn && alu >>> 31 === 1 || jamz && alu === 0;
      registers.MPC = address | (high ? 0x100 : 0);
    }
    if (result && isDispatch(result.statement)) registers.MPC = result.byte;
  }
}

const NO_CYCLES = 1024;

// Keeps the cycles of a run from `first` on, at most `most`. `texts` has of each address the instruction there.
export class PipelineReader {
  constructor(setup, run, first, most, texts) {
    Object.assign(this, { setup, first, most, texts });
    this.machine = new Pipeline(setup, run);
    this.columns = new Columns("mic2", Math.max(64, Math.min(most, setup.expected - first + 1) + 64));
    for (const name of ["issued", "computed", "retired"]) this.columns[name] = new Uint16Array(this.columns.room).fill(NONE);
    this.columns.why = new Uint8Array(this.columns.room);
    this.calls = new Calls(setup.units, setup.pool);
    this.instructions = [];
    this.numbers = new Map();
    this.place = -1;
    this.under = null;
    this.completed = 0;
    this.since = 0;             // the last boundary, in cycles
    this.lastBoundary = null;
  }

  open() {
    const { memory, arrived } = this.machine;
    this.opening = { memory: new Map(memory.map), reading: arrived !== null, writing: false, fetching: false, instruction: this.under };
    this.calls.openWindow(this.first);
    this.keepRegisters(0);
  }
  keepRegisters(i) {
    const { registers, imar, queue } = this.machine, { columns } = this;
    for (const name in columns.registers) columns.registers[name][i] = name === "IMAR" ? imar : registers[name];
    columns.queue[i] = queue.length ? queue.map(byte => hex(byte, 2)).join("") : "-";
  }

  // Some cycles more; true where the run has ended
  advance(count) {
    const { machine } = this;
    for (let k = 0; k < count && !machine.end; k++) {
      if (machine.cycles + 1 === this.first) this.open();
      const cycle = machine.cycle();
      if (!cycle) break;
      if (machine.cycles >= this.first && this.place + 1 < this.most) this.keep(cycle);
      this.since = this.boundary(cycle) ? 0 : this.since + 1;
      if (this.since > NO_CYCLES) machine.end = "adrift";
    }
    return machine.end !== null;
  }

  keep({ why, issues, statement, operand, result, a, b, alu, c, flags }) {
    const i = ++this.place, { columns } = this;
    if (i >= columns.room) throw new RangeError("more cycles than mic reports");
    const mpc = slot => (slot ? slot.statement.mpc : NONE);
    columns.word[i] = statement.mpc;
    columns.stalled[i] = issues ? 0 : 1;
    columns.why[i] = why;
    columns.issued[i] = issues ? statement.mpc : NONE;
    columns.computed[i] = mpc(operand);
    columns.retired[i] = mpc(result);
    [columns.a[i], columns.b[i], columns.alu[i], columns.c[i], columns.flags[i]] = [a, b, alu, c, flags];
    columns.boundary[i] = -1;
    this.keepRegisters(i + 1);
  }

  // A boundary comes when a `goto (MBR1)` has retired; there the run may end
  boundary({ result }) {
    if (!result || !isDispatch(result.statement)) return false;
    const { machine } = this, { registers } = machine, address = registers.PC - 1 >>> 0, text = `${hex(address)} ${this.texts.get(address) || "?"}`;
    if (machine.cycles >= this.first && this.place >= 0 && machine.cycles - this.first === this.place) {
      if (!this.numbers.has(text)) {
        this.numbers.set(text, this.instructions.length);
        this.instructions.push(text);
      }
      this.columns.boundary[this.place] = this.numbers.get(text);
    }
    this.calls.boundary(this.under && this.under.text, registers.SP, registers.LV, machine.cycles + 1);
    if (this.under) this.completed++;
    this.under = { text, cycle: machine.cycles + 1 };
    this.lastBoundary = { cycle: machine.cycles, address, sp: hex(registers.SP), lv: hex(registers.LV) };
    machine.end = registers.MPC === HALT ? "halt" : registers.MPC === ERROR ? "error" : machine.cycles >= machine.bound ? "bound" : null;
    if (registers.MPC === HALT || registers.MPC === ERROR) this.completed++;
    return true;
  }

  // Where what was computed is not what mic reports: the name of the first difference, or ""
  disagreement(report) {
    const { machine } = this, { registers, imar, queue } = machine, { boundary } = report;
    const cutInside = machine.end === "stack-limit";
    const mine = {
      end: machine.end, cycles: cutInside ? this.lastBoundary.cycle : machine.cycles, instructions: this.completed,
      boundary: this.lastBoundary && `${this.lastBoundary.cycle} ${this.lastBoundary.address} ${this.lastBoundary.sp} ${this.lastBoundary.lv}`,
      ...Object.fromEntries(Object.entries(registers).map(([name, value]) => [name, hex(value, name === "MPC" ? 3 : 8)])),
      IMAR: hex(imar), BYTES: queue.map(byte => hex(byte, 2)).join("") || "-",
    };
    const its = { end: report.end, cycles: report.cycles, instructions: report.instructions,
      boundary: boundary && `${boundary.cycle} ${boundary.address} ${boundary.sp} ${boundary.lv}`, ...report.registers };
    return Object.keys(mine).find(name => mine[name] !== its[name]) || "";
  }

  finish() {
    const count = this.place + 1, { machine } = this;
    return { columns: this.columns, count, first: this.first, instructions: this.instructions, frames: this.calls.frames, opening: this.opening,
      cut: machine.cycles > this.first + count - 1, lastMpc: machine.registers.MPC };
  }
}

// A trace of Mic-3: an access is done when its statement retires
export class PipelineTrace extends Trace {
  accessAt(i) {
    const mpc = this.columns.retired[i];
    return mpc === NONE ? null : this.statements[mpc];
  }
  slot(name, i) {
    const mpc = this.columns[name][i];
    return mpc === NONE ? null : this.statements[mpc];
  }
}
