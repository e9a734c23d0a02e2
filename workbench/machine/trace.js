// The trace of a run, or of a window of it: what each cycle has, what memory holds in it, and which instruction it belongs to.
// Cycle `first + i` is at place i.
import { CONSOLE } from "./word.js";

// How many entries of a sorted list come from places before `place`
export function countBefore(list, place) {
  let low = 0, high = list.length;
  while (low < high) {
    const middle = (low + high) >> 1;
    if (list[middle].place < place) low = middle + 1;
    else high = middle;
  }
  return low;
}

export class Trace {
  // `read` is what a TraceReader has made; `setup` as the reader had it; `report` the lines of the run's report
  constructor(setup, read, report) {
    Object.assign(this, read);
    this.setup = setup;
    this.machine = setup.machine;
    this.statements = setup.statements;
    this.report = report;
    this.total = Math.max(report.cycles, this.first + this.count - 1);
    this.last = this.first + this.count - 1;
    this.isWhole = !this.cut && this.first === 1;
    this.findAccesses();
    this.findInstructions();
  }

  register(name, i) { return this.columns.registers[name][i]; }
  statementAt(i) { return this.statements[this.columns.word[i]]; }
  // The statement whose accesses are done at the edge of the cycle at place i, or null
  accessAt(i) { return this.isStalled(i) ? null : this.statementAt(i); }
  isWriting(i) {
    const statement = this.accessAt(i);
    return statement !== null && statement.write;
  }
  isStalled(i) { return this.columns.stalled[i] === 1; }

  // The words that are written, the bytes of the console, and which accesses are at memory's ports in each cycle
  findAccesses() {
    const { columns, count, opening } = this, { MAR, MDR } = columns.registers;
    this.written = new Map();
    this.output = [];
    this.input = [];
    this.reads = new Uint8Array(count + 1);
    this.writes = new Uint8Array(count + 1);
    this.fetches = new Uint8Array(count + 1);
    this.reads[0] = opening.reading;
    this.writes[0] = opening.writing;
    this.fetches[0] = opening.fetching;
    for (let i = 0; i < count; i++) {
      const statement = this.accessAt(i);
      if (!statement) { this.reads[i + 1] = this.reads[i]; continue; }
      const { read, write, fetch } = statement, address = MAR[i + 1];
      if (this.reads[i] && MAR[i] === CONSOLE) this.input.push({ place: i, byte: MDR[i + 1] & 255 });
      this.reads[i + 1] = read;
      this.writes[i + 1] = write;
      this.fetches[i + 1] = fetch;
      if (!write) continue;
      if (address === CONSOLE) { this.output.push({ place: i, byte: MDR[i + 1] & 255 }); continue; }
      if (!this.written.has(address)) this.written.set(address, []);
      this.written.get(address).push({ place: i, value: MDR[i + 1] });
    }
  }

  // Of each instruction of the window its first place and its text
  findInstructions() {
    const { columns, count, first, instructions, opening } = this, running = opening.instruction;
    this.begins = [running ? { place: running.cycle - first, text: running.text } : { place: 1 - first, text: "boot" }];
    for (let i = 0; i < count - 1; i++) {
      if (columns.boundary[i] >= 0) this.begins.push({ place: i + 1, text: instructions[columns.boundary[i]] });
    }
    const last = columns.boundary[count - 1];
    this.endsAt = last >= 0 ? instructions[last] : null;  // an instruction that begins after the last cycle
  }

  // A memory word as it is in the cycle at place i
  word(address, i) {
    const list = this.written.get(address), k = list ? countBefore(list, i) : 0;
    return k ? list[k - 1].value : this.opening.memory.get(address) || 0;
  }
  // The place of the last write of a word before place i, or -1
  writer(address, i) {
    const list = this.written.get(address), k = list ? countBefore(list, i) : 0;
    return k ? list[k - 1].place : -1;
  }

  instructionAt(i) { return countBefore(this.begins, i + 1) - 1; }
  beginOf(k) { return Math.max(0, this.begins[k].place); }
  endOf(k) { return k + 1 < this.begins.length ? this.begins[k + 1].place : this.count; }

  // The unit that runs in the cycle at place i, with the depth of its call; {unit: null} where that is not known
  frameAt(i) {
    const lv = this.register("LV", i), frames = this.frames, cycle = this.first + i;
    let low = 0, high = frames.length;
    while (low < high) {
      const middle = (low + high) >> 1;
      if (frames[middle].cycle <= cycle) low = middle + 1;
      else high = middle;
    }
    let number = Math.max(0, low - 1);
    // inside a call or a return LV changes before the boundary does
    if (frames[number].lv !== lv && number + 1 < frames.length && frames[number + 1].lv === lv) number++;
    const { unit, depth, lv: itsLv } = frames[number];
    return unit >= 0 && itsLv === lv ? { unit: this.setup.units[unit], depth, number } : { unit: null, depth: 0, number };
  }
}
