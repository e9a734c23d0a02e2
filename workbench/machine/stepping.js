// Where one is in a trace, and how one goes on. All steps are searches in the trace's arrays, so back costs what forward costs.
import { countBefore } from "./trace.js";
import { hex } from "./word.js";

// The address at which an instruction's text begins; that of the boot, and one that mic does not know, has none
const addressOf = text => (/^[0-9a-f]{8} /.test(text) ? parseInt(text.slice(0, 8), 16) : -1);

export class Stepping {
  // lines: of each address (a number) its line in the program; microLines: of each address of the store its line in the microprogram
  constructor(trace, lines, microLines) {
    this.trace = trace;
    this.lines = lines;
    this.microLines = microLines;
    this.place = 0;
    this.stopped = "";          // why the last run over the trace stopped
    this.findLines();
    this.countLines();
    this.countMicroLines();
  }

  // Of each instruction's begin: its line, the depth of calls, and whether it is the first instruction of its line
  findLines() {
    const { trace, lines } = this, firstOf = new Map();
    for (const [address, line] of [...lines].sort((x, y) => x[0] - y[0])) if (!firstOf.has(line)) firstOf.set(line, address);
    this.lineOf = trace.begins.map(({ text }) => lines.get(addressOf(text)) || 0);
    this.isFirst = trace.begins.map(({ text }, k) => this.lineOf[k] > 0 && firstOf.get(this.lineOf[k]) === addressOf(text));
    let frame = 0;
    this.depthOf = trace.begins.map(({ place }) => {
      while (frame + 1 < trace.frames.length && trace.frames[frame + 1].cycle <= trace.first + place) frame++;
      return trace.frames[frame].depth;
    });
  }

  // How often each line was reached: where its first instruction begins, so that a loop's line counts once a turn
  countLines() {
    this.hits = new Map([...this.lines.values()].map(line => [line, 0]));
    const count = line => this.hits.set(line, this.hits.get(line) + 1);
    this.isFirst.forEach((is, k) => { if (is) count(this.lineOf[k]); });
    const { endsAt, cut } = this.trace;  // an instruction that ends the run may take no cycle
    const line = endsAt && !cut ? this.lines.get(addressOf(endsAt)) : 0;
    if (line) count(line);
  }

  countMicroLines() {
    const { trace, microLines } = this, counts = new Uint32Array(512);
    for (let i = 0; i < trace.count; i++) if (!trace.isStalled(i)) counts[trace.columns.word[i]]++;
    this.microHits = new Map([...microLines].map(([address, line]) => [line, counts[address]]));
  }

  go(i, why = "") {
    this.place = Math.max(0, Math.min(this.trace.count - 1, i));
    this.stopped = why;
  }

  instruction() { return this.trace.instructionAt(this.place); }
  line() { return this.lineOf[this.instruction()]; }
  microLine() { return this.microLines.get(this.trace.columns.word[this.place]) || 0; }

  cycle(direction) { this.go(this.place + direction); }
  step(direction) { this.seek(direction, () => true); }
  lineStep(direction) { this.seek(direction, k => this.enters(k)); }

  // To the next begin of an instruction that is wanted, or back to the one before
  seek(direction, wanted) {
    const k = this.find(direction, wanted);
    this.go(k >= 0 ? this.trace.beginOf(k) : direction > 0 ? this.trace.count - 1 : 0);
  }
  find(direction, wanted) {
    const { begins } = this.trace, from = this.instruction();
    if (direction > 0) {
      for (let k = from + 1; k < begins.length; k++) if (wanted(k)) return k;
    } else {
      for (let k = begins[from].place < this.place ? from : from - 1; k >= 0; k--) if (wanted(k)) return k;
    }
    return -1;
  }

  // A line begins, or is come back to
  enters(k) {
    return this.lineOf[k] > 0 && (this.isFirst[k] || k === 0 || this.lineOf[k - 1] !== this.lineOf[k]);
  }
  over(direction) {
    const { depthOf, lineOf } = this, depth = depthOf[this.instruction()];
    this.seek(direction, k => depthOf[k] < depth && lineOf[k] > 0
      || depthOf[k] === depth && (this.isFirst[k] || this.enters(k) && k > 0 && depthOf[k - 1] === depth));
  }
  out(direction) {
    const depth = this.depthOf[this.instruction()];
    this.seek(direction, k => this.depthOf[k] < depth);
  }

  // On, or back, to a breakpoint in a line of the program or of the microprogram, or to a write of the watched word
  run(direction, breaks, microBreaks, watched) {
    const found = [
      this.breakpoint(direction, breaks), this.microBreakpoint(direction, microBreaks), this.write(direction, watched),
    ].filter(Boolean).sort((x, y) => direction * (x.place - y.place));
    if (found.length) this.go(found[0].place, found[0].why);
    else if (direction > 0) this.go(this.trace.count - 1, "the end");
    else this.go(0, "the beginning");
  }
  breakpoint(direction, breaks) {
    const k = breaks.size ? this.find(direction, at => this.isFirst[at] && breaks.has(this.lineOf[at])) : -1;
    return k < 0 ? null : { place: this.trace.beginOf(k), why: `breakpoint in line ${this.lineOf[k]}` };
  }
  microBreakpoint(direction, breaks) {
    if (!breaks.size) return null;
    const { columns, count } = this.trace, stops = new Uint8Array(512);
    for (const [address, line] of this.microLines) stops[address] = breaks.has(line) ? 1 : 0;
    for (let i = this.place + direction; i >= 0 && i < count; i += direction) {
      if (stops[columns.word[i]]) return { place: i, why: `breakpoint in line ${this.microLines.get(columns.word[i])} of the microprogram` };
    }
    return null;
  }
  write(direction, watched) {
    const list = watched === null ? null : this.trace.written.get(watched);
    if (!list) return null;
    const entry = list[direction > 0 ? countBefore(list, this.place + 1) : countBefore(list, this.place) - 1];
    return entry ? { place: entry.place, why: `word ${hex(watched)} is written` } : null;
  }
}
