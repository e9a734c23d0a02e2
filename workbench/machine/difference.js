// The first difference of two runs of one program under two microprograms. At each instruction boundary all is compared that IJVM can see:
// where the next instruction is, SP, LV, CPP and TOS, the words of the stack, what was written to the console and how much was read.
import { CONSOLE, hex } from "./word.js";

const STACK = 0x8000, MOST_SHOWN = 12;
const SEEN_REGISTERS = ["SP", "LV", "CPP", "TOS"];

// One of the two runs, walked over from boundary to boundary
class Side {
  constructor(trace) {
    this.trace = trace;
    this.place = -1;            // of the last boundary's cycle
    this.memory = new Map();
    this.output = [];
    this.read = 0;
  }
  // To the next boundary: the words that were written on the way, or null where there is no boundary any more
  advance() {
    const { trace } = this, { columns, count, statements } = trace, { MAR, MDR } = columns.registers, written = [];
    this.from = this.place + 1;
    for (let i = this.from; i < count; i++) {
      const { write, read } = statements[columns.word[i]], address = MAR[i + 1];
      if (!columns.stalled[i]) {
        if (read && address === CONSOLE) this.read++;
        if (write && address === CONSOLE) this.output.push(MDR[i + 1] & 255);
        else if (write) {
          this.memory.set(address, MDR[i + 1]);
          written.push(address);
        }
      }
      this.place = i;
      if (columns.boundary[i] >= 0) return written;
    }
    this.isOver = true;
    return written;
  }
  // The instruction that comes next, or the end
  get next() {
    const { cut, report, instructions, columns } = this.trace;
    if (!this.isOver) return instructions[columns.boundary[this.place]];
    return cut ? "the end of the cycles that are compared" : `end ${report.end}`;
  }
  register(name) { return hex(this.trace.register(name, this.place + 1)); }
}

// What differs at a boundary, as {key, name, values}: the key is that of a sentence
function seenDifferences(sides, differing) {
  const [one, other] = sides, found = [];
  const compare = (key, name, values) => { if (values[0] !== values[1]) found.push({ key, name, values }); };
  compare(sides.some(side => side.isOver) ? "end" : "next", "", sides.map(side => side.next));
  if (!one.isOver && !other.isOver) {
    for (const name of SEEN_REGISTERS) compare("register", name, sides.map(side => side.register(name)));
    const top = one.trace.register("SP", one.place + 1);
    for (const address of [...differing].filter(at => at >= STACK && at <= top).sort((a, b) => a - b)) {
      compare("word", hex(address), sides.map(side => (side.memory.has(address) ? hex(side.memory.get(address)) : "not written")));
    }
  }
  const lasts = sides.map(({ output }) => output[output.length - 1]);
  if (one.output.length !== other.output.length || lasts[0] !== lasts[1]) {
    compare("written", "", sides.map(side => JSON.stringify(String.fromCharCode(...side.output.slice(-20)))));
  }
  compare("read", "", sides.map(side => String(side.read)));
  return found.slice(0, MOST_SHOWN);
}

// {isSame, boundaries, after, what, cycles, sides, costs}: `costs` has of each instruction how often it ran, and in how many cycles on each side
export function firstDifference(one, other) {
  const sides = [new Side(one), new Side(other)], differing = new Set(), costs = new Map();
  let after = "the boot", boundaries = 0;
  for (;;) {
    const written = sides.flatMap(side => side.advance());
    for (const address of written) {
      if (sides[0].memory.get(address) === sides[1].memory.get(address)) differing.delete(address);
      else differing.add(address);
    }
    const isCut = sides.some(side => side.isOver && (side.trace.cut || side.trace.report.end === "bound"));
    const what = isCut ? [] : seenDifferences(sides, differing);
    const name = after.split(" ")[1] || after, cost = costs.get(name) || [0, 0, 0];
    costs.set(name, [cost[0] + 1, ...sides.map((side, k) => cost[k + 1] + side.place - side.from + 1)]);
    if (what.length || sides.some(side => side.isOver)) {
      return {
        isSame: what.length === 0, isCut, boundaries, after, what,
        cycles: sides.map(side => side.trace.first + side.place),
        sides: sides.map(side => ({ trace: side.trace, from: side.from, to: side.place })),
        costs: [...costs].map(([key, value]) => [key, ...value]),
      };
    }
    boundaries++;
    after = sides[0].next;
  }
}
