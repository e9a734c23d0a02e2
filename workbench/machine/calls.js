// Follows the calls of a run from one instruction boundary to the next: which unit runs, how deep, and where its frame is.
// LV alone does not show it, since main and a method may have the same one. Where LV is not what IJVM's frames make it, as with
// a microprogram of one's own, nothing is claimed from there on.

const MAIN_LV = 0x8000;

export class Calls {
  // units: main first, each {header, parameters, ..}, `parameters` with the object reference; pool: its words
  constructor(units, pool) {
    this.units = units;
    this.pool = pool;
    this.unitOf = new Map(units.map((unit, k) => [unit.header, k]));
    this.stack = [{ unit: 0, lv: MAIN_LV }];
    this.sp = 0;
    this.frames = null;         // of the window: {cycle, unit, depth, lv} from that cycle on
  }

  openWindow(cycle) { this.frames = [this.running(cycle)]; }

  running(cycle) {
    const top = this.stack[this.stack.length - 1];
    return top ? { cycle, unit: top.unit, depth: this.stack.length, lv: top.lv } : { cycle, unit: -1, depth: 0, lv: 0 };
  }

  // `done` is the instruction that has just been completed, `sp` and `lv` are those at this boundary
  boundary(done, sp, lv, cycle) {
    const [, name, operand] = (done || "").split(" "), stack = this.stack;
    if (stack.length && name === "INVOKEVIRTUAL") {
      const unit = this.unitOf.get(this.pool[+operand]);
      stack.push(unit === undefined ? { unit: -1, lv: -1 } : { unit, lv: this.sp - this.units[unit].parameters + 1 });
    } else if (stack.length && name === "IRETURN") {
      stack.pop();
    }
    if (stack.length && stack[stack.length - 1].lv !== lv) stack.length = 0;
    this.sp = sp;
    if (!this.frames) return;
    const last = this.frames[this.frames.length - 1], now = this.running(cycle);
    if (last.unit !== now.unit || last.depth !== now.depth || last.lv !== now.lv) this.frames.push(now);
  }
}
