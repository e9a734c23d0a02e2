// The part of the drawing at the left: memory, fetch unit, registers, ALU and shifter, flags, and the legend.
import { hex } from "../machine/word.js";
import { ROW_HEIGHT } from "./layout.js";

// A register: its name, what it holds in the cycle, and what the edge makes of it
export function registerParts({ name, x, y, nameWidth, nowWidth, nextWidth, height }) {
  const split = x + nameWidth + nowWidth, base = y + height - 9.5, of = f => f.registers[name];
  const shown = f => of(f).loaded || of(f).changed, tip = { x: split + 4, y: y + height / 2 };
  return {
    boxes: [
      { x, y, width: nameWidth + nowWidth + nextWidth, height, look: "box" },
      { x, y, width: nameWidth, height, look: "head" },
      { path: [[split, y], [split, y + height]], look: "cell-line" },
      { x: split + 1, y: y + 1, width: nextWidth - 2, height: height - 2,
        look: f => `cell${shown(f) ? ` load k${of(f).from}${of(f).changed ? " changed" : ""}` : ""}` },
      { polygon: [[tip.x, tip.y - 5], [tip.x + 8, tip.y], [tip.x, tip.y + 5]], look: f => `tip${shown(f) ? ` k${of(f).from}` : ""}` },
    ],
    texts: [
      { x: x + nameWidth / 2, y: base, anchor: "middle", text: name, look: "name" },
      { field: `now-${name}`, x: x + nameWidth + nowWidth / 2, y: base, anchor: "middle", look: "val", text: f => of(f).now },
      { field: `next-${name}`, x: split + 6 + nextWidth / 2, y: base, anchor: "middle", look: f => `val${of(f).changed ? " strong" : ""}`,
        text: f => (shown(f) ? of(f).next : "") },
    ],
  };
}

function registers(at) {
  const { x, y, rows, isMic1 } = at, boxes = [], texts = [
    { x: x.box + x.name + x.now / 2, y: 30, anchor: "middle", text: "in this cycle", look: "cap" },
    { x: x.box + x.name + x.now + x.next / 2, y: 30, anchor: "middle", text: "after its edge", look: "cap" },
    { x: x.c, y: 26, anchor: "middle", text: "C bus", look: "name tC" },
    { x: x.b, y: y.MDR - (isMic1 ? 4 : 8), anchor: "middle", text: isMic1 ? "B bus" : "B", look: "name tB" },
  ];
  if (isMic1) {
    texts.push({ x: x.end + 3, y: y.MBR - 1, text: "MBR", look: "tiny" }, { x: x.end + 3, y: y.MBR + 36, text: "MBRU", look: "tiny" });
  } else {
    texts.push({ x: x.a, y: y.MDR - 8, anchor: "middle", text: "A", look: "name tA" });
  }
  for (const name of rows) {
    const place = { name, x: x.box, y: y[name], nameWidth: x.name, nowWidth: x.now, nextWidth: x.next, height: ROW_HEIGHT };
    const parts = registerParts(place);
    boxes.push(...parts.boxes);
    texts.push(...parts.texts);
  }
  return { boxes, texts };
}

function wordPortParts(at) {
  const { x, memoryTop, memoryBottom } = at, left = x.memory + 8, right = x.memoryRight - 8, active = f => f.word.reading || f.word.writing;
  const state = ({ word }) => (word.begins ? `▸ ${word.begins}` : word.isConsole ? "console" : word.waits ? "the read waits" : "words");
  return {
    boxes: [{ x: x.memory, y: memoryTop, width: x.memoryWidth, height: memoryBottom - memoryTop, look: "box" }],
    texts: [
      { x: x.memory + x.memoryWidth / 2, y: 26, anchor: "middle", text: "memory", look: "name" },
      { field: "wordPort", x: left, y: at.middle("MAR") + 5, look: "name tM",
        text: f => (f.word.reading ? "read" : f.word.writing ? "write" : "") },
      { field: "wordAt", x: right, y: at.middle("MAR") + 5, anchor: "end", look: "val", text: f => (active(f) ? hex(f.word.address) : "") },
      { field: "wordData", x: right, y: at.middle("MDR") + 5, anchor: "end", look: "val strong",
        text: f => (active(f) && !f.word.waits ? hex(f.word.data) : "") },
      { field: "words", x: left, y: at.middle("MDR") + 5, look: f => (f.word.begins ? "cap strong tM" : "cap"), text: state, idle: "words" },
    ],
  };
}

function bytePortParts(at) {
  const { x, y } = at, left = x.memory + 8, right = x.memoryRight - 8, split = (y.MDR + ROW_HEIGHT + y.PC) / 2, on = f => f.byte.fetching;
  const begins = f => f.byte.begins && !f.stalled;
  return {
    boxes: [{ path: [[x.memory, split], [x.memoryRight, split]], look: "cell-line" }],
    texts: [
      { field: "bytePort", x: left, y: at.middle("PC") + 5, look: "name tM", text: f => (on(f) ? "fetch" : "") },
      { field: "byteAt", x: right, y: at.middle("PC") + 5, anchor: "end", look: "val", text: f => (on(f) ? hex(f.byte.address) : "") },
      { field: "byteData", x: right, y: at.middle("MBR") + 5, anchor: "end", look: "val strong", text: f => (on(f) ? hex(f.byte.data, 2) : "") },
      { field: "bytes", x: left, y: at.middle("MBR") + 5, look: f => (begins(f) ? "cap strong tM" : "cap"), idle: "bytes",
        text: f => (begins(f) ? "▸ fetch" : "bytes") },
    ],
  };
}

const QUEUE = 6, CELL = 23.4;

// A row of Mic-2's queue: before or after the edge
function queueRow(at, when, y) {
  const fresh = (f, k) => when === "next" && k >= f.unit.next.length - f.unit.arrived && k < f.unit.next.length;
  const taken = (f, k) => when === "now" && k < f.unit.takes;
  const cells = Array.from({ length: QUEUE }, (_, k) => at.x.memory + 5 + k * CELL);
  return {
    boxes: cells.map((x, k) => ({ x, y, width: CELL, height: 22,
      look: f => (fresh(f, k) ? "cell load changed kM" : taken(f, k) ? "used" : "soft-box") })),
    texts: cells.map((x, k) => ({ field: `${when}-Q${k}`, x: x + CELL / 2, y: y + 16, anchor: "middle", text: f => f.unit[when][k] || "",
      look: f => `val${fresh(f, k) || taken(f, k) ? " strong" : ""}${when === "now" && f.unit.dropped ? " off" : ""}` })),
  };
}

function fetchUnitParts(at) {
  const { x, unitTop: top, unitBottom, memoryBottom } = at, left = x.memory + 8, right = x.memory + x.memoryWidth - 8;
  const moves = f => f.registers.IMAR.changed, now = queueRow(at, "now", top + 86), next = queueRow(at, "next", top + 131);
  const state = ({ unit }) => (unit.takes ? `takes ${unit.takes}` : unit.dropped ? "dropped" : unit.tooShort ? "too short" : "");
  return {
    boxes: [
      { x: x.memory, y: top, width: x.memoryWidth, height: unitBottom - top, look: "box" },
      { x: x.memory + 52, y: top + 43, width: x.memoryWidth - 57, height: 20,
        look: f => `cell${moves(f) ? ` load changed k${f.registers.IMAR.from}` : ""}` },
      ...now.boxes, ...next.boxes,
    ],
    texts: [
      { x: left, y: top + 17, text: "fetch unit", look: "name" },
      { x: left, y: top + 37, text: "IMAR", look: "cap" },
      { field: "now-IMAR", x: right, y: top + 37, anchor: "end", look: "val", text: f => f.registers.IMAR.now },
      { field: "next-IMAR", x: right, y: top + 58, anchor: "end", look: "val strong", text: f => (moves(f) ? f.registers.IMAR.next : "") },
      { x: left, y: top + 80, text: "queue", look: "cap" },
      { field: "takes", x: right, y: top + 80, anchor: "end", look: "cap", text: state },
      { x: left, y: top + 125, text: "after the edge", look: "cap" },
      { field: "pending", x: x.memory + 40, y: (memoryBottom + top) / 2 + 5, look: "val", text: f => (f.unit.pending ? hex(f.unit.word) : "") },
      ...now.texts, ...next.texts,
    ],
  };
}

function alu(at) {
  const { aluA, aluB, aluTop, aluBottom, shiftTop, shiftMiddle, center, isMic1 } = at, loads = f => f.loads.length > 0;
  const bus = (on, kind) => f => `val strong ${on(f) ? kind : "off"}`, value = (name, key) => f => (f.stalled ? "" : name + hex(f.buses[key]));
  const shape = [[aluA - 54, aluTop], [aluA + 54, aluTop], [center, aluTop + 28], [aluB - 54, aluTop], [aluB + 54, aluTop],
    [center + 84, aluBottom], [center - 84, aluBottom]];
  return {
    boxes: [
      { polygon: shape, look: f => `unit${f.computes ? " on" : ""}` },
      { x: center - 78, y: shiftTop, width: 156, height: 28, look: f => `unit${loads(f) ? " on" : ""}` },
    ],
    texts: [
      { x: center, y: aluTop + 46, anchor: "middle", text: "ALU", look: "cap" },
      { field: "operation", x: center, y: aluTop + 70, anchor: "middle", size: 21, look: f => `mono strong${f.computes ? "" : " off"}`,
        text: f => (f.stalled ? "stall" : f.statement.operation) },
      { field: "a", x: aluA + 10, y: aluTop - 18, look: bus(f => f.a !== null, "tA"), idle: "A", text: value("A ", "a") },
      { field: "b", x: aluB - 10, y: aluTop - (isMic1 ? 18 : 8), anchor: "end", look: bus(f => f.b !== null, "tB"), idle: "B",
        text: value("B ", "b") },
      { field: "alu", x: center + 10, y: aluBottom + 19, look: f => `val strong${f.computes ? (loads(f) ? " tC" : "") : " off"}`,
        text: value("", "alu") },
      { x: center - 68, y: shiftTop + 19, text: "shifter", look: "cap" },
      { field: "shift", x: center + 68, y: shiftTop + 19, anchor: "end", size: 15, look: f => `mono strong${f.statement.shift ? "" : " off"}`,
        text: f => (f.stalled ? "" : f.statement.shift || "as it is") },
      { field: "c", x: center - 86, y: shiftMiddle - 7, anchor: "end", look: bus(loads, "tC"), idle: "C", text: value("C ", "c") },
    ],
  };
}

function flag(at, name, k) {
  const y = at.aluTop + 30 + 27 * k, on = f => f.tested[name];
  return {
    boxes: [{ x: at.flagX, y, width: 40, height: 22, look: f => `unit${on(f) ? " on" : ""}` }],
    texts: [{ field: name, x: at.flagX + 20, y: y + 16, anchor: "middle", look: f => `val ${on(f) ? "strong" : "off"}`, idle: name,
      text: f => (f.stalled ? name : `${name} ${f.flags[name]}`) }],
  };
}

export function legendParts(at) {
  const { x, isMic1 } = at, top = isMic1 ? 250 : 330;
  const rows = [["B", "B bus"], ["A", isMic1 ? "A: from H" : "A bus"], ["C", "ALU, shifter, C bus"],
    ["M", isMic1 ? "memory" : "memory, fetch unit"], ["S", "control"]];
  const below = top + 20 * rows.length;
  return {
    boxes: [
      ...rows.map(([kind], k) => ({ path: [[x.memory, top + 20 * k], [x.memory + 22, top + 20 * k]], look: `lit k${kind}` })),
      { path: [[x.memory, below], [x.memory + 22, below]], look: "sample" },
      { x: x.memory, y: below + 14, width: 22, height: 14, look: "cell load changed kC" },
      { x: x.memory, y: below + 34, width: 22, height: 14, look: "cell load kC" },
    ],
    texts: [
      ...rows.map(([, text], k) => ({ x: x.memory + 30, y: top + 20 * k + 4.5, text, look: "cap" })),
      ...["not used now", "changes", "loads the same"].map((text, k) =>
        ({ x: x.memory + 30, y: below + [4.5, 25.5, 45.5][k], text, look: "cap" })),
    ],
  };
}

export function datapathParts(at) {
  const memory = at.isMic1 ? [wordPortParts(at), bytePortParts(at)] : [wordPortParts(at), fetchUnitParts(at)];
  const parts = [...memory, registers(at), alu(at), flag(at, "N", 0), flag(at, "Z", 1)];
  return { boxes: parts.flatMap(part => part.boxes), texts: parts.flatMap(part => part.texts) };
}
