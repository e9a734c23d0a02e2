// The part of the drawing at the right: MPC, control store, the word in its fields, and the row of the next address.
import { MACHINES, hex } from "../machine/word.js";
import { ROW_HEIGHT } from "./layout.js";

const LETTER = 8.2, GAP = 4, LINE_LETTERS = 39;

// Where each field of the word is: its left edge, its width and its middle
export function fieldPlaces({ machine, x }) {
  const { fields } = MACHINES[machine], widths = fields.map(([, bits]) => Math.max(bits * LETTER + 12, 40));
  const spare = (x.right - x.control - widths.reduce((sum, width) => sum + width) - GAP * (fields.length - 1)) / fields.length;
  const places = {};
  let left = x.control;
  fields.forEach(([name, bits], k) => {
    const width = widths[k] + spare;
    places[name] = { left, width, bits, middle: left + width / 2 };
    left += width + GAP;
  });
  return places;
}

const NEXT_CELLS = ["addr", "byte", "flag", "sum"], CELL_WIDTH = 54;
export function nextPlaces({ x }) {
  const gap = (x.right - x.control - 4 * CELL_WIDTH - 20) / 3, left = k => x.control + 10 + k * (CELL_WIDTH + gap);
  const places = Object.fromEntries(NEXT_CELLS.map((name, k) => [name, { left: left(k), middle: left(k) + CELL_WIDTH / 2 }]));
  return { ...places, gap };
}

const cut = (text, most) => (text.length > most ? text.slice(0, most - 1) + "…" : text);

// A statement on two lines, at a semicolon
function twoLines(text, most) {
  if (text.length <= most) return [text, ""];
  const [first, ...parts] = text.split("; "), rows = [first, ""];
  for (const part of parts) {
    if (!rows[1] && `${rows[0]}; ${part}`.length <= most) rows[0] += `; ${part}`;
    else rows[1] += rows[1] ? `; ${part}` : part;
  }
  if (rows[1]) rows[0] += ";";
  return rows.map(row => cut(row, 60));
}

// What a field of the word does, in at most three lines
const MEANINGS = {
  Addr: () => [],
  JAM: s => [s.jmpc && "JMPC", s.jamn && "JAMN", s.jamz && "JAMZ"].filter(Boolean),
  ALU: s => [s.operation, s.shift].filter(Boolean),
  C: s => [0, 3, 6].map(k => s.loads.slice(k, k + 3).join(" ")).filter(Boolean),
  Mem: s => [s.write && "wr", s.read && "rd", s.fetch && "fetch"].filter(Boolean),
  A: s => [s.a || "–"],
  B: s => [s.b || "–"],
};
const USED = {
  Addr: () => true, JAM: s => s.jmpc || s.tests, ALU: s => s.computes, C: s => s.loads.length > 0,
  Mem: s => s.write || s.read || s.fetch, A: s => s.a !== null, B: s => s.b !== null,
};

function fieldParts(at, name) {
  const { left, width, middle, bits } = at.fields[name], top = at.fieldTop, start = middle - bits * LETTER / 2;
  const letters = Array.from({ length: bits }, (_, k) => ({
    field: `bit-${name}-${k}`, x: start + k * LETTER, y: top + 18, size: 13.6,
    text: f => f.statement.fields[name][k], look: f => `mono bit${f.statement.fields[name][k]}`,
  }));
  return {
    boxes: [{ x: left, y: top, width, height: 26, look: f => `unit${!f.stalled && USED[name](f.statement) ? " on" : ""}` }],
    texts: [
      { x: middle, y: top - 6, anchor: "middle", text: name, look: "cap" },
      ...letters,
      ...[0, 1, 2].map(k => ({ field: `meaning-${name}-${k}`, x: middle, y: top + 41 + 14 * k, anchor: "middle", look: "mean",
        text: f => MEANINGS[name](f.statement)[k] || "" })),
    ],
  };
}

// A long statement is set closer, so that it ends inside the box
const squeezed = (at, k) => f => (twoLines(f.statement.text, LINE_LETTERS)[k].length > 40 ? at.x.right - at.x.control - 24 : null);

function storeParts(at) {
  const { x, storeTop, storeHeight, fieldTop, machine } = at, left = x.control + 12;
  return {
    boxes: [{ x: x.control, y: storeTop, width: x.right - x.control, height: storeHeight, look: "box" }],
    texts: [
      { x: x.control, y: 26, text: "control", look: "name" },
      { x: x.control, y: storeTop - 7, text: `control store, 512 words of ${MACHINES[machine].bits} bits`, look: "cap" },
      { field: "label", x: left, y: storeTop + 24, size: 16, look: "mono strong",
        text: ({ statement: s }) => `${hex(s.mpc, 3)}  ${s.label === "-" ? "" : cut(s.label, 34)}` },
      ...[0, 1].map(k => ({ field: `text${k}`, x: left, y: storeTop + 52 + 22 * k, size: 17, look: f => `mono strong${f.stalled ? " off" : ""}`,
        text: f => twoLines(f.statement.text, LINE_LETTERS)[k], width: squeezed(at, k) })),
      { field: "word", x: x.control, y: fieldTop - 26, look: "cap", text: f => `the word: ${f.statement.word}` },
      { field: "nextLabel", x: x.right - 174, y: 61, anchor: "end", look: "cap",
        text: f => (f.stalled ? "the same word again" : `next: ${f.next.label ? cut(f.next.label, 24) : "no label"}`) },
    ],
  };
}

function nextParts(at) {
  const { next, nextTop, isMic1 } = at, captions = { addr: "Addr", byte: isMic1 ? "MBR" : "MBR1", flag: "N, Z", sum: "next MPC" };
  const text = {
    addr: f => (f.stalled ? "" : hex(f.next.address, 3)), byte: f => f.next.byte || "",
    flag: f => (f.next.tests ? (f.next.high ? "100" : "000") : ""), sum: f => hex(f.next.mpc, 3),
  };
  const on = { addr: f => !f.stalled, byte: f => f.next.byte !== null, flag: f => f.next.tests, sum: f => !f.stalled };
  const sign = (k, shown, lit) => ({ x: next[NEXT_CELLS[k]].left + CELL_WIDTH + next.gap / 2, y: nextTop + 18, anchor: "middle", text: shown,
    look: f => `name${lit(f) ? "" : " off"}` });
  return {
    boxes: NEXT_CELLS.map(name => ({ x: next[name].left, y: nextTop, width: CELL_WIDTH, height: 26, look: f => `unit${on[name](f) ? " on" : ""}` })),
    texts: [
      ...NEXT_CELLS.map(name => ({ x: next[name].middle, y: nextTop - 5, anchor: "middle", text: captions[name], look: "cap" })),
      ...NEXT_CELLS.map(name =>
        ({ field: `next-${name}`, x: next[name].middle, y: nextTop + 18.5, anchor: "middle", look: "val", text: text[name] })),
      sign(0, "OR", on.byte), sign(1, "OR", on.flag), sign(2, "=", () => true),
    ],
  };
}

export function controlParts(at) {
  const parts = [storeParts(at), nextParts(at), ...Object.keys(at.fields).map(name => fieldParts(at, name))];
  return { boxes: parts.flatMap(part => part.boxes), texts: parts.flatMap(part => part.texts) };
}

export const mpcPlace = at => ({ name: "MPC", x: at.x.right - 166, y: at.mpcTop, nameWidth: 54, nowWidth: 50, nextWidth: 62, height: ROW_HEIGHT });
