// Registers before and after the edge, and the frames of all calls with the names of their words.
import { framesOf, isLinking, roleOf } from "../machine/frames.js";
import { counted } from "../machine/sentences.js";
import { MACHINES, hex } from "../machine/word.js";
import { byId, cell, element, fill, headRow, link, tableRow } from "./dom.js";

const SHOWN_FRAMES = 30, MOST_WORDS = 60;

export function buildState(bench, box) {
  fill(box, element("p", { className: "empty", id: "no-state" }, "Step runs the program; then this view follows the steps."),
    element("div", { className: "columns", id: "state-columns" },
      element("div", {}, element("h2", {}, "Registers"), element("table", { className: "rows", id: "registers" })),
      element("div", {}, element("h2", {}, "Frames ", element("span", { id: "frames-note" })),
        element("table", { className: "rows", id: "frames" }))));
}

export function renderState(bench) {
  const { stepping } = bench;
  byId("no-state").hidden = stepping !== null;
  byId("state-columns").hidden = stepping === null;
  if (!stepping) return;
  fill(byId("registers"), headRow("register", "in this cycle", "after its edge", "#decimal"), ...registerRows(stepping));
  const frames = framesOf(stepping.trace, stepping.place);
  byId("frames-note").textContent = frames.length > 1 ? `${counted(frames.length, "frame")}, the running one first` : "";
  fill(byId("frames"), ...frames.slice(0, SHOWN_FRAMES).flatMap((frame, k) => frameRows(bench, stepping, frame, k)));
}

const digitsOf = name => (name === "MPC" ? 3 : name === "MBR" ? 2 : 8);

function registerRows({ trace, place }) {
  return MACHINES[trace.machine === "mic1" ? "mic1" : "mic2"].registers.map(name => {
    if (name === "BYTES") {
      const now = trace.columns.queue[place], next = trace.columns.queue[place + 1];
      return tableRow(now === next ? "" : "changed", cell("queue", "name"), cell(now), cell(now === next ? "" : next, "value"), cell(""));
    }
    const digits = digitsOf(name), now = trace.register(name, place), next = trace.register(name, place + 1);
    return tableRow(now === next ? "" : "changed", cell(name, "name"), cell(hex(now, digits)), cell(now === next ? "" : hex(next, digits), "value"),
      cell(String(digits === 8 ? next | 0 : next), "n"));
  });
}

function frameRows(bench, stepping, { unit, lv, sp, address }, k) {
  const { trace } = stepping, line = k === 0 ? stepping.line() : stepping.lines.get(address) || 0;
  const where = line ? (k ? `, called in line ${line}` : `, line ${line}`) : "";
  const title = `${unit ? unit.name : "memory from LV to SP"}${where}${k ? "" : " – running"}`;
  const rows = [element("tr", { className: "head" }, element("td", { colSpan: 6 }, title))];
  if (sp < lv) return [...rows, tableRow("away", cell(""), cell(""), cell(""), cell("no local and no operand", "what"), cell(""), cell(""))];
  const count = sp - lv + 1;
  for (let word = lv; word <= sp && word < trace.setup.memoryWords; word++) {
    if (count > MOST_WORDS && word === lv + MOST_WORDS / 2) {
      rows.push(tableRow("away", cell(""), cell("⋮"), cell(""), cell(counted(count - MOST_WORDS, "word"), "what"), cell(""), cell("")));
      word = sp - MOST_WORDS / 2 + 1;
    }
    rows.push(wordRow(bench, stepping, { unit, lv, sp, word, isRunning: k === 0 }));
  }
  return rows;
}

// The value that a word has after this cycle's edge, and whether the edge writes it
export function valueAfter({ trace, place }, address) {
  const fresh = trace.isWriting(place) && trace.register("MAR", place + 1) === address;
  return { fresh, value: fresh ? trace.register("MDR", place + 1) : trace.word(address, place) };
}
export const watchLink = (bench, address) => link(bench.watched === address ? "watched" : "watch", () => bench.watch(address),
  { title: "the runs to a breakpoint stop where this word is written" });

function wordRow(bench, stepping, { unit, lv, sp, word, isRunning }) {
  const { fresh, value } = valueAfter(stepping, word), role = roleOf(unit, word - lv), isAway = !isRunning || isLinking(role);
  const pointers = isRunning ? [word === lv && "LV", word === sp && "SP"].filter(Boolean).join(" ") : "";
  return tableRow(isAway ? "away" : "", cell(pointers, "pointer"), cell(hex(word)), cell(hex(value), fresh ? "fresh" : ""), cell(role, "what"),
    cell(isLinking(role) ? "" : String(value | 0), "n"), element("td", {}, watchLink(bench, word)));
}

