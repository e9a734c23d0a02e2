// Memory words that the program has or has written: value, bytes, and the cycle that wrote each of them.
import { shownByte } from "../machine/sentences.js";
import { hex } from "../machine/word.js";
import { thousands } from "../mic/report.js";
import { button, byId, cell, element, fill, headRow, link, tableRow } from "./dom.js";
import { valueAfter, watchLink } from "./state_view.js";

const REGIONS = { text: ["text", 0, 0x4000], pool: ["constants", 0x4000, 0x8000], stack: ["stack", 0x8000, Infinity] };
const MEMORY_ROWS = 400;

export function buildMemory(bench, box) {
  box.region = "stack";
  const buttons = Object.entries(REGIONS).map(([name, [text]]) => button(text, () => {
    box.region = name;
    renderMemory(bench, box);
  }, { id: `region-${name}` }));
  fill(box, element("p", { className: "empty", id: "no-memory" }, "Step runs the program; then this view follows the steps."),
    element("div", { id: "memory-shown" }, element("div", { className: "group", role: "group", "aria-label": "part of the memory" }, ...buttons),
      element("p", { className: "soft", id: "memory-note" }), element("table", { className: "rows", id: "words" })));
}

export function renderMemory(bench, box) {
  const { stepping } = bench;
  byId("no-memory").hidden = stepping !== null;
  byId("memory-shown").hidden = stepping === null;
  if (!stepping) return;
  const { trace } = stepping, [, from, to] = REGIONS[box.region];
  for (const name in REGIONS) byId(`region-${name}`).setAttribute("aria-pressed", String(name === box.region));
  const addresses = [...new Set([...trace.opening.memory.keys(), ...trace.written.keys()])]
    .filter(address => address >= from && address < to).sort((a, b) => a - b);
  const grey = box.region === "stack" ? "Grey: above SP. " : "";
  byId("memory-note").textContent = addresses.length ? `As in this cycle. ${grey}A click on a cycle goes to the one that wrote the word.`
    : "No word here.";
  const rows = [headRow("", "word", "value", "#decimal", "bytes", "", "written last")];
  let before = null;
  for (const address of addresses.slice(0, MEMORY_ROWS)) {
    if (before !== null && address !== before + 1) rows.push(tableRow("away", cell(""), cell("⋮")));
    before = address;
    rows.push(memoryRow(bench, stepping, address, box.region === "stack" && address > trace.register("SP", stepping.place)));
  }
  const more = addresses.length - MEMORY_ROWS;
  if (more > 0) rows.push(tableRow("away", cell(""), element("td", { colSpan: 6 }, `and ${thousands(more)} more`)));
  fill(byId("words"), ...rows);
}

function memoryRow(bench, stepping, address, isAway) {
  const { trace, place } = stepping, { fresh, value } = valueAfter(stepping, address), writer = fresh ? place : trace.writer(address, place);
  const at = name => trace.register(name, place) === address;
  const access = trace.reads[place] ? "MAR read" : trace.writes[place] ? "MAR write" : "";
  const pointers = [at("LV") && "LV", at("SP") && "SP", at("MAR") && access].filter(Boolean).join(" ");
  const bytes = [24, 16, 8, 0].map(shift => value >>> shift & 255).map(byte => (byte >= 32 && byte < 127 ? shownByte(byte) : "·")).join("");
  return tableRow(isAway ? "away" : "", cell(pointers, "pointer"), cell(hex(address)), cell(hex(value), fresh ? "fresh" : ""),
    cell(String(value | 0), "n"), cell(bytes), element("td", {}, watchLink(bench, address)), writerCell(bench, trace, writer));
}
function writerCell(bench, trace, writer) {
  if (writer < 0) return cell("");
  const { label } = trace.statementAt(writer), { text } = trace.begins[trace.instructionAt(writer)];
  return element("td", {}, link(`cycle ${thousands(trace.first + writer)}`, () => bench.go(s => s.go(writer)), { title: "go there" }),
    `  ${label === "-" ? "" : `${label}, `}${text.slice(9)}`);
}
