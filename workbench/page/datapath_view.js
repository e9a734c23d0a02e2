// The drawing of the present cycle, with the cycles of its instruction, its frame and its console.
import { factsOf } from "../machine/facts.js";
import { meaningOf } from "../machine/frames.js";
import { counted, sentencesOf, shownByte } from "../machine/sentences.js";
import { countBefore } from "../machine/trace.js";
import { hex } from "../machine/word.js";
import { PictureView } from "../drawing/view.js";
import { byId, cell, element, fill, intoSight, tableRow } from "./dom.js";
import { buildPipeline, pipelineSentences, renderPipeline } from "./pipeline_view.js";

const NEAR = 40;                // cycles of a long instruction that are listed on each side
const FRAME_ROWS = 48, LOW_ROWS = 12, SHOWN_BYTES = 2000;

const panel = (id, title, content) => element("section", { className: "panel", id: `panel-${id}`, "aria-label": title },
  element("h2", {}, element("span", { id: `${id}-title` }, title), element("span", { className: "note", id: `${id}-note` })),
  element("div", { className: "scroll", id: `${id}-box`, tabIndex: 0 }, content));

export function buildDatapath(bench, box) {
  fill(box,
    element("p", { className: "empty", id: "no-steps" }, "Step runs the program, and shows here what each wire carries, cycle by cycle."),
    element("div", { id: "pipeline", hidden: true }),
    element("div", { id: "drawn", hidden: true },
      element("div", { id: "picture-box" }),
      element("div", { id: "beside" },
        panel("cycles", "Cycles of this instruction", element("table", { className: "rows", id: "cycles" })),
        panel("frame", "Frame", element("table", { className: "rows", id: "frame" })),
        panel("bytes", "Console", element("div", { id: "bytes" })))));
  box.pictures = {};
  buildPipeline(box.querySelector("#pipeline"));
}

// The picture of a machine is built once
function pictureFor(box, machine) {
  if (!box.pictures[machine]) {
    const svg = document.createElementNS("http://www.w3.org/2000/svg", "svg"), words = element("ol", { className: "words" });
    svg.setAttribute("class", "picture");
    svg.setAttribute("role", "img");
    svg.setAttribute("aria-labelledby", "spoken");
    box.pictures[machine] = { svg, words, view: new PictureView(svg, machine, words) };
  }
  const picture = box.pictures[machine];
  if (byId("picture-box").firstChild !== picture.svg) fill(byId("picture-box"), picture.svg);
  return picture;
}

export function renderDatapath(bench, box) {
  const { stepping } = bench;
  byId("no-steps").hidden = stepping !== null;
  const isPipeline = stepping !== null && stepping.trace.machine === "mic3";
  byId("pipeline").hidden = !isPipeline;
  byId("drawn").hidden = stepping === null || isPipeline;
  if (!stepping) return;
  if (isPipeline) { renderPipeline(bench); return; }
  const { trace, place } = stepping, facts = factsOf(trace, place), picture = pictureFor(box, trace.machine);
  const sentences = sentencesOf(facts);
  picture.view.show(facts);
  fill(picture.words, ...sentences.map(sentence => element("li", {}, sentence)));
  intoSight([
    [byId("cycles-box"), fillCycles(bench, trace, place)],
    [byId("frame-box"), fillFrame(trace, place, facts)],
    [byId("bytes-box"), fillBytes(trace, place)],
  ]);
}

// What is spoken of the present cycle
export function spokenOf(stepping) {
  const { trace, place } = stepping;
  if (trace.machine === "mic3") return `Cycle ${trace.first + place}. ${pipelineSentences(trace, place).join(" ")}`;
  const facts = factsOf(trace, place), { label, text } = facts.statement;
  return `Cycle ${facts.cycle}, ${facts.instruction}. ${label === "-" ? "" : `${label}: `}${text}. ${sentencesOf(facts).join(" ")}`;
}

function fillCycles(bench, trace, place) {
  const k = trace.instructionAt(place), from = Math.max(0, trace.begins[k].place), to = trace.endOf(k), rows = [];
  let here = null;
  byId("cycles-note").textContent = to === trace.count && trace.cut ? "" : counted(to - trace.begins[k].place, "cycle");
  for (let i = Math.max(from, place - NEAR); i < Math.min(to, place + NEAR); i++) {
    const statement = trace.statementAt(i);
    const row = tableRow(i === place ? "here" : "", cell(String(trace.first + i), "n"), cell(hex(statement.mpc, 3), "soft"),
      cell(statement.label === "-" ? "" : statement.label), cell(trace.isStalled(i) ? "stall" : statement.text, "code"));
    row.addEventListener("click", () => bench.go(stepping => stepping.go(i)));
    if (i === place) {
      here = row;
      row.setAttribute("aria-current", "step");
    }
    rows.push(row);
  }
  fill(byId("cycles"), ...rows);
  return here;
}

// Which words of the frame are shown: all, or the lowest, the highest, and those that are read or written
function shownAddresses(low, high, extra) {
  if (high - low + 1 <= FRAME_ROWS) return Array.from({ length: Math.max(0, high - low + 1) }, (_, k) => low + k);
  const wanted = new Set(extra.filter(address => address >= low && address <= high));
  for (let k = 0; k < LOW_ROWS; k++) wanted.add(low + k);
  for (let k = 0; k < FRAME_ROWS - LOW_ROWS - 2; k++) wanted.add(high - k);
  return [...wanted].sort((a, b) => a - b);
}

const note = (mark, text) => tableRow("away", cell(""), cell(mark), cell(text, "what"));

function fillFrame(trace, place, facts) {
  const at = name => [trace.register(name, place), trace.register(name, place + 1)], [lv, lvNext] = at("LV"), [sp, spNext] = at("SP");
  const { unit, depth } = trace.frameAt(place), inMemory = address => address < trace.setup.memoryWords;
  byId("frame-title").textContent = unit ? `Frame of ${unit.name}` : "Memory from LV to SP";
  byId("frame-note").textContent = depth > 1 ? counted(depth - 1, "caller") : "";
  let low = Math.min(lv, lvNext), high = Math.max(sp, spNext);
  if (!inMemory(high)) [low, high] = [lv, sp];
  const { word } = facts, addresses = inMemory(high) ? shownAddresses(low, high, [word.address, word.nextAddress]) : [], rows = [];
  let before = null, focus = null;
  for (const address of addresses) {
    if (before !== null && address !== before + 1) rows.push(note("⋮", counted(address - before - 1, "word")));
    before = address;
    const written = word.begins === "write" && word.nextAddress === address, isInside = address >= lv && address <= sp;
    const row = frameRow({ trace, place, address, unit, lv, isInside, next: written ? word.nextData : null,
      isRead: word.arrives && word.address === address, pointers: pointersAt(address, { lv, lvNext, sp, spNext }) });
    if (written || address === sp && !focus) focus = row;
    rows.push(row);
  }
  if (!rows.length) rows.push(note("", unit ? "no local and no operand" : sp < lv ? "SP is below LV" : "no memory there"));
  fill(byId("frame"), ...rows);
  return focus;
}

function pointersAt(address, { lv, lvNext, sp, spNext }) {
  const now = [address === lv && "LV", address === sp && "SP"].filter(Boolean).join(" ");
  const moved = [address === lvNext && lv !== lvNext && "LV", address === spNext && sp !== spNext && "SP"].filter(Boolean).join(" ");
  return [now, moved && `▸${moved}`].filter(Boolean).join(" ");
}

function frameRow({ trace, place, address, unit, lv, isInside, next, isRead, pointers }) {
  const now = trace.word(address, place), content = element("td", {}, `${hex(now)} `);
  if (next !== null) content.append(element("span", { className: "fresh" }, `▸${hex(next)}`), " ");
  if (isInside) content.append(element("span", { className: "what" }, meaningOf(unit, address - lv, next === null ? now : next)));
  if (isRead) content.append(element("span", { className: "read" }, "  read"));
  const row = tableRow(isInside ? "" : "away", cell(pointers, "pointer"), cell(hex(address)), content);
  row.dataset.address = address;
  return row;
}

function bytesRow(name, entries, place) {
  const k = countBefore(entries, place), fresh = k < entries.length && entries[k].place === place ? entries[k].byte : null;
  const text = entries.slice(Math.max(0, k - SHOWN_BYTES), k).map(({ byte }) => (byte === 10 ? "↵\n" : shownByte(byte))).join("");
  return element("div", { id: `bytes-${name}`, className: "text" }, element("span", { className: "what" }, `${name} `), text,
    fresh === null ? null : element("b", {}, fresh === 10 ? "↵" : shownByte(fresh)));
}
function fillBytes(trace, place) {
  const written = countBefore(trace.output, place), read = countBefore(trace.input, place), end = element("div", {});
  byId("bytes-note").textContent = `${counted(written, "byte")} written${trace.input.length ? `, ${read} read` : ""}`;
  fill(byId("bytes"), bytesRow("output", trace.output, place), trace.input.length ? bytesRow("input", trace.input, place) : null, end);
  return end;
}

