// What happened in a run, its output and its input.
import { countBefore } from "../machine/trace.js";
import { counted, shownByte } from "../machine/sentences.js";
import { thousands } from "../mic/report.js";
import { capital } from "../mic/words.js";
import { byId, element, fill, link, withCode } from "./dom.js";

const MOST_OUTPUT = 20_000;

// Bytes as text: an end of line is seen, and what is no letter has its number
function outputParts(bytes, fresh = -1) {
  const parts = [];
  let plain = "";
  const flush = () => {
    if (plain) parts.push(plain);
    plain = "";
  };
  bytes.forEach((byte, k) => {
    const shown = byte === 10 ? "↵" : shownByte(byte), isPlain = shown.length === 1 && byte !== 10;
    if (isPlain && k !== fresh) { plain += shown; return; }
    flush();
    parts.push(element(k === fresh ? "b" : "i", {}, shown));
    if (byte === 10) plain += "\n";
  });
  flush();
  return parts.length ? parts : [element("i", {}, "nothing")];
}

export function buildConsole(bench, box) {
  const area = element("textarea", { id: "input", spellcheck: false, autocomplete: "off", rows: 3, value: bench.input });
  const ends = element("select", { id: "input-ends", "aria-label": "after the input" },
    element("option", { value: "" }, "more is asked for"), element("option", { value: "ends" }, "it ends"));
  area.addEventListener("input", () => { bench.input = area.value; });
  ends.addEventListener("change", () => { bench.inputEnds = ends.value === "ends"; });
  fill(box,
    element("h2", {}, "What happened"), element("div", { id: "happened" }),
    element("h2", {}, "Output ", element("span", { id: "output-note" })), element("pre", { id: "output", tabIndex: 0 }),
    element("h2", { id: "given" }, element("label", { htmlFor: "input" }, "Input "),
      element("span", {}, "the bytes that IN reads; after them "), ends),
    area,
    element("h2", {}, "The report of mic"), element("pre", { id: "report", tabIndex: 0 }));
  buildAsked(bench);
}

// The line that a program waits for, whatever view is shown
function buildAsked(bench) {
  const taken = () => {
    const { value } = byId("line");
    byId("line").value = "";
    return value;
  };
  byId("asked").addEventListener("submit", event => {
    event.preventDefault();
    bench.give(taken() + "\n");
  });
  byId("give-bare").addEventListener("click", () => bench.give(taken()));
  byId("end-input").addEventListener("click", () => bench.endInput());
}

export function renderAsked(bench) {
  const { ran } = bench.result, asked = byId("asked"), wasHidden = asked.hidden;
  asked.hidden = !ran || !ran.waits || bench.busy !== null;
  if (wasHidden && !asked.hidden && !bench.stepping) byId("line").focus();
}

export function renderConsole(bench) {
  const { ran, refusal } = bench.result, happened = byId("happened"), input = byId("input");
  if (document.activeElement !== input && input.value !== bench.input) input.value = bench.input;
  byId("input-ends").value = bench.inputEnds ? "ends" : "";
  fill(happened, ...(ran ? ranWords(bench, ran) : refusal ? refusedWords(bench, refusal) : [element("p", { className: "soft" },
    bench.busy ? "The program runs." : "Nothing has been run yet.")]));
  byId("report").textContent = ran ? ran.report.lines.join("\n") : "";
  renderOutput(bench);
}

function ranWords(bench, ran) {
  const lineLink = line => link("show the line", () => bench.openFile(ran.setting.program.name, line));
  return ran.words.map(({ text, line, isBad }, k) =>
    element("p", { className: `${isBad ? "bad" : ""}${k === 0 ? " first" : ""}` }, text, ...(line ? [" ", lineLink(line)] : [])));
}
function refusedWords(bench, refusal) {
  const where = `${refusal.file || ""}${refusal.line ? `, line ${refusal.line}` : ""}`;
  return [
    element("p", { className: "bad first" }, `Refused: ${where ? `${where}: ` : ""}${refusal.text}`),
    refusal.said ? element("p", { className: "soft" }, `mic: ${refusal.said}`) : null,
    refusal.notes ? element("p", {}, capital(refusal.notes), ".") : null,
    ...(refusal.advice || []).map(text => element("p", { className: "soft" }, "Look for: ", ...withCode(text))),
  ].filter(Boolean);
}

function renderOutput(bench) {
  const { ran, stepping } = bench.result, box = byId("output"), note = byId("output-note");
  if (!ran) {
    fill(box);
    note.textContent = "";
  } else if (stepping) {
    const { trace, place } = stepping, k = countBefore(trace.output, place + 1), from = Math.max(0, k - MOST_OUTPUT);
    const fresh = k > 0 && trace.output[k - 1].place === place ? k - 1 - from : -1;
    fill(box, ...outputParts(trace.output.slice(from, k).map(({ byte }) => byte), fresh));
    const read = trace.input.length ? `; ${thousands(countBefore(trace.input, place + 1))} of ${thousands(trace.input.length)} read` : "";
    note.textContent = `until cycle ${thousands(trace.first + place)}, ${thousands(k)} of ${counted(trace.output.length, "byte")}${read}`;
  } else {
    fill(box, ...outputParts([...ran.output.slice(0, MOST_OUTPUT)]));
    const more = ran.output.length > MOST_OUTPUT ? `, the first ${thousands(MOST_OUTPUT)} here` : "";
    note.textContent = counted(ran.output.length, "byte") + more;
  }
}

