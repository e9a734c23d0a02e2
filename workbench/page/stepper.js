// The steps: buttons, keys, the slider and the line that says where one is.
import { button, byId, element, fill, iconOf, soft } from "./dom.js";
import { thousands } from "../mic/report.js";

const LEFT = "M13 1v12L4 7z", RIGHT = "M7 1v12L16 7z", LEFT_TWICE = "M10 1v12L2 7zM18 1v12L10 7z", RIGHT_TWICE = "M2 1v12L10 7zM10 1v12L18 7z";
const TO_START = "M3 1h2.5v12H3zM17 1v12L6.5 7z", TO_END = "M14.5 1H17v12h-2.5zM3 1v12l10.500-6z";
const BACK_TO_DOT = "M17 1v12L8 7zM2 7a3 3 0 1 0 6 0a3 3 0 1 0-6 0", ON_TO_DOT = "M3 1v12L12 7zM12 7a3 3 0 1 0 6 0a3 3 0 1 0-6 0";

// The breakpoints of a file as lines that have code: one in a line without is one in the next line that has some
function breaksOf(bench, file, hits) {
  const tab = file && bench.tabs.get(file.name);
  if (!tab) return new Set();
  const lines = [...hits.keys()].sort((a, b) => a - b);
  return new Set([...tab.breaks].map(line => lines.find(other => other >= line)).filter(Boolean));
}
function runOver(bench, direction) {
  bench.go(stepping => {
    const { program, micro } = bench.result.ran.setting;
    stepping.run(direction, breaksOf(bench, program, stepping.hits), breaksOf(bench, micro, stepping.microHits), bench.watched);
  });
}

// name, icon or text, title, key, what it does; a null divides the groups
const STEPS = [
  ["first", TO_START, "first cycle", "Home", bench => bench.go(s => s.go(0))],
  ["run-back", BACK_TO_DOT, "back to a breakpoint or a write of the watched word", "Shift+F8", bench => runOver(bench, -1)],
  null,
  ["line-back", "‹ line", "previous line", "Page up", bench => bench.go(s => s.lineStep(-1))],
  ["instruction-back", LEFT_TWICE, "previous instruction", "↑", bench => bench.go(s => s.step(-1))],
  ["back", LEFT, "previous cycle", "←", bench => bench.go(s => s.cycle(-1))],
  null,
  ["on", RIGHT, "next cycle", "→", bench => bench.go(s => s.cycle(1))],
  ["instruction", RIGHT_TWICE, "next instruction", "↓", bench => bench.go(s => s.step(1))],
  ["line", "line ›", "next line", "Page down", bench => bench.go(s => s.lineStep(1))],
  ["over", "over ›", "next line, over calls; with Shift: back", "F10", bench => bench.go(s => s.over(1))],
  ["out", "out ›", "out of this method; with Shift: back to its call", "F11", bench => bench.go(s => s.out(1))],
  null,
  ["run-on", ON_TO_DOT, "on to a breakpoint or a write of the watched word", "F8", bench => runOver(bench, 1)],
  ["last", TO_END, "last cycle", "End", bench => bench.go(s => s.go(s.trace.count - 1))],
];
const actionOf = name => STEPS.find(step => step && step[0] === name)[4];

const PLAIN_KEYS = {
  ArrowLeft: "back", ArrowRight: "on", ArrowUp: "instruction-back", ArrowDown: "instruction", PageUp: "line-back", PageDown: "line",
  Home: "first", End: "last",
};
const FUNCTION_KEYS = { F8: [1, runOver], F10: [1, (bench, d) => bench.go(s => s.over(d))], F11: [1, (bench, d) => bench.go(s => s.out(d))] };

// Does what a key says, and returns whether it was one of the steps
export function stepByKey(bench, event) {
  if (!bench.stepping || event.ctrlKey || event.metaKey || event.altKey) return false;
  const named = FUNCTION_KEYS[event.key];
  if (named) {
    named[1](bench, event.shiftKey ? -1 : 1);
    return true;
  }
  const { target } = event, types = /^(TEXTAREA|INPUT|SELECT)$/.test(target.tagName) && target.type !== "range";
  const moves = target.closest("[role=tablist], [role=separator], dialog, .scroll") !== null;
  if (event.shiftKey || types || moves || !PLAIN_KEYS[event.key]) return false;
  actionOf(PLAIN_KEYS[event.key])(bench);
  return true;
}

export function buildStepper(bench) {
  const parts = STEPS.map(step => {
    if (!step) return element("i", {});
    const [name, shown, title, key, action] = step, text = `${title} (${key})`;
    const made = button(shown.includes("M") ? "" : shown, () => action(bench), { id: `step-${name}`, title: text, "aria-label": text });
    if (shown.includes("M")) made.append(iconOf(shown));
    return made;
  });
  fill(byId("steps"), ...parts);
  byId("slider").addEventListener("input", event => bench.go(s => s.go(+event.target.value)));
  byId("cycle").addEventListener("change", event => { if (event.target.value !== "") bench.go(s => s.go(+event.target.value - s.trace.first)); });
}

const WITH_STEPS = ["console", "datapath", "state", "memory"];

export function renderStepper(bench) {
  const { stepping } = bench;
  byId("stepper").hidden = !stepping || !WITH_STEPS.includes(bench.view);
  if (!stepping) return;
  const { trace, place } = stepping, cycle = trace.first + place, slider = byId("slider"), number = byId("cycle");
  slider.max = trace.count - 1;
  slider.value = place;
  slider.setAttribute("aria-valuetext", `cycle ${cycle}`);
  if (document.activeElement !== number) {
    number.min = trace.first;
    number.max = trace.last;
    number.value = cycle;
  }
  fill(byId("where"), ...whereParts(bench, trace, place, stepping));
}

function whereParts(bench, trace, place, stepping) {
  const k = trace.instructionAt(place), { place: begin, text } = trace.begins[k], end = trace.endOf(k), line = stepping.line();
  const { program } = bench.result.ran.setting, isShown = bench.current && bench.current.name === program.name;
  const range = trace.count < trace.total ? `, here ${thousands(trace.first)}–${thousands(trace.last)}` : "";
  const isCut = end === trace.count && trace.cut;
  return [
    "cycle ", element("b", {}, thousands(trace.first + place)), soft(` of ${thousands(trace.total)}${range}`), "   ",
    line ? element("span", {}, isShown ? "line " : `${program.name} line `, element("b", {}, String(line)), "   ") : null,
    element("b", {}, text), soft(`  its cycle ${place - begin + 1}${isCut ? "" : ` of ${end - begin}`}`),
    stepping.stopped ? element("span", { className: "hit" }, `  ■ ${stepping.stopped}`) : null,
  ];
}
