// Mic-3: what issues, computes and retires in the present cycle, why a statement waits, and the cycles around it.
import { WAITS } from "../machine/pipeline.js";
import { joined, shownByte } from "../machine/sentences.js";
import { CONSOLE, MACHINES, hex } from "../machine/word.js";
import { byId, cell, element, fill, headRow, intoSight, soft, tableRow } from "./dom.js";

const NEAR_ROWS = 60;
const STAGES = [["issued", "issues"], ["computed", "computes"], ["retired", "retires"]];

const stageBox = ([name, title]) => element("section", { className: "stage", id: `stage-${name}`, "aria-label": title },
  element("h2", {}, title), element("div", {}));
const latch = () => element("span", { className: "latch", "aria-hidden": "true" }, "▸");

export function buildPipeline(box) {
  const [issues, computes, retires] = STAGES.map(stageBox);
  fill(box,
    element("div", { className: "stages" }, issues, latch(), computes, latch(), retires),
    element("ol", { className: "words", id: "pipeline-words" }),
    element("div", { className: "scroll", id: "pipeline-box", tabIndex: 0 }, element("table", { className: "rows", id: "pipeline-cycles" })));
}

const named = statement => (statement ? `${statement.label === "-" ? hex(statement.mpc, 3) : statement.label}` : "");

export function renderPipeline(bench) {
  const { trace, place } = bench.stepping;
  for (const [name] of STAGES) fillStage(name, trace, place);
  fill(byId("pipeline-words"), ...pipelineSentences(trace, place).map(text => element("li", {}, text)));
  const rows = [headRow("#cycle", "issues", "computes", "retires", "why it waits", "after the edge")];
  let here = null;
  for (let i = Math.max(0, place - NEAR_ROWS); i < Math.min(trace.count, place + NEAR_ROWS); i++) {
    const row = cycleRow(trace, i, i === place);
    row.addEventListener("click", () => bench.go(stepping => stepping.go(i)));
    if (i === place) here = row;
    rows.push(row);
  }
  fill(byId("pipeline-cycles"), ...rows);
  intoSight([[byId("pipeline-box"), here]]);
}

// What a statement has in each stage, in lines
const VALUES = {
  issued: ({ a, b }, trace, i) => [a && `A  ${a} ${hex(trace.columns.a[i])}`, b && `B  ${b} ${hex(trace.columns.b[i])}`],
  computed: (statement, { columns }, i) => [
    statement.computes && `${statement.operation}  ${hex(columns.alu[i])}`,
    statement.shift && `${statement.shift}  ${hex(columns.c[i])}`,
    statement.jamn && `N ${columns.flags[i] & 1}`,
    statement.jamz && `Z ${columns.flags[i] >> 1}`,
  ],
  retired: ({ loads, write, read }, trace, i) => [
    loads.length > 0 && `${joined(loads.slice().reverse())} ▸ ${hex(trace.register(loads[0], i + 1))}`,
    write && "wr",
    read && "rd",
  ],
};

function fillStage(name, trace, place) {
  const statement = trace.slot(name, place), box = byId(`stage-${name}`);
  box.classList.toggle("on", statement !== null);
  if (!statement) {
    const waits = `${named(trace.statementAt(place))} waits: ${WAITS[trace.columns.why[place]]}`;
    fill(box.lastChild, soft(name === "issued" ? waits : "empty"));
    return;
  }
  const values = VALUES[name](statement, trace, place).filter(Boolean).map(text => element("div", {}, text));
  fill(box.lastChild, element("b", {}, `${hex(statement.mpc, 3)} ${named(statement)}`),
    element("div", { className: "statement" }, statement.text), ...values);
}

const SHOWN_CHANGES = MACHINES.mic2.registers.filter(name => !["BYTES", "IMAR", "PC", "MPC"].includes(name));

// What the edge at the end of a cycle changes
function changesAt(trace, i) {
  const after = name => hex(trace.register(name, i + 1));
  const changed = SHOWN_CHANGES.filter(name => trace.register(name, i) !== trace.register(name, i + 1)).map(name => `${name} ${after(name)}`);
  const statement = trace.accessAt(i), isConsole = trace.register("MAR", i + 1) === CONSOLE, byte = trace.register("MDR", i + 1) & 255;
  if (statement && statement.write && isConsole) changed.push(`the byte ${hex(byte, 2)} (${shownByte(byte)}) is written`);
  else if (statement && statement.write) changed.push(`word ${after("MAR")} is written`);
  if (statement && statement.read) changed.push(`word ${after("MAR")} is read`);
  if (trace.columns.boundary[i] >= 0) changed.push(`MPC ${hex(trace.register("MPC", i + 1), 3)}: a boundary`);
  return changed;
}

function cycleRow(trace, i, isHere) {
  const why = trace.columns.why[i], stages = STAGES.map(([name]) => cell(named(trace.slot(name, i)), "name"));
  if (why) stages[0] = cell(`(${named(trace.statementAt(i))})`, "soft");  // it waits
  const row = tableRow(isHere ? "here" : "", cell(String(trace.first + i), "n"), ...stages, cell(WAITS[why], "what"),
    cell(changesAt(trace, i).join(", ")));
  if (isHere) row.setAttribute("aria-current", "step");
  return row;
}

export function pipelineSentences(trace, i) {
  const issued = trace.slot("issued", i), computed = trace.slot("computed", i), retired = trace.slot("retired", i), { columns } = trace, said = [];
  if (issued) {
    const operands = [issued.a && `${issued.a} (${hex(columns.a[i])}) on A`, issued.b && `${issued.b} (${hex(columns.b[i])}) on B`].filter(Boolean);
    said.push(`${named(issued)} issues${operands.length ? `, with ${joined(operands)}` : ""}.`);
  } else {
    said.push(`${named(trace.statementAt(i))} waits: ${WAITS[columns.why[i]]}.`);
  }
  if (computed) {
    const result = computed.computes ? ` ${computed.operation}: ${hex(columns.alu[i])}` : ", without a result";
    said.push(`${named(computed)} computes${result}.`);
  }
  if (retired) said.push(`${named(retired)} retires.`);
  const changes = changesAt(trace, i);
  if (changes.length) said.push(`After the edge: ${changes.join(", ")}.`);
  return said;
}
