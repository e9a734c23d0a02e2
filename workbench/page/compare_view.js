// Two microprograms over one program: the first difference, or the cycles of each instruction.
import { hex } from "../machine/word.js";
import { machineName, thousands } from "../mic/report.js";
import { capital, filled } from "../mic/words.js";
import { button, byId, cell, element, fill, headRow, tableRow } from "./dom.js";

const SHOWN_STATEMENTS = 40;

export function buildCompare(bench, box) {
  fill(box, element("div", { className: "todo" },
    element("select", { id: "micro-one", "aria-label": "one microprogram" }), "and",
    element("select", { id: "micro-other", "aria-label": "the other microprogram" }),
    button("Compare", () => runCompare(bench), { className: "go", id: "go-compare" }), element("span", { className: "soft", id: "compare-over" })),
  element("div", { id: "compared" }));
}

// The program over which they are compared: the one that is shown, or the one that is chosen for a microprogram
function programName(bench) {
  const { current, settings } = bench;
  return current && current.kind === "mal" ? settings.program : current ? current.name : "";
}

function runCompare(bench) {
  const names = ["micro-one", "micro-other"].map(id => byId(id).value);
  return bench.during("comparing", async () => {
    const program = bench.textOf(programName(bench)), { machine } = bench.settings;
    if (!program) throw new Error("Choose a program over which they are compared, at the top.");
    if (machine === "mic3") throw new Error("Mic-3 clocks the microprogram that ships, and no other: choose Mic-1 or Mic-2.");
    bench.clear();
    const [one, other] = names.map(name => (name ? bench.textOf(name) : null));
    const setting = { ...bench.settings, program, micro: one, input: bench.input };
    const found = await bench.mic.difference(setting, other);
    bench.result = { ...bench.result, difference: { found, names, setting } };
    bench.view = "compare";
  });
}

export function renderCompare(bench) {
  const { difference } = bench.result, mals = bench.allNames(["mal"]), { current, settings } = bench;
  const otherwise = ["", current && current.kind === "mal" ? current.name : settings.micro || mals[0] || ""];
  ["micro-one", "micro-other"].forEach((id, k) => {
    const chosen = difference ? difference.names[k] : byId(id).options.length ? byId(id).value : otherwise[k];
    fill(byId(id), element("option", { value: "" }, "as it ships"), ...mals.map(name => element("option", { value: name }, name)));
    byId(id).value = chosen;
  });
  const program = difference ? difference.setting.program.name : programName(bench);
  byId("compare-over").textContent = program ? `over ${program} on ${machineName(settings.machine)}` : "choose a program at the top";
  fill(byId("compared"), ...(difference ? differenceParts(bench, difference) : []));
}

function differenceParts(bench, { found, names, setting }) {
  const sentences = bench.lessons.sentences.difference, titles = names.map(name => name || "as it ships");
  if (found.isSame) return sameParts(found, titles);
  const what = element("table", { className: "rows" }, headRow("", ...titles),
    ...found.what.map(({ key, name, values: [one, other] }) =>
      tableRow("", cell(filled(sentences[key], { name, address: name }), "name"), cell(one, "wrap"), cell(other, "wrap fresh"))));
  const lists = found.sides.map((side, k) => element("div", {}, element("table", { className: "rows" },
    element("tr", { className: "head" }, element("td", { colSpan: 4 }, titles[k])), ...statementRows(side, found.sides[1 - k]))));
  const from = found.sides[1].trace.first + found.sides[1].from;
  return [
    element("p", {}, element("span", { className: "bad" }, "The first difference"), " comes after ", element("b", {}, found.after),
      `, at boundary ${thousands(found.boundaries + 1)} (cycle ${thousands(found.cycles[0])} and cycle ${thousands(found.cycles[1])}).`),
    what, element("h2", {}, capital(sentences.cycles)), element("div", { className: "columns" }, ...lists),
    element("p", {}, button(`step through ${titles[1]} from cycle ${thousands(from)}`, () => stepThere(bench, names[1], setting, from))),
  ];
}

function fewerText(one, other) {
  if (one === other) return "as many";
  return one > other ? `${thousands(one - other)} fewer (${(100 * (one - other) / one).toFixed(1)} %)` : `${thousands(other - one)} more`;
}

function costRow([name, count, one, other]) {
  const counts = [count, one, other].map(number => cell(thousands(number), "n"));
  const look = other < one ? "n good" : other > one ? "n bad" : "n";
  return tableRow("", cell(name, "name"), ...counts, cell(one === other ? "" : thousands(one - other), look));
}

function sameParts({ isCut, boundaries, cycles: [one, other], costs }, titles) {
  const until = isCut ? ", until the bound or the most cycles that are compared." : ", and the same end.";
  const head = headRow("instruction", "#times", `#${titles[0]}`, `#${titles[1]}`, "#fewer");
  return [
    element("p", {}, element("span", { className: "good" }, "No difference"),
      ` at ${thousands(boundaries)} instruction boundaries: the same instructions, stack, output and input${until}`),
    element("p", {}, `${thousands(one)} cycles and ${thousands(other)}: ${fewerText(one, other)}.`),
    element("table", { className: "rows" }, head, ...costs.map(costRow)),
  ];
}

function statementRows({ trace, from, to }, other) {
  const textAt = (side, i) => side.trace.statementAt(i), texts = new Set();
  for (let i = other.from; i <= other.to; i++) texts.add(textAt(other, i).text);
  const rows = [];
  for (let i = Math.max(from, to - SHOWN_STATEMENTS); i <= to; i++) {
    const { mpc, label, text } = trace.statementAt(i);
    rows.push(tableRow(texts.has(text) ? "" : "changed", cell(String(trace.first + i), "n"), cell(hex(mpc, 3)), cell(label === "-" ? "" : label),
      cell(trace.isStalled(i) ? "stall" : text, "value")));
  }
  return rows;
}

function stepThere(bench, name, setting, cycle) {
  const isShown = bench.current && bench.current.kind === "mal";
  bench.set("micro", name);
  if (isShown && name) {
    bench.openFile(name);
    bench.set("program", setting.program.name);
  } else if (isShown) {
    bench.openFile(setting.program.name);
  }
  bench.view = "datapath";
  return bench.run(true, cycle);
}
