// Whether a microprogram is proved to interpret IJVM: its cycles beside those of the one that ships, or the first difference.
import { machineName } from "../mic/report.js";
import { button, byId, cell, element, fill, headRow, link, tableRow } from "./dom.js";
import { showPart } from "./parts.js";

export function buildProof(bench, box) {
  fill(box, element("div", { className: "todo" }, button("Prove", () => runProof(bench), { className: "go third", id: "go-proof" }),
    element("span", { className: "soft", id: "proof-of" })), element("div", { id: "proved" }));
}

// Why there is nothing to prove, or ""
export function whyNoProof({ ownMicro, settings: { machine } }) {
  if (ownMicro === "") return "Open a microprogram of your own, a file that ends in .mal, or choose one in the row at the top.";
  if (machine === "mic3") return "Mic-3 clocks the microprogram that ships, and no other. Those for Mic-1 can be proved: choose it at the top.";
  return machine === "mic1" ? "" : `Only microprograms for Mic-1 can be proved, not yet those for ${machineName(machine)}. Choose Mic-1 at the top.`;
}

export function runProof(bench) {
  const file = bench.textOf(bench.ownMicro);
  if (whyNoProof(bench) || !file) return bench.choose("proof");
  return bench.during("proving", async () => {
    const verdict = await bench.mic.judge(file);
    bench.clear();
    bench.result = { ...bench.result, proof: { file, verdict } };
    bench.view = "proof";
  });
}

export function renderProof(bench) {
  const { proof } = bench.result, why = whyNoProof(bench);
  byId("go-proof").hidden = why !== "";
  byId("go-proof").disabled = bench.busy !== null;
  byId("proof-of").textContent = why || `whether Mic-1 interprets IJVM with ${bench.ownMicro}, whatever the program and its input`;
  fill(byId("proved"), ...(proof ? proofParts(bench, proof) : []));
}

// The answer in a sentence
export function saidOf({ file, verdict }) {
  if (!verdict.isProved) return `Not shown of ${file.name}. ${verdict.text}`;
  return `Proved: with ${file.name} Mic-1 interprets IJVM. Cycles: ${comparedWords(verdict.rows)}.`;
}

function proofParts(bench, proof) {
  return [...verdictParts(bench, proof), ...(proof.verdict.isProved ? cycleParts(proof) : [])];
}

// The answer, and of a microprogram that is not shown the first difference. An exercise shows these too
export function verdictParts(bench, { file, verdict }) {
  const now = bench.textOf(file.name), when = now && now.text !== file.text ? " (before your last change)" : "";
  if (verdict.isProved) {
    return [element("p", {}, element("b", { className: "good" }, "Proved"), `${when}: with ${file.name} Mic-1 does what the definition of IJVM says, for every `
      + "program that the verifier accepts, every input and every bound.")];
  }
  return [
    element("p", {}, element("b", { className: "open" }, "Not shown"), `${when}: that Mic-1 interprets IJVM with ${file.name}. It may do so all the same: not every `
      + "microprogram that is right is recognised."),
    ...notShownParts(bench, file, verdict)];
}

// ---- proved

// How many cycles fewer this takes, case by case: where a jump is taken, and where it is not
const fewerOf = ({ own, shipped }) => own.counts.map((cycles, k) => shipped.counts[k] - cycles);

function comparedWords(rows) {
  const number = test => rows.filter(row => fewerOf(row).some(test)).length, quicker = number(fewer => fewer > 0), slower = number(fewer => fewer < 0);
  if (!quicker && !slower) return "as many as with the one that ships";
  const counted = [quicker ? `${quicker} instructions with fewer` : "", slower ? `${slower} with more` : ""].filter(Boolean);
  return counted.join(", and ");
}

const fewerIn = fewer => (fewer > 0 ? `${fewer} fewer` : fewer < 0 ? `${-fewer} more` : "as many");
function fewerWords(row) {
  const all = fewerOf(row);
  if (all.every(fewer => fewer === 0)) return "";
  return all.every(fewer => fewer === all[0]) ? fewerIn(all[0]) : `${fewerIn(all[0])}, or ${fewerIn(all[1])}`;
}

function instructionRow(row) {
  const words = fewerWords(row), isDearer = fewerOf(row).some(fewer => fewer < 0);
  return tableRow(words ? "other" : "", cell(row.name, "name"), cell(row.own.text), cell(row.shipped.text),
    cell(words, words ? isDearer ? "text dearer" : "text good" : ""));
}

function cycleParts({ file, verdict: { rows } }) {
  return [
    element("h2", {}, "Cycles ", element("span", {}, comparedWords(rows))),
    element("table", { className: "rows costs" }, headRow("instruction", file.name, "as it ships", ""), ...rows.map(instructionRow)),
  ];
}

// ---- not shown

// The statements of a way, as links to their lines
function wayParts(bench, file, way) {
  return way.flatMap(({ label, line }, k) => {
    const shown = line ? link(label, () => goToStatement(bench, file, line), { title: `line ${line} of ${file.name}` }) : element("span", {}, label);
    return k ? [" → ", shown] : [shown];
  });
}

function goToStatement(bench, file, line) {
  showPart("editor");
  bench.openFile(file.name, line);
}

// The first difference, and what else is not shown
function notShownParts(bench, file, { what, where, way, others, unfollowed }) {
  const [, name, rest] = /^(.*?)((?: where | with ).*)?$/.exec(where), names = list => list.map((name, k) => [k ? ", " : "", element("b", {}, name)]).flat();
  return [
    element("h2", {}, "The first difference"),
    element("p", { className: "difference" }, element("b", {}, name), rest || "", what ? ": " : "", element("b", {}, what)),
    way.length ? element("p", { className: "way" }, element("span", { className: "soft" }, "the statements: "), ...wayParts(bench, file, way)) : null,
    others.length ? element("p", {}, "Not shown either: ", ...names(others), ".") : null,
    unfollowed.length ? element("p", {}, "More is asked of these than is followed, so nothing is said of them: ", ...names(unfollowed), ".") : null,
  ].filter(Boolean);
}
