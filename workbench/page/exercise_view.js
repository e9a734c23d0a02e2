// The exercises: their list, a task, and the check of a solution by the cases.
import { counted } from "../machine/sentences.js";
import { thousands } from "../mic/report.js";
import { textOfBytes } from "../program/bytes.js";
import { exerciseOptions, gradeCase } from "../program/exercise.js";
import { button, byId, cell, element, fill, headRow, link, soft, tableRow } from "./dom.js";
import { markdown } from "./markdown.js";
import { showPart } from "./parts.js";
import { verdictParts } from "./proof_view.js";

const SHOWN = 300;              // letters of an input or output

const fileOf = exercise => `${exercise.name}.${exercise.kind}`;
const fullPoints = rows => rows.reduce((sum, row) => sum + row.of, 0);
const gotPoints = rows => rows.reduce((sum, row) => sum + row.points, 0);

export function renderExerciseList(bench) {
  const results = bench.store.settings().results || {};
  fill(byId("exercises"), ...bench.lessons.exercises.map(exercise => {
    const result = results[exercise.name], isFull = result && result[0] === result[1];
    const made = button("", () => openExercise(bench, exercise), { className: bench.exercise === exercise ? "on" : "", title: exercise.name });
    made.append(element("span", {}, exercise.title));
    if (result) made.append(element("span", { className: isFull ? "full" : "part" }, isFull ? "✓" : `${result[0]}/${result[1]}`));
    return element("li", {}, made);
  }));
}

function openExercise(bench, exercise) {
  bench.exercise = exercise;
  bench.graded = null;
  bench.set("machine", exerciseOptions(exercise).machine);
  if (exercise.lines) byId("cache-lines").value = exercise.lines;
  if (exercise.kind === "mal") bench.set("program", (bench.exercisePrograms()[0] || { name: "" }).name);
  bench.view = "exercise";
  if (bench.store.has(fileOf(exercise))) bench.openFile(fileOf(exercise));
  bench.changed("all");
}

export function buildExercise(bench, box) { fill(box, element("p", { className: "empty" }, "Choose an exercise in the list at the left.")); }

export function renderExercise(bench, box) {
  const { exercise, graded } = bench;
  if (!exercise) return;
  const file = fileOf(exercise), exists = bench.store.has(file), tab = bench.tabs.get(file);
  const isStale = graded && tab !== undefined && tab.text !== graded.text;
  const runsWith = [exercise.options, exercise.lines ? `a cache of ${exercise.lines} lines` : ""].filter(Boolean).join(" ");
  const bar = element("div", { className: "todo" },
    button(exists ? `open ${file}` : `begin ${file}`, () => begin(bench, exercise, exists), { id: "begin-exercise" }),
    button("Check", () => check(bench, exercise), { className: "go", id: "check-exercise", disabled: !exists }),
    exists ? button("begin anew", () => anew(bench, exercise), { title: "a new file with the start" }) : null,
    ...(graded ? pointsParts(graded, isStale) : []));
  const note = runsWith ? element("p", { className: "soft" }, `It runs with ${runsWith}.`) : null;
  fill(box, markdown(exercise.task), note, bar, ...exerciseProof(bench, exercise, graded), casesTable(bench, exercise, graded));
}

function pointsParts({ rows }, isStale) {
  const got = gotPoints(rows), full = fullPoints(rows), passed = rows.filter(row => row.passed).length;
  const cycles = thousands(rows.reduce((sum, row) => sum + row.cycles, 0)), when = isStale ? " (before your last change)" : "";
  return [
    element("span", { className: `points ${got === full ? "good" : "bad"}`, role: "status" }, `${got} of ${full} points`),
    soft(`${passed} of ${counted(rows.length, "case")} passed, ${cycles} cycles${when}`),
  ];
}

// What mic-check says of the microprogram, where the exercise asks for it. It gives no points
function exerciseProof(bench, exercise, graded) {
  if (!graded || !graded.proof) return [];
  const { verdict, missing } = graded.proof, file = { name: fileOf(exercise), text: graded.text };
  if (missing) return [element("p", { className: "soft" }, `Nothing is said of all programs: ${missing}.`)];
  const hint = !verdict.isProved && exercise.proved ? [element("p", {}, exercise.proved)] : [];
  return [element("div", { id: "exercise-proof" }, ...verdictParts(bench, { file, verdict }), ...hint)];
}

// A refusal is that of the cases too
async function proofOf(bench, file) {
  try {
    return { verdict: await bench.mic.judge(file) };
  } catch (error) {
    if (error.name === "BadModule") return { missing: error.message };
    if (error.refusal) return null;
    throw error;
  }
}

function begin(bench, exercise, exists) {
  const file = fileOf(exercise);
  if (exists) bench.openFile(file);
  else bench.newFile(file, exercise.start || "");
  bench.changed("all");
  showPart("editor");
  byId("editor").querySelector("textarea").focus();
}
function anew(bench, exercise) {
  bench.newFile(fileOf(exercise), exercise.start || "");
  bench.say("The start is a file of its own now; Check takes the one with the exercise's name.");
}

function check(bench, exercise) {
  return bench.during("checking", async () => {
    const name = fileOf(exercise);
    if (!bench.tabs.has(name)) bench.openFile(name);
    const file = bench.textOf(name), rows = [];
    bench.graded = null;
    if (exercise.proved !== null) bench.busy.text = "proving";
    const proof = exercise.proved === null ? null : await proofOf(bench, file);
    for (const one of exercise.cases) {
      bench.busy.text = `case ${one.name}`;
      rows.push(await gradeCase(bench.mic, exercise, one, file));
    }
    bench.graded = { rows, proof, text: file.text };
    const { results = {} } = bench.store.settings();
    bench.store.keepSettings({ results: { ...results, [exercise.name]: [gotPoints(rows), fullPoints(rows)] } });
    const refused = rows.find(row => row.refusal && row.refusal.file === name);
    if (refused) bench.tabs.get(name).checked = { refusal: refused.refusal };
  });
}

// An input or output: its newlines are seen, and a byte that is no letter has its number
function seen(text) {
  if (text === "") return "(nothing)";
  const shown = text.slice(0, SHOWN).replace(/[\udc80-\udcff]/g, sign => `\\x${(sign.charCodeAt(0) - 0xdc00).toString(16)}`);
  return shown.replace(/\n/g, "↵\n").replace(/\n$/, "") + (text.length > SHOWN ? "…" : "");
}

function casesTable(bench, exercise, graded) {
  const hasMisses = exercise.cases.some(one => one.misses !== null);
  const rows = exercise.cases.map((one, k) => caseRow(bench, exercise, one, graded ? graded.rows[k] : null, hasMisses));
  const head = headRow("", "case", "input", "wanted", "given", "#cycles", ...(hasMisses ? ["#misses"] : []), "");
  return element("table", { className: "rows cases" }, head, ...rows);
}

// How many there were, of how many that are allowed
function limitText(row, most, value) {
  const limit = most === null ? "" : `of ${thousands(most)}`;
  return row ? `${thousands(value || 0)} ${limit}`.trim() : limit;
}
function caseRow(bench, exercise, one, row, hasMisses) {
  const isFailed = row !== null && !row.passed, look = row === null ? "mark" : row.passed ? "mark good" : "mark bad";
  const given = isFailed && row.given ? element("span", { className: "bad" }, seen(textOfBytes(row.given))) : "";
  const reason = isFailed ? element("div", { className: "soft text" }, row.reason) : "";
  return tableRow("", cell(row === null ? "–" : row.passed ? "✓ passed" : "✗ failed", look), cell(one.name, "text"),
    cell(seen(one.input), "wrap"), cell(seen(one.output), "wrap"), element("td", { className: "wrap" }, given, reason),
    cell(limitText(row, one.cycles, row && row.cycles), "n"),
    ...(hasMisses ? [cell(limitText(row, one.misses, row && row.misses), "n")] : []),
    element("td", {}, link("try", () => tryCase(bench, exercise, one), { title: "run it with this input, and the case's program" })));
}

function tryCase(bench, exercise, one) {
  const file = fileOf(exercise);
  bench.input = one.input;
  bench.inputEnds = true;
  if (bench.store.has(file)) bench.openFile(file);
  if (exercise.kind === "mal") bench.set("program", one.program ? `(${one.name} of ${exercise.name})` : `(program of ${exercise.name})`);
  bench.view = "console";
  bench.run(false);
}

