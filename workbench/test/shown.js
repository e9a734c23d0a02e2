// shown.js MIC <RUNS >SHOWN: what the workbench shows of runs, without a page: a line of JSON for each run, of all cycles the texts of
// the drawing and the wires that are lit. RUNS is a list of {program, micro, machine, map, bound, input, from, most}.
import { readFileSync } from "node:fs";
import { NativeEngine } from "./native_engine.js";
import { framesOf, meaningOf } from "../machine/frames.js";
import { factsOf } from "../machine/facts.js";
import { pipelineSentences } from "../page/pipeline_view.js";
import { sentencesOf } from "../machine/sentences.js";
import { TraceReader } from "../machine/reader.js";
import { Stepping } from "../machine/stepping.js";
import { Mic } from "../mic/mic.js";
import { bytesOfText } from "../program/bytes.js";
import { shownText, tableOf } from "../drawing/picture.js";

const folder = new URL("../../classroom/mictools/", import.meta.url);
const shared = name => JSON.parse(readFileSync(new URL(`${name}.json`, folder), "utf8"));
const mic = new Mic(new NativeEngine(process.argv[2]), { messages: shared("messages"), sentences: shared("sentences") });

function drawn(trace, place, table) {
  const facts = factsOf(trace, place);
  const fields = Object.fromEntries(table.texts.filter(text => text.field).map(text => [text.field, shownText(text, facts)]));
  const wires = table.wires.filter(wire => wire.lit(facts) && !(wire.hidden && wire.hidden(facts))).map(wire => wire.name);
  const trunks = table.trunks.filter(trunk => trunk.lit(facts)).map(trunk => trunk.kind);
  return { fields, wires, trunks, sentences: sentencesOf(facts), instruction: facts.instruction, ordinal: facts.ordinal };
}

function piped(trace, place) {
  const label = name => (slot => (slot ? slot.label : ""))(trace.slot(name, place));
  return { stages: ["issued", "computed", "retired"].map(label), why: trace.columns.why[place], sentences: pipelineSentences(trace, place) };
}

// The words of the running frame, as [address, value, meaning]
function frame(trace, place) {
  const [{ unit, lv, sp }] = framesOf(trace, place), rows = [];
  for (let address = lv; address <= Math.min(sp, lv + 40); address++) {
    const value = trace.word(address, place);
    rows.push([address, value, unit ? meaningOf(unit, address - lv, value) : ""]);
  }
  return rows;
}

// How many cycles have other buses where they are computed than where mic prints them
async function busDifferences(ran, { columns, count }, from, most, setup) {
  const answer = await mic.answer(ran.call.run("trace", [], { input: bytesOfText(ran.setting.input) }));
  const reader = new TraceReader(setup, from, most, false);
  reader.feed(answer.err);
  const computed = reader.finish().columns, names = ["a", "b", "alu", "c", "flags", "stalled"];
  let differences = 0;
  for (let i = 0; i < count; i++) {
    if (names.some(name => columns[name][i] !== computed[name][i] && !(columns.stalled[i] && name !== "stalled"))) differences++;
  }
  return differences;
}

async function shown({ from = 1, most = 20_000, ...given }) {
  const setting = { machine: "mic1", map: "standard", bound: 10_000_000, micro: null, input: "", ...given };
  const ran = await mic.run(setting), { trace, microLines } = await mic.trace(ran, from, most);
  const stepping = new Stepping(trace, ran.program.lines, microLines);
  const table = trace.machine === "mic3" ? null : tableOf(trace.machine), cycles = [];
  for (let place = 0; place < trace.count; place++) {
    stepping.go(place);
    const one = table ? drawn(trace, place, table) : piped(trace, place);
    cycles.push({ cycle: trace.first + place, line: stepping.line(), frame: frame(trace, place), ...one });
  }
  const computed = table ? await busDifferences(ran, trace, from, most, trace.setup) : 0;
  return { computed, first: trace.first, count: trace.count, cycles };
}

for (const run of JSON.parse(readFileSync(0, "utf8"))) {
  let line;
  try {
    line = await shown(run);
  } catch (error) {
    line = { error: `${error.name}: ${error.message}` };
  }
  process.stdout.write(JSON.stringify(line) + "\n");
}
