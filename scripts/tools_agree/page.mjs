// page.mjs WORKBENCH MIC <TASKS: what the workbench's page says of refused texts and of two microprograms, a line of JSON for each task.
// A task is {file: {name, text}} or {program, micro, other, machine, bound, input}, where files are {name, text} or null.
import { readFileSync } from "node:fs";
import { pathToFileURL } from "node:url";

const [workbench, program] = process.argv.slice(2), at = name => pathToFileURL(`${workbench}/${name}`);
const { NativeEngine } = await import(at("test/native_engine.js"));
const { Mic, Refused } = await import(at("mic/mic.js"));
const { filled } = await import(at("mic/words.js"));
const shared = name => JSON.parse(readFileSync(at(`../classroom/mictools/${name}.json`), "utf8"));
const texts = { messages: shared("messages"), sentences: shared("sentences") };
const mic = new Mic(new NativeEngine(program), texts);

async function refusalOf({ name, text }) {
  try {
    await mic.check({ name, text }, name.split(".").pop(), "mic1", "standard");
  } catch (error) {
    if (error instanceof Refused) return error.refusal;
    throw error;
  }
  return null;
}

async function differenceOf({ other, ...setting }) {
  const found = await mic.difference({ map: "standard", ...setting }, other), sentences = texts.sentences.difference;
  const what = found.what.map(({ key, name, values }) => ({ what: filled(sentences[key], { name, address: name }), values }));
  return { same: found.isSame, boundaries: found.boundaries, after: found.after, what, costs: found.costs };
}

for (const task of JSON.parse(readFileSync(0, "utf8"))) {
  console.log(JSON.stringify(task.file ? await refusalOf(task.file) : await differenceOf(task)));
}
