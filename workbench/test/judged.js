// judged.js MIC MIC-CHECK <FILES >JUDGED: what the workbench says of microprograms, without a page: a line of JSON for each of FILES, which
// is a list of {name, text}. It has the sentence, the table's rows or the first difference, its statements with their lines, and the rest.
import { readFileSync } from "node:fs";
import { NativeEngine } from "./native_engine.js";
import { Mic } from "../mic/mic.js";
import { saidOf } from "../page/proof_view.js";

const folder = new URL("../../classroom/mictools/", import.meta.url);
const shared = name => JSON.parse(readFileSync(new URL(`${name}.json`, folder), "utf8"));
const mic = new Mic(new NativeEngine(process.argv[2], process.argv[3]), { messages: shared("messages"), sentences: shared("sentences") });

for (const file of JSON.parse(readFileSync(0, "utf8"))) {
  let line;
  try {
    const verdict = await mic.judge(file);
    line = { said: saidOf({ file, verdict }), ...verdict };
  } catch (error) {
    line = { refusal: error.refusal || null, error: `${error.name}: ${error.message}` };
  }
  process.stdout.write(JSON.stringify(line) + "\n");
}
