// A message of mic in words: the file, the line in it, what is meant by its numbers, and what to look for. The advice is that of the
// tables "What a message usually means" of the documents.
import { hex } from "../machine/word.js";
import { HEADER_BYTES } from "../program/source.js";
import { filled, verifierWords } from "./words.js";

const LANGUAGE = { jas: "ijvm", mal: "mal", tiny: "tiny" };
export const kindOf = name => (/\.(jas|mal|tiny)$/.exec(name) || ["", ""])[1];

// What the line may be, for those rows that hold of some lines alone: a name alone is a label without its colon, or no instruction
function lineKinds(line) {
  const code = line.split("//")[0].trim();
  if (code.startsWith(".")) return ["section"];
  return /^[A-Za-z_]\w*\s*:$/.test(code) ? ["label"] : /^[A-Za-z_]\w*$/.test(code) ? ["instruction", "label"] : ["instruction"];
}

function adviceFor(messages, kind, text, line, number) {
  const rows = (messages[LANGUAGE[kind]] || []).filter(row => new RegExp(row.pattern).test(text));
  const fits = rows.filter(row => !row.on || lineKinds(line).includes(row.on)).concat(rows.filter(row => row.on === "line 1" && number === 1));
  return [...new Set(fits.map(row => row.advice))];
}

// What stands behind the numbers of a verifier's message: the unit, the local, the method that is called
function placesOf(text, address, program, sentences) {
  const unit = program.unitAt(address), local = /local (\d+)/.exec(text), called = /^INVOKEVIRTUAL (\d+)/.exec(program.texts.get(address) || "");
  const name = local && unit ? unit.names[+local[1] - (unit.header === -1 ? 0 : 1)] : null;
  return {
    unit: unit ? unit.name : "the program", address: hex(address),
    local: local ? (name ? filled(sentences.local, { number: local[1], name }) : `local ${local[1]}`) : "",
    method: called ? program.methods[+called[1] - program.constants.length] || "the method" : "the method",
  };
}

// The first instruction of a unit is come to from its beginning, and each other one from above, unless the instruction there never goes on
function firstWay(address, program, places, notes) {
  const unit = program.unitAt(address), begin = unit && (unit.header === -1 ? 0 : unit.header + HEADER_BYTES);
  if (address === begin) return [filled(notes["way begin"], places)];
  const above = program.texts.get(Math.max(...[...program.texts.keys()].filter(other => other < address)));
  return /^(GOTO|IRETURN|HALT|ERR)/.test(above) ? [] : [notes["way above"]];
}

function waysTo(address, program, places, notes) {
  const jumps = [...program.texts].filter(([, text]) => text.endsWith(` ${hex(address)}`)).map(([from]) => from);
  const lines = jumps.map(from => program.lines.get(from)).sort((a, b) => a - b);
  const ways = [...firstWay(address, program, places, notes), ...lines.map(line => filled(notes.way, { line }))];
  return filled(notes.ways, { ways: ways.join(", ") });
}

// The unit in whose header an address is, or undefined
const headerAt = (address, program) =>
  [...program.units.values()].find(({ header }) => header >= 0 && address >= header && address < header + HEADER_BYTES);

function notesOf(text, address, program, places, { notes }) {
  const header = headerAt(address, program);
  return [
    header ? filled(notes.header, { unit: header.name }) : "",
    text.startsWith("depth") ? waysTo(address, program, places, notes) : "",
    filled(notes.place, places),
  ].filter(Boolean).join("; ");
}

// `message` is mic's line; `files` has of each name that mic saw {name, text}; `program` the lines of the program;
// `texts` the shared texts: {messages, sentences}. A message of the verifier has `said`, mic's own words, beside the text.
export function readRefusal(message, files, program, { messages, sentences }) {
  const last = message.trim().split("\n").pop(), found = /^mic: (\w+\.\w+):(?:(\d+):)? (.*)$/.exec(last);
  if (!found || !files[found[1]]) return { file: null, line: 0, text: last.replace(/^mic: /, ""), said: "", notes: "", advice: [] };
  const file = files[found[1]], refusal = { file: file.name, line: +(found[2] || 0), text: found[3], said: "", notes: "" };
  const at = /^([0-9a-f]{8}) (.*)$/.exec(refusal.text), said = at ? at[2] : refusal.text;
  if (program && (at || !refusal.line)) {
    const address = at ? parseInt(at[1], 16) : 0, places = placesOf(said, address, program, sentences);
    const words = verifierWords(sentences, said, places);
    refusal.text = words || said;
    refusal.said = words ? said : "";
    if (at) {
      refusal.line = program.lines.get(address) || (headerAt(address, program) || {}).line || 0;
      refusal.notes = notesOf(said, address, program, places, sentences);
    }
  }
  const line = file.text.split("\n")[refusal.line - 1] || "";
  refusal.advice = adviceFor(messages, kindOf(file.name), said, line, refusal.line);
  return refusal;
}
