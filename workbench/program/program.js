// What is known of a program: its lines and names from the source, its units, words and reached instructions from mic.
import { linesOfSource } from "./source.js";
import { linesOfTiny } from "./tiny.js";

// Of a source alone, also of one that is refused. `compiled` is the text that mic has compiled, for a program in Tiny
export function linesOf(kind, text, compiled) {
  const found = kind === "tiny" ? linesOfTiny(text, compiled) : linesOfSource(text);
  for (const [header, unit] of found.units) unit.header = header;
  const headers = [...found.units.keys()].sort((a, b) => a - b);
  found.unitAt = address => found.units.get(headers.filter(header => header <= address).pop()) || null;
  return found;
}

// `mic list`: the constants, the reached instructions by their addresses, and the headers of methods
export function readListing(text) {
  const listing = { pool: [], instructions: new Map(), methods: [] };
  for (const line of text.split("\n")) {
    const pool = /^pool \d+ ([0-9a-f]{8})$/.exec(line), method = /^([0-9a-f]{8}) method (\d+) (\d+)$/.exec(line);
    const instruction = /^([0-9a-f]{8}) (?!byte |method )(.+)$/.exec(line);
    if (pool) listing.pool.push(parseInt(pool[1], 16));
    else if (method) listing.methods.push({ header: parseInt(method[1], 16), parameters: +method[2], locals: +method[3] });
    else if (instruction) listing.instructions.set(parseInt(instruction[1], 16), instruction[2]);
  }
  return listing;
}

// The lines, where each reached instruction is the one that mic lists; else none, and never wrong ones
export function checkedLines(lines, listing) {
  const agrees = [...listing.instructions].every(([address, text]) => !lines.texts.size || lines.texts.get(address) === text);
  return agrees ? lines : { ...lines, lines: new Map(), units: new Map(), unitAt: () => null };
}

export function unitsOf(lines, listing, mainLocals) {
  const named = header => lines.units.get(header) || { name: header < 0 ? "main" : `the method at ${header.toString(16)}`, names: [] };
  const main = { header: -1, parameters: 0, locals: mainLocals, ...pick(named(-1)) };
  return [main, ...listing.methods.map(method => ({ ...method, ...pick(named(method.header)) }))];
}
const pick = ({ name, names }) => ({ name, names });


