// The control store of a run: of each address its statement, and of each address its line in a microprogram of one's own.
import { statementOf } from "../machine/word.js";

const NO_LABEL = new Set(["rd", "wr", "fetch", "goto", "if"]);

// `mic micro` prints the address, the word and the statement; its first word is the label if it is a name
function placedStatement(line) {
  const [, mpc, text] = /^([0-9a-f]{3}) [0-9a-f]+ (.*)$/.exec(line), [first] = text.split(" ");
  const isLabel = /^[A-Za-z_]\w*$/.test(first) && !NO_LABEL.has(first);
  return [mpc, isLabel ? first : "-", isLabel ? text.slice(first.length + 1) || ";" : text];
}

// placed: what `mic micro` prints; listed: what `mic print-micro` prints of the store file
export function readStore(version, placed, listed, microText) {
  const rows = placed.split("\n").filter(line => /^[0-9a-f]{3} /.test(line)).map(placedStatement);
  const known = new Map(rows.map(([mpc, ...rest]) => [mpc, rest])), otherwise = defaultOf(microText);
  const statements = listed.split("\n").filter(Boolean).map(line => {
    const [mpc, word] = line.split(" ", 2), [label, text] = known.get(mpc) || [".default", otherwise];
    return statementOf(version, mpc, label, text, word);
  });
  return { statements, lines: linesOfStatements(rows, microText) };
}

function defaultOf(text) {
  const found = text && /^\s*\.default\s+(.*?)\s*(?:\/\/.*)?$/m.exec(text);
  return found ? found[1] : "goto 0x0fe";
}

// mic lists the statements in the order of their lines
function linesOfStatements(rows, text) {
  if (!text) return new Map();
  const lines = text.split("\n").map((line, k) => [line.split("//")[0].trim(), k + 1]).filter(([code]) => code && !code.startsWith("."));
  return new Map(lines.length === rows.length ? rows.map(([mpc], k) => [parseInt(mpc, 16), lines[k][1]]) : []);
}
