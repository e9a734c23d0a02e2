// The report of a run, read, and in words.
import { MACHINES } from "../machine/word.js";
import { endWords } from "./words.js";

export const machineName = machine => (machine === "mic3" ? "Mic-3" : MACHINES[machine].name);
export const thousands = number => number.toLocaleString("en-US");

const pairs = parts => Object.fromEntries(parts.filter((_, k) => k % 2 === 0).map((name, k) => [name, parts[2 * k + 1]]));

// `text` is what mic has printed on standard error; the report are its last lines
export function readReport(text) {
  const all = text.split("\n").filter(Boolean), from = all.findIndex(line => line.startsWith("end "));
  if (from < 0) return null;
  const lines = all.slice(from), report = { lines, end: lines[0].slice(4), cycles: 0, instructions: 0, boundary: null, registers: {} };
  for (const line of lines) {
    const parts = line.split(" ");
    if (parts[0] === "cycles") [report.cycles, report.instructions] = [+parts[1], +parts[3]];
    if (parts[0] === "boundary" && parts.length > 2) {
      report.boundary = { cycle: +parts[1], address: parseInt(parts[3], 16), sp: parts[5], lv: parts[7] };
    }
    if (parts[0] === "MAR") report.registers = pairs(parts);
    if (parts[0] === "cache") report.cache = { lines: +parts[2], hits: +parts[4], misses: +parts[6] };
  }
  return report;
}

// Where the run was at its last boundary: "line 12 of hanoi.jas (in move)"
function whereOf({ boundary }, setting, program) {
  if (!boundary) return { text: "", line: 0 };
  const line = program.lines.get(boundary.address) || 0, unit = program.unitAt(boundary.address);
  if (!line) return { text: `address ${boundary.address.toString(16).padStart(8, "0")}`, line };
  return { text: `line ${line} of ${setting.program.name}${unit ? ` (in ${unit.name})` : ""}`, line };
}

// The report as sentences: {text, line, isBad}
export function reportInWords(report, setting, program, { length, isFull }, sentences) {
  const where = whereOf(report, setting, program), waits = report.end === "read-fault";
  const places = { bound: thousands(setting.bound), address: report.end.slice(-8) };
  const text = waits ? `The program waits for input, in ${where.text}.` : endWords(sentences, report.end, places, where.text);
  const said = [{ text, line: where.line, isBad: report.end !== "halt" && !waits }];
  const machine = machineName(setting.machine) + (setting.micro ? ` with ${setting.micro.name}` : "");
  const each = report.instructions ? `, ${(report.cycles / report.instructions).toFixed(1)} cycles each` : "";
  said.push({ text: `${machine} took ${thousands(report.cycles)} cycles for ${thousands(report.instructions)} instructions${each}.` });
  const wrote = length === 0 ? "nothing" : length === 1 ? "1 byte" : `${thousands(length)} bytes`;
  said.push({ text: isFull ? `It wrote more than ${wrote}, and was stopped there.` : `It wrote ${wrote}.` });
  return said;
}
