// One cycle in a few sentences, from its facts.
import { CONSOLE, hex } from "./word.js";

export const counted = (count, thing) => `${count.toLocaleString("en-US")} ${thing}${count === 1 ? "" : "s"}`;

export const joined = names =>
  (names.length < 2 ? names.join("") : names.slice(0, -1).join(", ") + " and " + names[names.length - 1]);

// A byte as it is written on one line
export function shownByte(byte) {
  if (byte >= 32 && byte < 127) return String.fromCharCode(byte);
  return { 9: "\\t", 10: "\\n", 13: "\\r" }[byte] || "\\x" + hex(byte, 2);
}

export function sentencesOf(facts) {
  return [
    ...(facts.stalled ? [stall(facts)] : operation(facts)),
    ...arrivals(facts),
    ...beginnings(facts),
    ...(facts.unit ? queue(facts) : []),
    ...following(facts),
  ];
}

function stall({ statement, unit }) {
  return `Stall: the statement takes ${counted(statement.demand, "byte")}, and the queue has ${unit.now.length || "none"}. No register changes.`;
}

function operation(facts) {
  const { machine, statement, buses, a, b, loads, flags } = facts;
  if (!facts.computes) return ["The ALU's value goes to no register."];
  const drives = [];
  if (a) drives.push(machine === "mic1" ? `H is on A (${hex(buses.a)})` : `${a} drives the A bus (${hex(buses.a)})`);
  if (b) drives.push(`${b} drives the B bus (${hex(buses.b)})`);
  const uses = side => new RegExp(`\\b${side}\\b`).test(statement.operation);
  const named = statement.operation.replace(/\bA\b(?!ND)/, () => (uses("A") ? a || "A" : "A")).replace(/\bB\b/, () => b || "B");
  let gives = `The ALU gives ${named}: ${hex(buses.alu)}`;
  if (statement.shift) gives += `; shifted by ${statement.shift}, that is ${hex(buses.c)}`;
  if (loads.length) gives += `. It goes over the C bus to ${joined(loads.slice().reverse())}`;
  if (statement.tests) gives += statement.jamn ? `. N is ${flags.N}` : `. Z is ${flags.Z}`;
  return [...(drives.length ? [joined(drives) + "."] : []), gives + "."];
}

function arrivals({ word, byte, loads }) {
  const said = [];
  if (word.waits) said.push(`The word read at ${hex(word.address)} waits.`);
  else if (word.arrives && word.isConsole) {
    said.push(`A byte of the input arrives in MDR: ${hex(word.data)} (${shownByte(word.data & 255)}).`);
  } else if (word.arrives) {
    const wins = loads.includes("MDR") ? " It wins over the C bus." : "";
    said.push(`The word read at ${hex(word.address)} arrives in MDR: ${hex(word.data)}.${wins}`);
  }
  if (byte && byte.fetching) said.push(`The byte fetched at ${hex(byte.address)} arrives in MBR: ${hex(byte.data, 2)}.`);
  return said;
}

function beginnings({ word, byte, stalled }) {
  const said = [], low = word.nextData & 255;
  const place = word.nextAddress === CONSOLE ? "the console" : `word ${hex(word.nextAddress)}`;
  if (word.begins === "write") {
    said.push(word.nextAddress === CONSOLE ? `wr: the console gets the byte ${hex(low, 2)} (${shownByte(low)}).`
      : `wr: ${place} becomes ${hex(word.nextData)}.`);
  }
  if (word.begins === "read") said.push(`rd: a read of ${place} begins.`);
  if (byte && byte.begins && !stalled) said.push(`fetch: a fetch of the byte at ${hex(byte.nextAddress)} begins.`);
  return said;
}

function queue({ unit }) {
  const said = [];
  if (unit.takes) {
    said.push(`The queue gives ${counted(unit.takes, "byte")} (${unit.now.slice(0, unit.takes).join(" ")}), and PC grows by ${unit.takes}.`);
  }
  if (unit.dropped) {
    said.push(`PC is set, so the queue is dropped. The word at ${hex(unit.nextAddress)} is read for it.`);
  } else if (unit.pending) {
    const skipped = unit.arrived < 4 ? `, without its first ${counted(4 - unit.arrived, "byte")}` : "";
    said.push(`The word at ${hex(unit.address)} enters the queue${skipped}.`);
  }
  return said;
}

function following({ stalled, statement, next, follows, end }) {
  const said = [];
  if (!stalled) {
    const to = hex(next.mpc, 3) + (next.label ? " " + next.label : "");
    if (next.byte) said.push(`Next: ${to}, by the byte ${next.byte}${statement.address ? ` OR ${hex(statement.address, 3)}` : ""}.`);
    else if (statement.tests) said.push(`Next: ${to}, because ${statement.jamn ? "N" : "Z"} is ${next.high ? 1 : 0}.`);
    else said.push(`Next: ${to}.`);
  }
  if (follows) said.push(`An instruction begins: ${follows}.`);
  if (end) said.push(`The run ends here: ${end}.`);
  return said;
}
