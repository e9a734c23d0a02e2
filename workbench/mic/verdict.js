// What mic-check says of a microprogram, read: the table of cycles, or the first difference with its statements, and what else is not shown.

const NOT_SHOWN = "not shown: ", LISTS = { others: "not shown either: ", unfollowed: "too much is asked: " };

// `11 taken, 8 not`, or one count for all cases
function readCost(text) {
  const [, one, not, late] = /^(\d+)(?: taken, (\d+) not|, or (\d+) where .*)?$/.exec(text);
  return { text, counts: [one, not, late].filter(Boolean).map(Number) };
}

// `NAME COST (shipped COST)`
function readRow(line) {
  const [, name, own, shipped] = /^([A-Za-z_ ]+) (\d.*) \(shipped (.*)\)$/.exec(line);
  return { name, own: readCost(own), shipped: readCost(shipped) };
}

// `not shown: WHERE: WHAT  (STATEMENT STATEMENT ..)`
function readDifference(line) {
  const [, sentence, statements] = /^(.*?)(?:  \((.*)\))?$/.exec(line.replace(NOT_SHOWN, "")), [where, what = ""] = sentence.split(/: (.*)/);
  return { text: sentence, where, what, labels: statements ? statements.split(" ") : [] };
}

const readList = (lines, head) => lines.filter(line => line.startsWith(head)).flatMap(line => line.slice(head.length).split(", "));

// The line of a statement by its label, or where it has none by its address; or 0
function lineOfStatement(name, { statements, lines }) {
  const found = statements.find(({ label }) => label === name), address = found ? found.mpc : /^0x[0-9a-f]{3}$/.test(name) ? +name : -1;
  return lines.get(address) || 0;
}

// `text` is what mic-check has printed; `store` the control store of the microprogram, as readStore returns it
export function readVerdict(isProved, text, store) {
  const [first, ...rest] = text.split("\n").filter(Boolean);
  if (isProved) return { isProved, text: first, rows: rest.map(readRow) };
  const { labels, ...difference } = readDifference(first);
  const way = labels.map(label => ({ label, line: lineOfStatement(label, store) }));
  const lists = Object.fromEntries(Object.entries(LISTS).map(([name, head]) => [name, readList(rest, head)]));
  return { isProved, ...difference, way, ...lists };
}
