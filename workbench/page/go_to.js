// Going to a line of the file that is shown, by its number or by a name.
import { ask, element } from "./dom.js";

// A line by its number, a label (METHOD.LABEL where several have it), a method or a function, or a statement's label; or 0
function lineNamed(text, kind, word) {
  const lines = text.split("\n"), [unit, label] = word.includes(".") ? word.split(".") : ["", word];
  if (/^\d+$/.test(word)) return Math.min(lines.length, Math.max(1, +word));
  if (!/^\w+$/.test(label)) return 0;
  const beginsUnit = name => lines.findIndex(line => new RegExp(`^\\s*(?:\\.method|fn)\\s+${name}\\b`).test(line)
    || name === "main" && /^\s*\.main\b/.test(line));
  const from = unit ? beginsUnit(unit) : 0, wanted = new RegExp(kind === "mal" ? `^\\s*${label}(?:\\s|:|$)` : `^\\s*${label}\\s*:`);
  const at = from < 0 ? -1 : lines.findIndex((line, k) => k >= from && wanted.test(line));
  return at >= 0 ? at + 1 : unit ? 0 : beginsUnit(label) + 1;
}

export async function goToLine(bench, editor) {
  const { current } = bench;
  if (!current) return;
  const field = element("input", { size: 30, "aria-label": "line, label or method" });
  const asked = ask("Line, label or method", field, [["go there", () => [field.value.trim(), false]],
    ["set a breakpoint there", () => [field.value.trim(), true]], ["cancel", null]]);
  field.focus();
  const found = await asked, line = found ? lineNamed(current.text, current.kind, found[0]) : 0;
  if (!found) return;
  if (!line) { bench.say(`There is no ${found[0]} in ${current.name}.`); return; }
  editor.goTo(line);
  if (found[1] && !current.breaks.has(line)) bench.toggleBreak(line);
}
