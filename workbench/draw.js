// node workbench/draw.js [--check]: draws docs/mic1.svg and docs/mic2.svg, the drawings of the workbench with nothing lit.
// With --check it writes nothing, and its status is 1 where a file is not what would be drawn.
import { readFileSync, writeFileSync } from "node:fs";
import { svgText } from "./drawing/static.js";

const DRAWINGS = {
  mic1: ["The datapath of Mic-1", "Registers between the C bus, at the left, and the B bus; H is the ALU's left operand. "
    + "At the right the control: MPC, the control store, the fields of its word, and how the next address is made."],
  mic2: ["The datapath of Mic-2", "Registers between the C bus, at the left, and the buses A and B; "
    + "a fetch unit with a queue of bytes below the memory. "
    + "At the right the control: MPC, the control store, the fields of its word, and how the next address is made."],
};

const at = path => new URL(path, import.meta.url), isCheck = process.argv.includes("--check");
const sheet = readFileSync(at("drawing/drawing.css"), "utf8");

// The colours and types of the page on a light ground, as far as the drawing takes them
const colours = /^:root \{([^}]*)\}/m.exec(readFileSync(at("page.css"), "utf8"))[1].split(";").map(row => row.trim())
  .filter(row => sheet.includes(`var(${row.split(":")[0]})`));
const style = `.picture { ${colours.join("; ")}; }\n.ground { fill: #fff; }\n${sheet}`;

for (const [machine, [title, description]] of Object.entries(DRAWINGS)) {
  const file = at(`../docs/${machine}.svg`), text = svgText(machine, { style, title, description });
  const isSame = readFileSync(file, "utf8") === text;
  if (!isSame && isCheck) process.exitCode = 1;
  if (!isSame && !isCheck) writeFileSync(file, text);
  if (!isSame) console.log(`docs/${machine}.svg ${isCheck ? "is not what the workbench draws" : "is drawn"}`);
}
