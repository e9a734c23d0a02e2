// One cycle on paper: the drawing, the lines of the program around the present one, and the panels.
import { machineName } from "../mic/report.js";
import { byId, element, fill } from "./dom.js";

const LINES_AROUND = 15, PAPER_ROWS = 14;

function linesAround(text, line) {
  const rows = text.split("\n"), from = Math.max(0, Math.min((line || 1) - 1 - LINES_AROUND, rows.length - 2 * LINES_AROUND));
  return rows.slice(from, from + 2 * LINES_AROUND).map((row, k) =>
    element("div", { className: from + k + 1 === line ? "here" : "" }, `${String(from + k + 1).padStart(4)}  ${row}`));
}

const panelOnPaper = (name, title, content) => element("section", { className: `panel ${name}` }, element("h2", {}, element("span", {}, title)),
  element("div", { className: "scroll" }, ...content));

// Of a table the rows around the one that is marked
function rowsAround(table, mark) {
  const rows = [...table.rows], at = Math.max(0, rows.findIndex(row => row.matches(mark)));
  const from = Math.max(0, Math.min(at - PAPER_ROWS / 2, rows.length - PAPER_ROWS));
  const copy = table.cloneNode(false);
  copy.removeAttribute("id");
  copy.append(...rows.slice(from, from + PAPER_ROWS).map(row => row.cloneNode(true)));
  return copy;
}

function sheetOf(bench) {
  const { stepping, result } = bench, { program, machine, micro } = result.ran.setting, svg = byId("picture-box").firstChild;
  if (!svg || machine === "mic3" || bench.view !== "datapath") return null;
  const copy = id => [...byId(id).childNodes].map(node => node.cloneNode(true));
  return [
    element("h1", {}, `${program.name} on ${machineName(machine)}${micro ? ` with ${micro.name}` : ""}`),
    element("p", { className: "place" }, ...copy("where")),
    element("div", { className: "sheet" },
      element("div", { className: "drawing" }, svg.cloneNode(true)),
      panelOnPaper("lines", program.name, linesAround(program.text, stepping.line())),
      panelOnPaper("cycles", byId("cycles-title").textContent, [rowsAround(byId("cycles"), ".here")]),
      panelOnPaper("bytes", "Console", copy("bytes")),
      panelOnPaper("frame", byId("frame-title").textContent, [rowsAround(byId("frame"), ":last-child")])),
  ];
}

export function buildPaper(bench) {
  addEventListener("beforeprint", () => {
    const sheet = bench.stepping ? sheetOf(bench) : null;
    document.body.classList.toggle("on-paper", sheet !== null);
    fill(byId("paper"), ...(sheet || []));
  });
  addEventListener("afterprint", () => {
    document.body.classList.remove("on-paper");
    fill(byId("paper"));
  });
}
