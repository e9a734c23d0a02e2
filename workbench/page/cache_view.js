// A cache beside Mic-1: which word misses, and which block throws out which.
import { hex } from "../machine/word.js";
import { cacheLines } from "../machine/cache.js";
import { counted } from "../machine/sentences.js";
import { Stepping } from "../machine/stepping.js";
import { thousands } from "../mic/report.js";
import { byId, cell, element, fill, headRow, link, soft, tableRow } from "./dom.js";

const SHOWN_MISSES = 500, SHOWN_LINES = 64, SHOWN_BLOCKS = 6;

export function buildCache(bench, box) {
  fill(box, element("form", { className: "todo", onsubmit: event => { event.preventDefault(); runCache(bench); } },
    element("label", {}, "lines ", element("input", { id: "cache-lines", inputMode: "numeric", size: 5, value: "4" })),
    element("button", { className: "go", id: "go-cache" }, "Run with this cache"),
    soft("on Mic-1, with the microprogram that ships. A block is four words; a line holds one block.")),
  element("div", { id: "cached" }));
}

function runCache(bench) {
  const lines = Number(byId("cache-lines").value);
  return bench.during("running", async () => {
    if (!Number.isInteger(lines) || lines < 1 || lines > 4096) throw new Error("A cache has from 1 to 4096 lines.");
    const setting = { ...bench.setting(), machine: "mic1", micro: null };
    bench.clear();
    const cache = await bench.mic.cache(setting, lines), stepping = new Stepping(cache.trace, cache.ran.program.lines, cache.microLines);
    const isShown = bench.settings.machine === "mic1" && !bench.settings.micro;  // then the steps are of the same run
    bench.result = { ...bench.result, cache, ...(isShown ? { ran: cache.ran, withSteps: true, stepping } : {}) };
    bench.view = "cache";
  });
}

const wordsOf = block => `${hex(4 * block)}–${hex(4 * block + 3)}`;

export function renderCache(bench) {
  const { cache } = bench.result, box = byId("cached");
  if (!cache) return fill(box);
  const { accesses, totals, trace, isCut } = cache, misses = accesses.filter(({ isMiss }) => isMiss);
  return fill(box,
    element("h2", {}, `${cache.ran.setting.program.name}: ${thousands(totals.misses)} misses, ${thousands(totals.hits)} hits `,
      element("span", {}, `${(100 * totals.misses / Math.max(1, totals.misses + totals.hits)).toFixed(1)} % of the reads and fetches miss`)),
    isCut ? element("p", { className: "soft" }, `The tables are of the first ${thousands(trace.count)} cycles.`) : null,
    element("h2", {}, "Lines"), linesTable(accesses),
    element("h2", {}, "Misses ", element("span", {}, misses.length > SHOWN_MISSES ? `the first ${SHOWN_MISSES}` : "")),
    missesTable(bench, trace, misses.slice(0, SHOWN_MISSES)));
}

function heldText(blocks) {
  const held = [...blocks].sort((a, b) => b[1] - a[1]), more = held.length - SHOWN_BLOCKS;
  const shown = held.slice(0, SHOWN_BLOCKS).map(([block, count]) => `${wordsOf(block)} (${count})`).join(", ");
  return more > 0 ? `${shown} and ${more} more` : shown;
}

function linesTable(accesses) {
  const lines = cacheLines(accesses), rows = lines.slice(0, SHOWN_LINES).map(({ line, hits, misses, blocks }) =>
    tableRow("", cell(String(line), "n name"), cell(thousands(misses), "n"), cell(thousands(hits), "n"), cell(heldText(blocks), "wrap")));
  const head = headRow("#line", "#misses", "#hits", "words that it held, with how often each block was loaded");
  return element("table", { className: "rows" }, head, ...rows,
    lines.length > SHOWN_LINES ? tableRow("away", cell(""), cell(""), cell(""), cell(counted(lines.length - SHOWN_LINES, "more line"))) : null);
}

function missesTable(bench, trace, misses) {
  const isStepped = bench.stepping !== null && bench.stepping.trace === trace;
  const rows = misses.map(({ place, kind, address, line, block, evicted }) => {
    const cycle = thousands(trace.first + place), { text } = trace.begins[trace.instructionAt(place)];
    const shown = isStepped ? link(cycle, () => showCycle(bench, place)) : cycle;
    return tableRow("", element("td", { className: "n" }, shown), cell(text.slice(9) || text), cell(`${kind} of ${hex(address)}`), cell(String(line), "n"), cell(wordsOf(block)),
      cell(evicted ? `${wordsOf(evicted.block)} (${thousands(trace.first + evicted.place)})` : "nothing"));
  });
  return element("table", { className: "rows" }, headRow("#cycle", "instruction", "access", "#line", "loads the words", "throws out (loaded in cycle)"), ...rows);
}
function showCycle(bench, place) {
  bench.view = "datapath";
  bench.go(stepping => stepping.go(place));
}
