// The page's frame: type size, light and dark, widths, the parts of a small window, and the keys.
import { ask, button, byId, element } from "./dom.js";
import { showPart } from "./parts.js";
import { runProof } from "./proof_view.js";
import { stepByKey } from "./stepper.js";

const SMALLEST = 10, LARGEST = 32, LEAST_LEFT = 240, LEAST_RIGHT = 420;

export function buildFrame(bench) {
  const { size, theme } = bench.store.settings();
  if (size) resize(bench, size);
  dress(bench, theme || "");
  byId("smaller").addEventListener("click", () => resize(bench, typeSize() - 1));
  byId("larger").addEventListener("click", () => resize(bench, typeSize() + 1));
  byId("theme").addEventListener("click", () => dress(bench, isDark() ? "light" : "dark"));
  byId("help").addEventListener("click", help);
  SYSTEM_DARK.addEventListener("change", () => dress(bench, bench.store.settings().theme || ""));
  buildSplit();
  for (const one of document.querySelectorAll("#switch button")) one.addEventListener("click", () => showPart(one.dataset.part));
  const showFiles = isShown => {
    document.body.classList.toggle("with-files", isShown);
    byId("show-files").setAttribute("aria-expanded", String(isShown));
  };
  byId("show-files").addEventListener("click", () => showFiles(!document.body.classList.contains("with-files")));
  byId("files-panel").addEventListener("click", event => {
    if (!event.target.closest("li button")) return;
    showFiles(false);
    showPart(event.composedPath().includes(byId("exercises")) ? "run" : "editor"); // the list was drawn anew, without the target
  });
  showPart("editor");
  addEventListener("keydown", event => {
    if (keys(bench, event)) event.preventDefault();
  });
}

const typeSize = () => parseFloat(getComputedStyle(document.documentElement).getPropertyValue("--code"));
function resize(bench, size) {
  const kept = Math.max(SMALLEST, Math.min(LARGEST, size));
  document.documentElement.style.setProperty("--code", `${kept}px`);
  bench.store.keepSettings({ size: kept });
  bench.changed("place");
}
const SYSTEM_DARK = matchMedia("(prefers-color-scheme: dark)");
const isDark = () => document.documentElement.dataset.theme === "dark";
// theme: "light", "dark", or "" for that of the system
function dress(bench, theme) {
  document.documentElement.dataset.theme = theme || (SYSTEM_DARK.matches ? "dark" : "light");
  if (theme) bench.store.keepSettings({ theme });
  byId("theme").textContent = isDark() ? "light" : "dark";
}

function buildSplit() {
  const split = byId("split"), widen = x => {
    const left = Math.max(LEAST_LEFT, Math.min(innerWidth - LEAST_RIGHT, x - byId("left").offsetLeft));
    document.body.style.setProperty("--left", `${left}px`);
  };
  split.addEventListener("pointerdown", event => {
    split.setPointerCapture(event.pointerId);
    split.onpointermove = move => widen(move.clientX);
  });
  split.addEventListener("pointerup", () => { split.onpointermove = null; });
  split.addEventListener("keydown", event => {
    const by = { ArrowLeft: -30, ArrowRight: 30 }[event.key];
    if (by) widen(split.offsetLeft + by);
  });
}

function keys(bench, event) {
  const control = event.ctrlKey || event.metaKey;
  if (byId("dialog").open) return false;
  if (control && event.key === "Enter") runByKey(bench, event.shiftKey);
  else if (event.altKey && event.key === "Enter") proveByKey(bench);
  else if (event.key === "F2") byId("editor").querySelector("textarea").focus();
  else if (control && event.key === "s") byId("tabs").querySelector(".tools button")?.click();
  else if (control && event.key === "g") bench.goToLine();
  else if (event.key === "F1") help();
  else if (event.key === "Escape" && bench.busy) bench.stop();
  else return stepByKey(bench, event);
  return true;
}

// After a step the keys of the steps are at hand: the caret leaves the editor
async function runByKey(bench, withSteps) {
  showPart("run");
  await bench.run(withSteps);
  if (withSteps && bench.stepping) byId("step-on").focus();
}

// The answer is shown, also on a small window
function proveByKey(bench) {
  showPart("run");
  return runProof(bench);
}

const KEYS = [
  ["Ctrl+Enter", "run"], ["Ctrl+Shift+Enter", "step: run, and show it cycle by cycle"], ["Alt+Enter", "prove the microprogram"],
  ["Esc", "stop the run, or the proof"], ["← →", "previous, next cycle"],
  ["↑ ↓", "previous, next instruction"], ["Page up, Page down", "previous, next line"], ["F10, Shift+F10", "next, previous line over calls"],
  ["F11, Shift+F11", "out of a method; back to its call"], ["F8, Shift+F8", "on, back to a breakpoint or a write of the watched word"],
  ["Home, End", "first, last cycle"], ["F9", "a breakpoint in the line of the caret; also a click beside its number"],
  ["Ctrl+G", "go to a line, label or method, or set a breakpoint there"], ["Ctrl+S", "save as a file"], ["F2", "to the editor"],
  ["Esc, then Tab", "out of the editor"],
];
function help() {
  const rows = KEYS.map(([key, what]) => element("tr", {}, element("td", {}, element("kbd", {}, key)), element("td", {}, what)));
  const note = "The keys of the steps work wherever nothing is typed. Files are kept in this browser, and nothing leaves the page.";
  ask("Keys", element("div", {}, element("table", {}, ...rows), element("p", {}, note)), [["close", null]]);
}

// The tabs of a list, with arrow keys among them
export function buildTabs(list, names, choose) {
  const made = names.map(([name, text]) => button(text, () => choose(name), { role: "tab", id: `tab-${name}`, "aria-controls": name }));
  made.forEach((one, k) => { one.dataset.view = names[k][0]; });
  list.replaceChildren(...made);
  list.addEventListener("keydown", event => {
    const by = { ArrowLeft: -1, ArrowRight: 1 }[event.key], k = made.indexOf(document.activeElement);
    if (!by || k < 0) return;
    event.preventDefault();
    event.stopPropagation();
    const other = made[(k + by + made.length) % made.length];
    other.focus();
    other.click();
  });
}
