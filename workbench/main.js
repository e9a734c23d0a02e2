// The workbench: builds the page's parts and shows each change of the state in those that it concerns.
import { Mic } from "./mic/mic.js";
import { Bench } from "./page/bench.js";
import { buildCache, renderCache } from "./page/cache_view.js";
import { buildCompare, renderCompare } from "./page/compare_view.js";
import { buildConsole, renderAsked, renderConsole } from "./page/console_view.js";
import { buildDatapath, renderDatapath, spokenOf } from "./page/datapath_view.js";
import { byId, element, fill } from "./page/dom.js";
import { Editor } from "./page/editor.js";
import { buildExercise, renderExercise, renderExerciseList } from "./page/exercise_view.js";
import { renderFiles, renderSaid, renderTabs } from "./page/files_view.js";
import { buildFrame, buildTabs } from "./page/frame.js";
import { goToLine } from "./page/go_to.js";
import { handOut, openLink } from "./page/hand_out.js";
import { buildFiles } from "./page/intake.js";
import { buildMemory, renderMemory } from "./page/memory_view.js";
import { buildPaper } from "./page/paper.js";
import { showChosenTab, showPart } from "./page/parts.js";
import { buildProfile, renderProfile } from "./page/profile_view.js";
import { buildProof, renderProof, saidOf } from "./page/proof_view.js";
import { RecordedEngine, showRecorded } from "./page/recorded.js";
import { buildSettings, renderBusy, renderSettings } from "./page/settings_view.js";
import { startEngines } from "./page/start_engine.js";
import { buildState, renderState } from "./page/state_view.js";
import { buildStepper, renderStepper } from "./page/stepper.js";
import { FileStore, PageStorage } from "./page/store.js";
import { localsOf } from "./machine/frames.js";

// name, title, build(bench, box), render(bench, box)
const VIEWS = [
  ["console", "Console", buildConsole, renderConsole],
  ["datapath", "Datapath", buildDatapath, renderDatapath],
  ["state", "Registers", buildState, renderState],
  ["memory", "Memory", buildMemory, renderMemory],
  ["profile", "Profile", buildProfile, renderProfile],
  ["compare", "Compare", buildCompare, renderCompare],
  ["proof", "Proof", buildProof, renderProof],
  ["cache", "Cache", buildCache, renderCache],
  ["exercise", "Exercise", buildExercise, renderExercise],
];
const FIRST_FILE = "hello.jas";

function buildViews(bench) {
  const panels = byId("panels"), boxes = {};
  for (const [name, , build] of VIEWS) {
    boxes[name] = element("div", { id: name, className: "view", role: "tabpanel", "aria-labelledby": `tab-${name}`, hidden: true });
    panels.append(boxes[name]);
    build(bench, boxes[name]);
  }
  buildTabs(byId("views"), VIEWS.map(([name, title]) => [name, title]), name => bench.choose(name));
  return boxes;
}

function renderViews(bench, boxes) {
  for (const [name, , , render] of VIEWS) {
    const isOn = name === bench.view;
    boxes[name].hidden = !isOn;
    const tab = byId(`tab-${name}`), isChosenNow = isOn && tab.tabIndex !== 0;
    tab.setAttribute("aria-selected", String(isOn));
    tab.tabIndex = isOn ? 0 : -1;
    if (isChosenNow) showChosenTab();
    if (isOn) render(bench, boxes[name]);
  }
}

// In the editor: the line that runs, with the values of its locals, and how often each line was reached
function renderMarks(bench, editor) {
  const { stepping, current, result } = bench, none = { here: 0, value: "", hits: null };
  if (!current) return;
  editor.mark({ breaks: current.breaks });
  if (!stepping) { editor.mark(none); return; }
  const { program, micro } = result.ran.setting, isOf = file => file && current.name === file.name && current.text === file.text;
  if (isOf(program)) {
    const value = localsOf(stepping.trace, stepping.place).map(([name, shown]) => `${name}=${shown}`).join("  ");
    editor.mark({ here: stepping.line(), hits: stepping.hits, value });
  } else if (isOf(micro)) {
    editor.mark({ here: stepping.microLine(), hits: stepping.microHits, value: "" });
  } else {
    editor.mark(none);
  }
  if (editor.marks.here) editor.reveal(editor.marks.here);
}

function renderStale(bench) {
  const names = bench.staleNames();
  byId("stale").hidden = names.length === 0;
  byId("stale").textContent = names.length ? `${names.join(" and ")} changed since this run. Run or step again for the text as it is now.` : "";
}

function renderCurrent(bench, editor) {
  const { current } = bench;
  editor.marks.hits = null;
  if (current) {
    editor.open(current.text, current.kind);
    document.title = `${current.name} – mic workbench`;
  } else {
    editor.open("", "", true);
  }
  if (bench.wantedLine) editor.goTo(bench.wantedLine);
}

// What a screen reader speaks of the view
function spokenWords({ view, stepping, result }) {
  if (view === "datapath" && stepping) return spokenOf(stepping);
  return view === "proof" && result.proof ? saidOf(result.proof) : "";
}

// What is shown anew for each kind of change
function renderer(bench, editor, boxes) {
  const parts = {
    files: () => { renderFiles(bench); renderTabs(bench); },
    current: () => renderCurrent(bench, editor),
    said: () => renderSaid(bench, editor),
    settings: () => renderSettings(bench),
    busy: () => renderBusy(bench),
    views: () => renderViews(bench, boxes),
    stepper: () => renderStepper(bench),
    marks: () => renderMarks(bench, editor),
    stale: () => { renderStale(bench); renderAsked(bench); },
    exercises: () => renderExerciseList(bench),
    answers: () => { if (["exercise", "proof"].includes(bench.view)) renderViews(bench, boxes); },
    notice: () => { byId("notice").hidden = !bench.notice; byId("notice").textContent = bench.notice; },
    spoken: () => { byId("spoken").textContent = spokenWords(bench); },
  };
  const run = ["busy", "views", "stepper", "marks", "stale", "exercises", "said", "notice", "spoken"];
  const concerned = {
    notice: ["notice"],
    files: ["files", "said"],
    current: ["current", "files", "settings", ...run],
    text: ["said", "marks", "stale", "files", "answers"],
    checked: ["said"],
    marks: ["marks"],
    result: ["views", "stepper", "marks", "stale"],
    busy: ["busy"],
    place: ["views", "stepper", "marks", "spoken"],
    view: ["views", "stepper", "spoken"],
    all: ["files", "settings", ...run],
  };
  return what => concerned[what].forEach(name => parts[name]());
}

function openFirst(bench) {
  const { tabs = [], current = "" } = bench.store.settings();
  for (const name of tabs) if (bench.store.has(name)) bench.openFile(name);
  const first = bench.store.has(current) ? current : bench.tabs.size ? [...bench.tabs.keys()][0] : FIRST_FILE;
  bench.openFile(first);
}

function buildPage(bench) {
  const editor = new Editor(byId("editor"), text => bench.edit(text), line => bench.toggleBreak(line)), boxes = buildViews(bench);
  bench.onChange(renderer(bench, editor, boxes));
  bench.goToLine = () => goToLine(bench, editor);
  buildSettings(bench);
  buildStepper(bench);
  buildFrame(bench);
  buildPaper(bench);
  byId("hand-out").addEventListener("click", () => handOut(bench));
  for (const id of ["run", "step", "prove"]) byId(id).addEventListener("click", () => showPart("run"));
  window.workbench = bench;     // for those who look at it from the browser's console, and for the checks
}

const blockOf = id => (byId(id) ? JSON.parse(byId(id).textContent) : null);

async function startRecorded(lessons, recorded) {
  const mic = new Mic(new RecordedEngine(recorded.answers), lessons), store = new FileStore({}, new PageStorage());
  const bench = new Bench({ mic, checker: { check: async () => ({ said: "" }) }, store, lessons: { ...lessons, exercises: [] } });
  buildPage(bench);
  document.body.classList.remove("loading");
  await showRecorded(bench, recorded);
  byId("editor").querySelector("textarea").readOnly = true;
  showPart("run");
}

async function start() {
  const lessons = blockOf("lessons"), recorded = blockOf("recorded");
  if (recorded) return startRecorded(lessons, recorded);
  const { engine, checking } = await startEngines(), store = new FileStore(lessons.examples);
  const bench = new Bench({ mic: new Mic(engine, lessons), checker: new Mic(checking, lessons), store, lessons });
  buildPage(bench);
  buildFiles(bench);
  openFirst(bench);
  bench.changed("all");
  if (!store.isKept) bench.say("This browser keeps nothing for this page: download what you write.");
  document.body.classList.remove("loading");
  if (location.hash.length > 1) openLink(bench);
  addEventListener("hashchange", () => openLink(bench));
  return engine.warm();
}

start().catch(error => fill(document.body, element("p", { className: "empty" }, `The workbench cannot start in this browser: ${error.message}`)));
