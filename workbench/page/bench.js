// The workbench's state, and what can be done with it: the files that are open, the settings of a run, and the one result that all views
// show. A change of machine, map, program or microprogram, and each new run, empties the result, so no two views show different runs.
import { Stepping } from "../machine/stepping.js";
import { kindOf } from "../mic/refusal.js";
import { DEFAULT_BOUND, MOST_BOUND } from "../mic/setting.js";
import { Conflict, StorageFull } from "./store.js";

const NO_RESULT = Object.freeze({ ran: null, stepping: null, refusal: null, profile: null, difference: null, cache: null, proof: null });
export const STARTS = { jas: ".main\n        HALT\n.end-main\n", tiny: "fn main() {\n}\n", mal: "" };
const CHECK_AFTER = 350, SAVE_AFTER = 300;  // milliseconds after the last key

export class Bench {
  // mic runs programs, checker checks what is typed; both are a Mic, each with an engine of its own
  constructor({ mic, checker, store, lessons }) {
    Object.assign(this, { mic, checker, store, lessons });
    this.tabs = new Map();
    this.current = null;
    this.settings = { machine: "mic1", map: "standard", bound: DEFAULT_BOUND, window: 20000, from: 1, program: "", micro: "" };
    this.input = "";
    this.inputEnds = false;     // whether the input ends after what is given, or more is asked for
    this.exercise = null;
    this.result = NO_RESULT;
    this.watched = null;
    this.view = "console";
    this.busy = null;           // what is under way: {text, since}
    this.notice = "";
    this.listeners = [];
    this.timers = {};
  }

  onChange(listener) { this.listeners.push(listener); }
  changed(what = "all") { this.listeners.forEach(listener => listener(what)); }
  after(name, time, action) {
    clearTimeout(this.timers[name]);
    this.timers[name] = setTimeout(action, time);
  }
  say(text) {
    this.notice = text;
    this.changed("notice");
  }

  // ---- files

  allNames(kind) {
    const names = new Set([...this.store.own(), ...Object.keys(this.store.examples), ...this.tabs.keys()]);
    return [...names].filter(name => !kind || kind.includes(kindOf(name))).sort();
  }

  openFile(name, line = 0) {
    if (!this.tabs.has(name)) {
      const kept = this.store.read(name);
      if (!kept) return this.say(`There is no file ${name}.`);
      const text = kept.text.replace(/\r\n/g, "\n"), eol = kept.text.includes("\r\n") ? "\r\n" : "\n";
      const tab = { name, kind: kindOf(name), text, eol, version: kept.version, breaks: new Set() };
      this.tabs.set(name, { ...tab, isDirty: false, checked: null, conflict: false });
    }
    return this.show(name, line);
  }
  show(name, line = 0) {
    const before = this.current;
    this.current = this.tabs.get(name);
    this.wantedLine = line;
    if (before !== this.current) this.keepTabs();
    this.changed("current");
    if (!this.current.checked) this.check();
  }
  keepTabs() { this.store.keepSettings({ tabs: [...this.tabs.keys()], current: this.current ? this.current.name : "" }); }

  edit(text) {
    const tab = this.current;
    tab.text = text;
    tab.isDirty = true;
    tab.checked = null;
    this.after("check", CHECK_AFTER, () => this.check());
    this.after(`save ${tab.name}`, SAVE_AFTER, () => this.save(tab));
    this.changed("text");
  }
  // Keeps a file in the browser. Where another tab has written it meanwhile, nothing is overwritten unless `over` is set
  save(tab, over = false) {
    if (!tab.isDirty && !over) return;
    try {
      tab.version = this.store.write(tab.name, tab.eol === "\n" ? tab.text : tab.text.replace(/\n/g, tab.eol), over ? null : tab.version);
      tab.isDirty = tab.conflict = false;
      this.changed("files");
    } catch (error) {
      if (error instanceof Conflict) tab.conflict = true;
      else if (error instanceof StorageFull) this.say(`The browser's storage is full: ${tab.name} is not kept. Download it, or remove files.`);
      else throw error;
      this.changed("files");
    }
  }
  saveAll() { for (const tab of this.tabs.values()) if (tab.isDirty && !tab.conflict) this.save(tab); }

  // Another tab has written or removed a file
  changedElsewhere(name) {
    const tab = this.tabs.get(name), kept = this.store.read(name);
    if (tab && (kept ? kept.version : "") !== tab.version) {
      if (tab.isDirty || !kept) tab.conflict = true;
      else return this.takeKept(tab);
    }
    return this.changed("files");
  }
  takeKept(tab) {
    const breaks = tab.breaks, isCurrent = tab === this.current;
    this.tabs.delete(tab.name);
    if (!this.store.has(tab.name)) return this.closeFile(tab.name);
    if (!isCurrent) return this.changed("files");
    this.openFile(tab.name);
    this.current.breaks = breaks;
    return this.say(`${tab.name} was changed in another tab, and is shown as it is now.`);
  }
  newFile(name, text) {
    const free = this.store.freeName(name);
    try {
      this.store.write(free, text, "");
    } catch (error) {
      if (!(error instanceof StorageFull)) throw error;
      return this.say("The browser's storage is full: remove files first.");
    }
    this.openFile(free);
    this.changed("files");
    return free;
  }
  closeFile(name) {
    const tab = this.tabs.get(name);
    if (tab) this.save(tab);
    this.tabs.delete(name);
    if (!this.current || this.current.name === name) {
      const other = [...this.tabs.keys()].pop();
      this.current = null;
      if (other) return this.show(other);
    }
    this.keepTabs();
    return this.changed("current");
  }
  removeFile(name) {
    this.store.remove(name);
    this.tabs.delete(name);
    if (this.current && this.current.name === name) this.current = null;
    if (!this.current && name in this.store.examples) this.openFile(name);
    else if (!this.current && this.tabs.size) this.show([...this.tabs.keys()].pop());
    this.clear();
    this.changed("current");
  }

  toggleBreak(line) {
    if (!this.current) return;
    const { breaks } = this.current;
    if (!breaks.delete(line)) breaks.add(line);
    this.changed("marks");
  }

  // ---- checks while one types

  async check() {
    const tab = this.current, { text } = tab || {};
    if (!tab || !tab.kind) return;
    const { machine, map } = this.settings;
    let checked;
    try {
      checked = await this.checker.check({ name: tab.name, text }, tab.kind, machine, map);
    } catch (error) {
      if (!error.refusal) return;
      checked = { refusal: error.refusal };
    }
    if (tab.text !== text) return;
    tab.checked = checked;
    this.changed("checked");
  }

  // ---- the setting of a run

  textOf(name) {
    if (this.tabs.has(name)) return { name, text: this.tabs.get(name).text };
    const kept = this.store.read(name);
    if (kept) return { name, text: kept.text };
    const program = this.exercisePrograms().find(one => one.name === name);
    return program || null;
  }
  // The programs of a microprogram's exercise, which are in no file of the user's
  exercisePrograms() {
    if (!this.exercise || this.exercise.kind !== "mal") return [];
    const { name, program, cases } = this.exercise, found = program ? [{ name: `(program of ${name})`, text: program }] : [];
    return [...found, ...cases.filter(one => one.program).map(one => ({ name: `(${one.name} of ${name})`, text: one.program }))];
  }

  // The name of the microprogram of one's own that is clocked: the one in the editor, or the one that is chosen; or ""
  get ownMicro() {
    if (!this.current) return "";
    return this.current.kind === "mal" ? this.current.name : this.settings.micro;
  }
  setting() {
    const { machine, map, bound, program } = this.settings, isMicro = this.current && this.current.kind === "mal";
    if (!this.current) throw new Error("Open a program first.");
    if (!this.current.kind) throw new Error(`${this.current.name}: a name must end in .jas, .tiny or .mal.`);
    const file = this.textOf(isMicro ? program : this.current.name), microName = this.ownMicro;
    if (!file) throw new Error("Choose a program that the microprogram runs, at the top.");
    if (microName && machine === "mic3") throw new Error("Mic-3 clocks the microprogram that ships, and no other: choose Mic-1 or Mic-2.");
    if (!Number.isInteger(bound) || bound < 0 || bound > MOST_BOUND) throw new Error("The bound is a number of cycles from 0 to 1,000,000,000.");
    return { machine, map, bound, program: file, micro: microName ? this.textOf(microName) : null, input: this.input };
  }
  set(name, value) {
    if (this.settings[name] === value) return;
    this.settings[name] = value;
    this.clear();
    if (name === "machine" || name === "map") {
      for (const tab of this.tabs.values()) tab.checked = null;
      this.check();
    }
    this.changed("all");
  }

  // ---- results

  clear() {
    this.result = NO_RESULT;
    this.watched = null;
    this.changed("result");
  }
  get stepping() { return this.result.stepping; }
  // The files of the result that have been changed since
  staleNames() {
    const { ran } = this.result;
    if (!ran) return [];
    return [ran.setting.program, ran.setting.micro].filter(file => file && this.tabs.has(file.name) && this.tabs.get(file.name).text !== file.text)
      .map(file => file.name);
  }

  // Does what takes a while: one thing at a time, with its time shown, and stoppable
  async during(text, action) {
    if (this.busy) return;
    this.saveAll();
    this.say("");
    this.busy = { text, since: performance.now() };
    this.changed("busy");
    const ticking = setInterval(() => this.changed("busy"), 200);
    try {
      await action();
      this.took = performance.now() - this.busy.since;
    } catch (error) {
      this.took = null;
      this.failed(error);
    } finally {
      clearInterval(ticking);
      this.busy = null;
      this.changed("all");
    }
  }
  failed(error) {
    if (error.refusal) {
      this.result = { ...NO_RESULT, refusal: error.refusal };
      const { file, line } = error.refusal;
      if (file && this.tabs.has(file)) {
        this.tabs.get(file).checked = { refusal: error.refusal };
        this.show(file, line);
      }
      this.view = "console";
    } else if (error.name === "Stopped") {
      this.say("The run was stopped, as you asked.");
    } else if (error.name === "TimedOut") {
      this.say("The run was stopped: it took too long.");
    } else {
      this.say(error.message);
    }
  }
  stop() {
    if (this.busy) this.mic.engine.stop();
  }

  // Runs to the end, or to the read for which there is no input yet; with steps, the trace is shown from cycle `at` on
  run(withSteps, at = 0) {
    return this.during("running", async () => {
      const setting = this.setting(), { from, window } = this.settings;
      this.clear();
      const ran = await this.mic.run(setting, !this.inputEnds);
      this.result = { ...NO_RESULT, ran, withSteps };
      if (withSteps) {
        this.busy.text = "reading the trace";
        const { trace, microLines } = await this.mic.trace(ran, from, window, cycles => this.progress(cycles));
        const stepping = new Stepping(trace, ran.program.lines, microLines);
        if (at) stepping.go(at - trace.first);
        this.result = { ...this.result, stepping };
        if (!["datapath", "state", "memory"].includes(this.view)) this.view = "datapath";
      } else if (["profile", "compare", "cache", "exercise", "datapath", "state", "memory"].includes(this.view)) {
        this.view = "console";
      }
    });
  }
  progress(cycles) {
    if (this.busy) this.busy.text = `cycle ${cycles.toLocaleString("en-US")}`;
  }
  // The line that is typed while the program waits: it goes on by running again with it
  give(text) {
    const { ran, withSteps } = this.result;
    this.input += text;
    return this.run(withSteps, withSteps ? ran.report.cycles : 0);
  }
  endInput() {
    const { ran, withSteps } = this.result;
    this.inputEnds = true;
    return this.run(withSteps, withSteps ? ran.report.cycles : 0);
  }

  go(action) {
    if (!this.stepping) return;
    action(this.stepping);
    this.changed("place");
  }
  watch(address) {
    this.watched = this.watched === address ? null : address;
    this.changed("place");
  }
  choose(view) {
    this.view = view;
    this.changed("view");
  }
}
