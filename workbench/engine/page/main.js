// The page: a command line, files, console input, and what comes of a call.
import { blobWorker } from "../blob_worker.js";
import { Engine, compileModule } from "../engine.js";
import { Files, download } from "./files.js";
import { shown } from "./shown.js";
import { wordsOf } from "./words.js";

const byId = (id) => document.getElementById(id);
const dataOf = (id) => byId(id).textContent;

function bytesOfBase64(text) {
  return Uint8Array.from(atob(text), (character) => character.charCodeAt(0));
}

async function unpacked(bytes) {
  const stream = new Blob([bytes]).stream().pipeThrough(new DecompressionStream("gzip"));
  return new Response(stream).arrayBuffer();
}

const EXAMPLES = JSON.parse(dataOf("examples")).map((example) => ({ ...example, bytes: bytesOfBase64(example.base64) }));
const files = new Files(EXAMPLES);
const last = { out: new Uint8Array(), err: new Uint8Array() };
let engine = null;
let isRunning = false;

function say(text, isWarning = false) {
  byId("state").textContent = text;
  byId("state").classList.toggle("warn", isWarning);
}

function setRunning(running) {
  isRunning = running;
  byId("run").disabled = running || engine === null;
  byId("stop").disabled = !running;
}

// The files.

function listFiles(chosen) {
  byId("name").replaceChildren(...files.names.map((name) => new Option(name)));
  byId("name").value = chosen;
  showFile();
}

function showFile() {
  const name = byId("name").value;
  const { text, isText } = files.has(name) ? files.text(name) : { text: "", isText: false };
  byId("text").value = text;
  byId("text").readOnly = !isText;
  byId("about").textContent = EXAMPLES.find((example) => example.name === name)?.about ?? "";
}

/** An example brings its command and its input along. */
function chooseFile() {
  showFile();
  const example = EXAMPLES.find(({ name }) => name === byId("name").value);
  if (example?.words) {
    byId("program").value = "mic";
    byId("words").value = example.words;
    byId("input").value = example.input;
  }
}

function newFile() {
  const name = prompt("The new file's name:", "program.jas");
  if (!name) {
    return;
  }
  if (!files.has(name)) {
    files.write(name, new Uint8Array());
  }
  listFiles(name);
  byId("text").focus();
}

async function openFiles() {
  const picked = [...byId("picker").files];
  for (const file of picked) {
    files.write(file.name, new Uint8Array(await file.arrayBuffer()));
    files.unsaved.delete(file.name);
  }
  byId("picker").value = "";
  if (picked.length > 0) {
    listFiles(picked[0].name);
  }
}

function saveFile() {
  const name = byId("name").value;
  if (name) {
    download(name, files.bytes(name));
    files.unsaved.delete(name);
  }
}

function deleteFile() {
  const name = byId("name").value;
  if (name && confirm(`Delete ${name}?`)) {
    files.delete(name);
    listFiles(files.names[0] ?? "");
  }
}

// A call.

function showStream(id, bytes) {
  const { text, note } = shown(bytes);
  byId(id).textContent = text;
  if (note) {
    byId(id).append(Object.assign(document.createElement("span"), { className: "note", textContent: note }));
  }
  byId(`save-${id}`).disabled = bytes.length === 0;
  last[id] = bytes;
}

function takeWritten(written) {
  const names = Object.keys(written);
  names.forEach((name) => files.write(name, written[name]));
  if (names.length > 0) {
    listFiles(names[0]);
  }
  return names;
}

function sayAnswer({ status, time, left, full }, names) {
  const parts = [`Status ${status}, ${time.toFixed(time < 10 ? 1 : 0)} ms.`];
  if (names.length > 0) {
    parts.push(`Written: ${names.join(", ")}.`);
  }
  if (left > 0) {
    parts.push(`${left} ${left === 1 ? "byte" : "bytes"} of the input not taken.`);
  }
  if (full) {
    parts.push("Output or messages are longer than 16 MiB, so the call ended there.");
  }
  say(parts.join(" "), full);
}

async function runWords(words) {
  if (engine === null || isRunning) {
    return;
  }
  setRunning(true);
  say("Running.");
  try {
    const answer = await engine.call({ program: byId("program").value, words, files: files.contents, input: byId("input").value });
    showStream("out", answer.out);
    showStream("err", answer.err);
    sayAnswer(answer, takeWritten(answer.written));
  } catch (error) {
    say(`${error.name}: ${error.message}`, true);
  }
  setRunning(false);
}

// The page's parts.

function listen(id, event, action) {
  byId(id).addEventListener(event, action);
}

function onKey(event) {
  if (event.key === "Enter" && (event.ctrlKey || event.metaKey)) {
    event.preventDefault();
    runWords(wordsOf(byId("words").value));
  } else if (event.key === "Escape" && isRunning) {
    engine.stop();
  }
}

function wire() {
  listen("command", "submit", (event) => {
    event.preventDefault();
    runWords(wordsOf(byId("words").value));
  });
  listen("stop", "click", () => engine.stop());
  listen("usage", "click", () => runWords([]));
  listen("name", "change", chooseFile);
  listen("text", "input", () => files.write(byId("name").value, new TextEncoder().encode(byId("text").value)));
  listen("new", "click", newFile);
  listen("open", "click", () => byId("picker").click());
  listen("picker", "change", openFiles);
  listen("save", "click", saveFile);
  listen("delete", "click", deleteFile);
  listen("save-out", "click", () => download("output.txt", last.out));
  listen("save-err", "click", () => download("messages.txt", last.err));
  document.addEventListener("keydown", onKey);
  window.addEventListener("beforeunload", (event) => {
    if (files.unsaved.size > 0) {
      event.preventDefault();
    }
  });
}

async function begin() {
  wire();
  listFiles("examples/countdown.jas");
  chooseFile();
  if (location.hash) {
    const [, program, words] = /^(mic-check (?=\S))?(.*)$/s.exec(decodeURIComponent(location.hash.slice(1)));
    byId("program").value = program ? "mic-check" : "mic";
    byId("words").value = words;
  }
  try {
    const module = await compileModule(await unpacked(bytesOfBase64(dataOf("module"))));
    engine = new Engine(module, blobWorker(dataOf("worker")));
  } catch (error) {
    say(`This browser cannot read the module. ${error.name}: ${error.message}`, true);
    return;
  }
  setRunning(false);
  say("Ready.");
  engine.warm();
}

begin();
