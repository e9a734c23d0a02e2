// Files that come onto the page: chosen, or dropped; and files of other tabs.
import { kindOf } from "../mic/refusal.js";
import { textOfBytes } from "../program/bytes.js";
import { byId } from "./dom.js";
import { newFile } from "./files_view.js";
import { openLessonText } from "./hand_out.js";

const LONGEST_FILE = 1 << 20;
async function takeFiles(bench, files) {
  for (const file of files) {
    if (file.size > LONGEST_FILE) { bench.say(`${file.name} is longer than 1,048,576 bytes.`); continue; }
    const text = textOfBytes(new Uint8Array(await file.arrayBuffer()));
    if (kindOf(file.name)) bench.newFile(file.name, text);
    else if (file.name.endsWith(".json")) openLessonText(bench, text, file.name);
    else bench.say(`${file.name} is neither a program (.jas, .tiny) nor a microprogram (.mal).`);
  }
}
export function buildFiles(bench) {
  const chosen = byId("chosen-files");
  byId("new-file").addEventListener("click", () => newFile(bench));
  byId("open-file").addEventListener("click", () => chosen.click());
  chosen.addEventListener("change", () => { takeFiles(bench, [...chosen.files]); chosen.value = ""; });
  addEventListener("dragover", event => event.preventDefault());
  addEventListener("drop", event => {
    event.preventDefault();
    takeFiles(bench, [...event.dataTransfer.files]);
  });
  addEventListener("pagehide", () => bench.saveAll());
  addEventListener("visibilitychange", () => { if (document.hidden) bench.saveAll(); });
  bench.store.watch(name => bench.changedElsewhere(name));
}
