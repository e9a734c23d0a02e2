// The list of files, the tabs of those that are open, and what mic says of the one that is shown.
import { STARTS } from "./bench.js";
import { ask, button, byId, element, fill, saveAs, withCode } from "./dom.js";
import { kindOf } from "../mic/refusal.js";
import { capital } from "../mic/words.js";

function fileItem(bench, name) {
  const isOn = bench.current && bench.current.name === name;
  const made = button("", () => bench.openFile(name), { className: isOn ? "on" : "", title: name });
  made.append(element("span", { className: `kind ${kindOf(name)}`, "aria-hidden": "true" }), element("span", {}, name));
  return element("li", {}, made);
}

export function renderFiles(bench) {
  const own = new Set([...bench.store.own(), ...[...bench.tabs.values()].filter(tab => tab.isDirty).map(tab => tab.name)]);
  const none = element("li", { className: "soft none" }, "none yet: an example that is changed is kept here");
  fill(byId("own-files"), ...(own.size ? [...own].sort().map(name => fileItem(bench, name)) : [none]));
  fill(byId("examples"), ...Object.keys(bench.store.examples).filter(name => !own.has(name)).map(name => fileItem(bench, name)));
}

export function renderTabs(bench) {
  const strip = element("div", { className: "strip" }, ...[...bench.tabs.values()].map(tab => {
    const isOn = tab === bench.current;
    return element("span", { className: isOn ? "tab on" : "tab" },
      button(tab.name, () => bench.show(tab.name), { role: "tab", "aria-selected": String(isOn) }),
      tab.isDirty ? element("span", { className: "dirty", title: "not kept yet" }, "●") : null,
      button("×", () => bench.closeFile(tab.name), { "aria-label": `close ${tab.name}`, title: "close" }));
  }));
  const { current } = bench, tools = current ? element("span", { className: "tools" },
    button("download", () => download(current), { title: "save as a file (Ctrl+S)" }),
    bench.store.isOwn(current.name) ? button("remove", () => confirmRemoval(bench, current), {}) : null) : null;
  fill(byId("tabs"), strip, tools);
  const on = strip.querySelector(".on");
  if (on) on.scrollIntoView({ block: "nearest", inline: "nearest" });
}

const download = ({ name, text, eol = "\n" }) => saveAs(name, eol === "\n" ? text : text.replace(/\n/g, eol));

async function confirmRemoval(bench, { name }) {
  const text = name in bench.store.examples ? "The example comes back as it was." : "It is not kept anywhere else.";
  if (await ask(`Remove ${name}?`, element("p", {}, text), [["remove it", true], ["keep it", null]])) bench.removeFile(name);
}

export async function newFile(bench) {
  const name = element("input", { size: 30, placeholder: "name.jas, name.tiny or name.mal", "aria-label": "name" });
  const from = element("select", { "aria-label": "a .mal begins with" }, element("option", { value: "" }, "nothing"),
    element("option", { value: "mic1" }, "Mic-1's microprogram"), element("option", { value: "mic2" }, "Mic-2's microprogram"));
  const asked = ask("A new file", element("div", {}, element("p", {}, element("label", {}, "name ", name)),
    element("p", {}, element("label", {}, "a .mal begins with ", from))), [["make it", () => name.value.trim()], ["cancel", null]]);
  name.focus();
  const chosen = await asked;
  if (!chosen) return;
  const kind = kindOf(chosen);
  if (!kind) {
    bench.say(`${chosen}: the name must end in .jas (IJVM), .tiny (Tiny) or .mal (a microprogram).`);
    return;
  }
  bench.newFile(chosen, kind === "mal" && from.value ? await bench.mic.shipped(from.value) : STARTS[kind]);
}

// What mic says of the text that is shown: accepted, or refused in words
export function renderSaid(bench, editor) {
  const { current } = bench, box = byId("said"), checked = current && current.checked;
  if (current && current.conflict) return fillConflict(bench, box, current);
  box.className = !checked ? "none" : checked.refusal ? "bad" : "";
  editor.mark({ refused: 0 });
  if (!checked) return fill(box);
  if (!checked.refusal) return fill(box, element("span", { className: "good" }, "✓ "), checked.said);
  const { file, line, text, said, notes, advice } = checked.refusal, isOther = file && file !== current.name;
  editor.mark({ refused: isOther ? 0 : line, note: said || text });
  const where = line ? `${isOther ? `${file}, l` : "L"}ine ${line}: ` : isOther ? `${file}: ` : "";
  return fill(box, element("p", {}, element("b", {}, where + text), said ? ` (${said})` : ""),
    notes ? element("p", {}, capital(notes), ".") : null,
    ...advice.map(row => element("p", { className: "hint" }, "Look for: ", ...withCode(row))));
}

function fillConflict(bench, box, tab) {
  box.className = "bad";
  fill(box, element("p", {}, element("b", {}, `${tab.name} was changed in another tab`), ", and is not kept from here."),
    element("p", { className: "todo" }, button("keep this text", () => bench.save(tab, true)),
      button("take the other text", () => bench.takeKept(tab)), button("download this text", () => download(tab))));
}
