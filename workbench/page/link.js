// A link, or a file, with a program in it: what a lecturer hands out. It opens the program at a cycle; nothing runs until one says so.
import { base64, bytesOfBase64, bytesOfText, textOfBytes } from "../program/bytes.js";
import { canTrace } from "../mic/mic.js";
import { kindOf } from "../mic/refusal.js";

const NAME = "lesson";
const LONGEST_LINK = 32_768;    // of a link

export function lessonOf(bench) {
  const { stepping, result } = bench, setting = result.ran ? result.ran.setting : bench.setting();
  const named = name => (kindOf(name) ? name : `${name.replace(/[()]/g, "").replace(/ /g, "-")}.jas`);  // the program of an exercise has no file
  const own = name => setting[name] && { name: named(setting[name].name), text: setting[name].text };
  const lesson = {
    program: own("program"), micro: own("micro"), machine: setting.machine, map: setting.map,
    input: bench.input, ends: bench.inputEnds, view: bench.view,
  };
  if (stepping) lesson.cycle = stepping.trace.first + stepping.place;
  return lesson;
}

const urlSafe = text => text.replace(/\+/g, "-").replace(/\//g, "_").replace(/=+$/, "");

// The fragment, or null where it is too long for a link
export function fragmentOf(lesson) {
  const text = `#${NAME}=${urlSafe(base64(bytesOfText(JSON.stringify(lesson))))}`;
  return text.length > LONGEST_LINK ? null : text;
}

const isFile = file => file && typeof file.name === "string" && typeof file.text === "string" && kindOf(file.name) !== "" && file.name.length <= 100
  && !/[/\\\x00-\x1f]/.test(file.name);

// A lesson that can be opened, or null
export function readLesson(value) {
  if (!value || typeof value !== "object" || !isFile(value.program)) return null;
  const { program, micro, machine, map, input, ends, view, cycle } = value;
  return {
    program, micro: isFile(micro) ? micro : null,
    machine: canTrace(machine) || machine === "mic3" ? machine : "mic1", map: map === "large" ? "large" : "standard",
    input: typeof input === "string" ? input : "", ends: ends === true,
    view: ["datapath", "state", "memory", "console"].includes(view) ? view : "datapath", cycle: Number.isInteger(cycle) && cycle > 0 ? cycle : 0,
  };
}
export function lessonOfFragment(fragment) {
  const found = new RegExp(`^#${NAME}=([\\w-]+)$`).exec(fragment);
  if (!found || fragment.length > LONGEST_LINK) return null;
  try {
    return readLesson(JSON.parse(textOfBytes(bytesOfBase64(found[1].replace(/-/g, "+").replace(/_/g, "/")))));
  } catch {
    return null;
  }
}
