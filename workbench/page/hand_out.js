// A program that is handed out, as a link or as a file: making it, and opening it.
import { ask, element, saveAs } from "./dom.js";
import { fragmentOf, lessonOf, lessonOfFragment, readLesson } from "./link.js";

export function openLessonText(bench, text, from) {
  openLesson(bench, readLessonText(text), from);
}
export function openLink(bench) {
  openLesson(bench, lessonOfFragment(location.hash), "The link");
}

function readLessonText(text) {
  try {
    return readLesson(JSON.parse(text));
  } catch {
    return null;
  }
}

// Opens what was handed out. It is shown, and runs when one says so
function openLesson(bench, lesson, from) {
  if (!lesson) { bench.say(`${from} has no program that can be opened.`); return; }
  const place = file => {
    const kept = bench.store.read(file.name);
    return kept && kept.text === file.text ? file.name : bench.newFile(file.name, file.text);
  };
  const { machine, map, input, ends, micro, program, view, cycle } = lesson, name = place(program);
  if (!name) return;
  bench.set("machine", machine);
  bench.set("map", map);
  bench.set("micro", micro ? place(micro) : "");
  bench.openFile(name);
  Object.assign(bench, { input, inputEnds: ends });
  bench.changed("all");
  const shown = () => { bench.view = view; return bench.run(true, cycle); };
  const text = `The program is in the editor${micro ? `, with the microprogram ${micro.name}` : ""}. Nothing has been run.`;
  ask(`${program.name}, as it was handed out`, element("p", {}, text),
    [[cycle ? `step to cycle ${cycle.toLocaleString("en-US")}` : "step", true], ["look at the program first", null]]).then(yes => yes && shown());
}

export async function handOut(bench) {
  let lesson;
  try {
    lesson = lessonOf(bench);
  } catch (error) { bench.say(error.message); return; }
  const fragment = fragmentOf(lesson), address = location.href.split("#")[0] + (fragment || "");
  const field = element("input", { value: address, readOnly: true, size: 50, "aria-label": "link", onfocus: event => event.target.select() });
  const text = fragment ? "This link opens the program here, at this cycle. The program is in the link itself, and is sent nowhere."
    : "The program is too long for a link (32 kB). Save it as a file: dropped onto the page, it opens the program at this cycle.";
  const choice = await ask("Hand out", element("div", {}, element("p", {}, text), fragment ? element("p", {}, field) : null),
    [...(fragment ? [["copy the link", "copy"]] : []), ["save as a file", "file"], ["close", null]]);
  const failed = () => bench.say("The browser does not let the page copy: select the link, and copy it.");
  if (choice === "copy") await navigator.clipboard.writeText(address).catch(failed);
  if (choice === "file") saveAs(`${lesson.program.name}.json`, JSON.stringify(lesson));
}
