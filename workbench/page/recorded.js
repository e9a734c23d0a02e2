// A page with one run inside: the answers of mic lie in it, in place of the engine.
import { machineName } from "../mic/report.js";
import { bytesOfBase64 } from "../program/bytes.js";

const asBytes = text => Uint8Array.from(text, sign => sign.charCodeAt(0));

export class RecordedEngine {
  // answers: of each call's words {status, out, err, written: {name: base64}}; texts have a byte as a letter
  constructor(answers) {
    this.answers = new Map(answers.map(({ words, ...answer }) => [JSON.stringify(words), answer]));
  }
  async call({ words }) {
    const answer = this.answers.get(JSON.stringify(words));
    if (!answer) throw new Error(`This page has one run inside, and no answer to: mic ${words.join(" ")}`);
    const written = Object.fromEntries(Object.entries(answer.written).map(([name, text]) => [name, bytesOfBase64(text)]));
    return { status: answer.status, out: asBytes(answer.out), err: asBytes(answer.err), written, left: 0, full: false, time: 0, memory: 0 };
  }
  stop() {}
}

// Shows the run of the page at the cycle of its address
export function showRecorded(bench, { setting, window, from }) {
  const { program, micro, machine, map, bound, input } = setting;
  for (const file of [micro, program].filter(Boolean)) bench.store.examples[file.name] = file.text;
  document.body.classList.add("recorded");
  document.querySelector("#bar h1").textContent = `${program.name} on ${machineName(machine)}${micro ? ` with ${micro.name}` : ""}`;
  Object.assign(bench.settings, { machine, map, bound, window, from, micro: micro ? micro.name : "" });
  Object.assign(bench, { input, inputEnds: true });
  bench.openFile(program.name);
  const cycle = () => +(/^#cycle=(\d+)$/.exec(location.hash) || [0, 0])[1];
  addEventListener("hashchange", () => bench.go(stepping => stepping.go(cycle() - stepping.trace.first)));
  return bench.run(true, cycle());
}
