// What a run is made of, and the words and files of mic's calls for it. The module sees only names that are chosen here, after `--`,
// so no name of a user's file is read as an option.
import { bytesOfText } from "../program/bytes.js";
import { kindOf } from "./refusal.js";

export const DEFAULT_BOUND = 10_000_000, MOST_BOUND = 1_000_000_000;

// {machine, map, bound, program: {name, text}, micro: {name, text} or null, input: text}
export class Call {
  constructor(setting) {
    this.setting = setting;
    this.kind = setting.program ? kindOf(setting.program.name) : "";
    this.program = `program.${this.kind || "jas"}`;
    this.files = {};
    this.shown = {};            // of each file that mic sees, the user's
    if (setting.program) this.put(this.program, setting.program);
    if (setting.micro) this.put("micro.mal", setting.micro);
  }
  put(name, file) {
    this.files[name] = bytesOfText(file.text);
    this.shown[name] = file;
  }
  // A compiled program takes the place of its source
  putImage(bytes) {
    this.files["program.ijvm"] = bytes;
    this.shown["program.ijvm"] = this.setting.program;
    this.program = "program.ijvm";
  }
  options(...names) {
    const { machine, map, bound, micro } = this.setting;
    const words = { machine: `--machine=${machine}`, map: `--map=${map}`, bound: `--bound=${bound}`, micro: micro ? "--micro=micro.mal" : "" };
    return names.map(name => words[name]).filter(Boolean);
  }
  request(words, more = {}) {
    return { words, files: this.files, ...more };
  }
  run(command, words = [], more = {}) {
    const options = this.options("machine", "micro", "map", "bound").filter(word => !words.some(other => sameOption(word, other)));
    return this.request([command, ...options, ...words, "--", this.program], more);
  }
}
const sameOption = (one, other) => one.split("=")[0] === other.split("=")[0];
