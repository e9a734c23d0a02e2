// What is asked of mic, and its answers as plain values. An engine makes the calls: that of the module, or the answers of a page
// that has one run inside.
import { cacheAccesses, cacheTotals } from "../machine/cache.js";
import { firstDifference } from "../machine/difference.js";
import { PipelineReader, PipelineTrace } from "../machine/pipeline.js";
import { TraceReader } from "../machine/reader.js";
import { counted } from "../machine/sentences.js";
import { Trace } from "../machine/trace.js";
import { MACHINES } from "../machine/word.js";
import { bytesOfText, latin1 } from "../program/bytes.js";
import { imageOf } from "../program/image.js";
import { checkedLines, linesOf, readListing, unitsOf } from "../program/program.js";
import { readRefusal } from "./refusal.js";
import { readReport, reportInWords, thousands } from "./report.js";
import { Call } from "./setting.js";
import { readStore } from "./store.js";
import { readVerdict } from "./verdict.js";

const REFUSED = new Set([64, 65, 66, 67, 75]);
const INPUT_FAILED = 70;
const BYTES_OF_A_CYCLE = { "--buses": 260, "": 190 };  // of a trace, but for very long labels
const MOST_WITH_BUSES = 200_000; // cycles; farther cycles come without them, so that the page's memory stays small
const MOST_CYCLES = 1_200_000;  // that are read, with those before the window
const CYCLES_AFTER_REPORT = 2048;  // at most, of an instruction that the end of the stack cuts: the report does not count them
const RUN_TIME = 120_000;       // milliseconds of one call
const OUTPUT_ROOM = 4 << 20;
const PIECE = 1 << 22;          // of a trace that is read at once
const CYCLES_AT_ONCE = 50_000;  // of the pipeline
const MOST_COMPARED = 300_000;  // cycles of each run
const MOST_CACHED = 200_000;

async function readTrace(reader, bytes, progress) {
  for (let at = 0; at < bytes.length; at += PIECE) {
    reader.feed(bytes.subarray(at, at + PIECE));
    progress(reader.count);
    await new Promise(resolve => setTimeout(resolve));
  }
  return reader.finish();
}

export class Refused extends Error {
  constructor(refusal) {
    super(refusal.text);
    this.name = "Refused";
    this.refusal = refusal;
  }
}

export class Mic {
  // texts: {messages, sentences}, those that the scripts of classroom/ have too
  constructor(engine, texts) {
    this.engine = engine;
    this.texts = texts;
    this.stores = new Map();
  }

  async answer(request) {
    const limits = { time: RUN_TIME, out: OUTPUT_ROOM, err: OUTPUT_ROOM, ...request.limits };
    const answer = await this.engine.call({ ...request, limits });
    return { ...answer, text: latin1(answer.out) };
  }

  refuse(call, answer) {
    const lines = call.kind === "mal" || !call.setting.program ? null : linesOf(call.kind, call.setting.program.text, null);
    throw new Refused(readRefusal(latin1(answer.err), call.shown, lines, this.texts));
  }
  async accepted(call, request) {
    const answer = await this.answer(request);
    if (REFUSED.has(answer.status)) this.refuse(call, answer);
    return answer;
  }

  // The files of a call; a program in Tiny is compiled, and goes on as its image
  async prepare(setting) {
    const call = new Call(setting);
    if (call.kind === "tiny") {
      const { written } = await this.accepted(call, call.request(["compile", "--", call.program, "program.ijvm"]));
      call.putImage(written["program.ijvm"]);
    }
    return call;
  }

  async imageBytes(call) {
    if (call.program === "program.ijvm") return call.files["program.ijvm"];
    const { written } = await this.accepted(call, call.request(["assemble", "--", call.program, "image.ijvm"]));
    return written["image.ijvm"];
  }

  // The lines, units, words and reached instructions of an accepted program
  async program(call) {
    const bytes = await this.imageBytes(call), image = imageOf(bytes), map = call.options("map");
    const verified = await this.accepted(call, call.request(["verify", ...map, "--", call.program]));
    const listed = await this.accepted(call, call.request(["list", ...map, "--", call.program]));
    const listing = readListing(listed.text), mainLocals = +/ main (\d+)/.exec(verified.text)[1];
    const lines = checkedLines(linesOf(call.kind, call.setting.program.text, image.text), listing);
    return { ...lines, image, listing, bytes, verified: verified.text.trim(), units: unitsOf(lines, listing, mainLocals) };
  }

  // Whether mic takes a text: {said} in words, or it throws Refused
  async check(file, kind, machine, map) {
    const version = machine === "mic1" ? "mic1" : "mic2";
    if (kind === "mal") {
      const call = new Call({ machine: version, micro: file });
      const { text } = await this.accepted(call, call.request(["micro", `--machine=${version}`, "--", "micro.mal", "store.mic"]));
      return { said: `accepted: ${counted(+/statements (\d+)/.exec(text)[1], "statement")}` };
    }
    const call = await this.prepare({ machine: version, map, program: file, bound: 0 });
    const { text } = await this.accepted(call, call.request(["verify", `--map=${map}`, "--", call.program]));
    const [, bytes, pool, methods] = /^ok text (\d+) pool (\d+) methods (\d+)/.exec(text);
    return { said: `accepted: ${counted(+bytes, "byte")} of code, ${counted(+pool, "word")} in the pool, ${counted(+methods, "method")}` };
  }

  // A run to its end, or to the read for which there is no input yet if `asks`
  async run(setting, asks = false, command = "run", words = []) {
    const call = await this.prepare(setting), input = bytesOfText(setting.input);
    const fails = asks ? { console: [input.length + 1] } : {};
    const answer = await this.accepted(call, call.run(command, words, { input, fails }));
    const err = latin1(answer.err), report = readReport(err);
    const ran = { setting, call, output: answer.out, status: answer.status, full: answer.full, report, err, time: answer.time,
      waits: asks && answer.status === INPUT_FAILED };
    if (!report) throw new Error(`mic has printed no report: ${err.slice(0, 200)}`);
    ran.program = await this.program(call);
    ran.words = reportInWords(report, setting, ran.program, { length: answer.out.length, isFull: answer.full }, this.texts.sentences);
    return ran;
  }

  async shipped(machine) {
    const { text } = await this.answer({ words: ["print-micro", `--machine=${machine}`] });
    return text;
  }

  // The statements of the control store, and the lines of a microprogram of one's own
  async store(machine, micro) {
    const version = machine === "mic1" ? "mic1" : "mic2", key = version + (micro ? micro.text : "");
    if (!this.stores.has(key)) this.stores.set(key, await this.readStore(version, micro));
    return this.stores.get(key);
  }
  async readStore(version, micro) {
    const name = micro ? "micro.mal" : "shipped.mal", text = micro ? micro.text : await this.shipped(version);
    const call = new Call({ machine: version, micro: micro || null }), machine = `--machine=${version}`;
    const files = { [name]: bytesOfText(text) };
    const placed = await this.accepted(call, { words: ["micro", machine, "--", name, "store.mic"], files });
    const listed = await this.answer({ words: ["print-micro", "--", "store.mic"], files: { "store.mic": placed.written["store.mic"] } });
    return readStore(version, placed.text, listed.text, micro ? text : null);
  }

  // Whether a microprogram for Mic-1 is proved to interpret IJVM, by mic-check
  async judge(file) {
    const call = new Call({ machine: "mic1", micro: file }), store = await this.store("mic1", file);
    const answer = await this.accepted(call, { program: "mic-check", ...call.request(["micro.mal"]) });
    if (answer.status > 1) throw new Error(`mic-check has judged nothing: ${latin1(answer.err).slice(0, 200)}`);
    return readVerdict(answer.status === 0, answer.text, store);
  }

  async resetRegisters(call) {
    const machine = `--machine=${call.setting.machine === "mic1" ? "mic1" : "mic2"}`, options = call.options("micro", "map");
    const answer = await this.accepted(call, call.request(["debug", machine, ...options, "--", call.program],
      { input: "regs\n" }));
    const parts = latin1(answer.err).split("\n")[0].split(" ");
    return Object.fromEntries(parts.filter((_, k) => k % 2 === 0).map((name, k) => [name, parts[2 * k + 1]]));
  }

  async setupOf({ call, setting, report, program }, statements) {
    return {
      machine: setting.machine, statements, reset: await this.resetRegisters(call), image: program.image.memory,
      pool: program.image.pool, units: program.units, expected: report.cycles,
      memoryWords: setting.map === "large" ? 0x20000 : 0x10000,
    };
  }

  // The cycles of a run from `first` on, at most `most`; `ran` is that run. `progress` gets the number of cycles read
  async trace(ran, first, most, progress = () => {}) {
    const { call, setting, report } = ran, { statements, lines } = await this.store(setting.machine, setting.micro);
    const setup = await this.setupOf(ran, statements);
    if (first > report.cycles) throw new Error(`The run has only ${thousands(report.cycles)} cycles.`);
    const last = first + most - 1;
    if (Math.min(last, report.cycles) > MOST_CYCLES) throw new Error(`Only the first ${thousands(MOST_CYCLES)} cycles of a run can be stepped.`);
    if (setting.machine === "mic3") return { trace: await this.pipeline(ran, setup, first, most, progress), microLines: lines };
    const isCut = report.cycles > last, end = Math.min(last, report.cycles + CYCLES_AFTER_REPORT);
    const buses = end > MOST_WITH_BUSES ? "" : "--buses", input = bytesOfText(setting.input);
    const words = [buses, isCut ? `--bound=${Math.min(setting.bound, last)}` : ""].filter(Boolean);
    const limits = { err: end * BYTES_OF_A_CYCLE[buses] + OUTPUT_ROOM }, fails = ran.waits ? { console: [input.length + 1] } : {};
    const answer = await this.answer(call.run("trace", words, { input, fails, limits }));
    if (answer.full) throw new Error("The trace of these cycles is too long for the page: choose fewer.");
    const read = await readTrace(new TraceReader(setup, first, most, buses !== ""), answer.err, progress);
    read.cut ||= isCut;
    return { trace: new Trace(setup, read, report), microLines: lines };
  }
  // A long run is computed to the end of the window alone, and compared with mic's report for that bound
  async pipeline(ran, setup, first, most, progress) {
    const { setting, program } = ran, last = first + most - 1, bound = Math.min(setting.bound, last);
    const { report } = ran.report.cycles > last ? await this.run({ ...setting, bound }, ran.waits) : ran;
    const run = { bound: ran.report.cycles > last ? bound : setting.bound, input: bytesOfText(setting.input), asks: ran.waits };
    const reader = new PipelineReader({ ...setup, expected: report.cycles }, run, first, most, program.listing.instructions);
    while (!reader.advance(CYCLES_AT_ONCE)) {
      progress(reader.machine.cycles);
      await new Promise(resolve => setTimeout(resolve));
    }
    const differs = reader.disagreement(report);
    if (differs) throw new Error(`The pipeline that is computed here differs from mic's report in ${differs}, and is not shown.`);
    const read = reader.finish();
    read.cut ||= ran.report.cycles > last;
    return new PipelineTrace(setup, read, ran.report);
  }

  // The first difference of the microprogram `other` from that of the setting, over the setting's program
  async difference(setting, other) {
    const traces = [];
    for (const micro of [setting.micro, other]) {
      const ran = await this.run({ ...setting, micro, bound: Math.min(setting.bound, MOST_COMPARED) });
      traces.push((await this.trace(ran, 1, MOST_COMPARED)).trace);
    }
    return firstDifference(...traces);
  }

  // A run with a cache of `lines` lines beside Mic-1: its accesses, if their totals are those of mic
  async cache(setting, lines) {
    const call = await this.prepare(setting), input = bytesOfText(setting.input);
    const answer = await this.accepted(call, call.request(["cache", ...call.options("bound", "map"), "--", call.program, String(lines)], { input }));
    const { cache } = readReport(latin1(answer.err)), ran = await this.run({ ...setting, machine: "mic1", micro: null });
    const { trace, microLines } = await this.trace(ran, 1, MOST_CACHED), accesses = cacheAccesses(trace, lines), totals = cacheTotals(accesses);
    if (!trace.cut && (totals.hits !== cache.hits || totals.misses !== cache.misses)) {
      throw new Error(`The cache that is computed here has ${totals.misses} misses, and mic reports ${cache.misses}: it is not shown.`);
    }
    return { ran, trace, microLines, lines, accesses, totals: cache, isCut: trace.cut };
  }

  async profile(setting) {
    const ran = await this.run(setting, false, "profile");
    const rows = [...ran.err.matchAll(/^((?:WIDE )?[A-Z_]+|\?) (\d+) (\d+)$/gm)].map(([, name, count, cycles]) => [name, +count, +cycles]);
    const number = name => +(new RegExp(`^${name} (\\d+)`, "m").exec(ran.err) || [0, 0])[1];
    return { ...ran, rows, boot: number("boot"), stalls: number("stalls") };
  }
}

export const canTrace = machine => machine in MACHINES;
