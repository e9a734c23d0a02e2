// One call of the module: what is given is laid out in a new instance's memory, and what came of it is read there.
import { BadModule, NoRoom, NotACall, OutOfMemory, Trapped } from "./errors.js";
import { ModuleMemory } from "./memory.js";
import { readRequest } from "./request.js";

/**
 * @typedef {object} Answer
 * @property {number} status
 * @property {Uint8Array} out
 * @property {Uint8Array} err
 * @property {Record<string, Uint8Array>} written The files that were written, as they are at the end.
 * @property {number} left How many bytes of the input were not taken.
 * @property {boolean} full Whether `out` or `err` was longer than its limit, so that the call ended there.
 * @property {number} time Milliseconds of the call.
 * @property {number} memory Bytes of the module's memory.
 */

/** The numbers of a span: start and end. Those of a row of files: a name's span and the contents' span. */
const SPAN = 2;
const ROW = 2 * SPAN;

/** Status, bytes of `out`, bytes of `err`, bytes of the input that are left, count of written files. */
const TOLD = 5;

/** The status of a call whose `out` or `err` failed. */
const SINK_FAILED = 71;

/** What the module returns where it made no call. */
const NO_ANSWER = {
  1: () => new OutOfMemory("memory ran out before the call"),
  2: () => new NotACall("a word or a file's name is no text in UTF-8"),
  3: ({ written, rows }) => new NoRoom(`the written files have more than ${written} bytes, or are more than ${rows}`),
};

/** All pieces as one, and where each of them begins and ends. */
function packed(pieces) {
  const bytes = new Uint8Array(pieces.reduce((sum, piece) => sum + piece.length, 0));
  const spans = [];
  let at = 0;
  for (const piece of pieces) {
    bytes.set(piece, at);
    spans.push(at, at + piece.length);
    at += piece.length;
  }
  return { bytes, spans };
}

/** Lays out what is given, and room for what comes of it. */
function layOut(memory, { words, files, input, limits, fails }) {
  const { bytes, spans } = packed([...words, ...files.flatMap(({ name, contents }) => [name, contents])]);
  return {
    given: memory.withBytes(bytes),
    words: memory.withNumbers(spans.slice(0, SPAN * words.length)),
    files: memory.withNumbers(spans.slice(SPAN * words.length)),
    input: memory.withBytes(input),
    fails: [fails.files, fails.console, fails.out, fails.err].map((numbers) => memory.withNumbers(numbers)),
    out: memory.room(limits.out),
    err: memory.room(limits.err),
    written: memory.room(limits.written),
    table: memory.numberRoom(ROW * limits.rows),
    told: memory.numberRoom(TOLD),
  };
}

/** The arguments of a function of the module: an address and a count for each slice, and the address of what is told. */
function argumentsOf(laid, { words, files, limits, fails }) {
  const slices = [
    [laid.given, laid.given.length],
    [laid.words, words.length],
    [laid.files, files.length],
    [laid.input, laid.input.length],
    [laid.fails[0], fails.files.length],
    [laid.fails[1], fails.console.length],
    [laid.fails[2], fails.out.length],
    [laid.fails[3], fails.err.length],
    [laid.out, limits.out],
    [laid.err, limits.err],
    [laid.written, limits.written],
    [laid.table, limits.rows],
  ];
  return [...slices.flatMap(([slice, count]) => [slice.address, BigInt(count)]), laid.told.address];
}

function writtenFiles({ written, table }, count) {
  const files = [];
  for (let row = 0; row < count; row++) {
    const [nameStart, nameEnd, start, end] = [0, 1, 2, 3].map((place) => table.number(ROW * row + place));
    files.push([new TextDecoder().decode(written.bytes(nameStart, nameEnd)), written.bytes(start, end).slice()]);
  }
  return Object.fromEntries(files);
}

function answerOf(laid, fails) {
  const [status, out, err, left, count] = Array.from({ length: TOLD }, (_, index) => laid.told.number(index));
  const mayFail = fails.out.length + fails.err.length > 0;
  return {
    status,
    out: laid.out.bytes(0, out).slice(),
    err: laid.err.bytes(0, err).slice(),
    written: writtenFiles(laid, count),
    left,
    full: status === SINK_FAILED && !mayFail,
    memory: laid.told.memory.buffer.byteLength,
  };
}

/** A new instance of the module, which has this function. */
function instanceOf(compiled, called) {
  let instance;
  try {
    instance = new WebAssembly.Instance(compiled, {});
  } catch (error) {
    if (error instanceof RangeError) {
      throw new OutOfMemory("no memory for a new instance of the module");
    }
    throw new BadModule(String(error));
  }
  const missing = [called, "host_take", "memory"].filter((name) => !instance.exports[name]);
  if (missing.length > 0) {
    throw new BadModule(`the module has no ${missing.join(", ")}`);
  }
  return instance;
}

/** Runs what may trap: an overflow of the stack and each other trap is an error of the engine's. */
function untrapped(run) {
  try {
    return run();
  } catch (error) {
    if (error instanceof WebAssembly.RuntimeError || error instanceof RangeError) {
      throw new Trapped(String(error.message));
    }
    throw error;
  }
}

/**
 * Makes a call in a new instance: nothing is left of the one before, and a trap harms nothing.
 * @param {WebAssembly.Module} compiled
 * @param {import("./request.js").Request} request
 * @returns {Answer}
 */
export function makeCall(compiled, request) {
  const read = readRequest(request);
  const { exports } = instanceOf(compiled, read.called);
  const began = performance.now();
  const laid = layOut(new ModuleMemory(exports), read);
  const code = untrapped(() => exports[read.called](...argumentsOf(laid, read)));
  if (code !== 0) {
    throw NO_ANSWER[code](read.limits);
  }
  return { ...answerOf(laid, read.fails), time: performance.now() - began };
}
