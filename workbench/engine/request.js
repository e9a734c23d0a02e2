// What a call is given: the program, words, files, console input, limits, and the numbers of the calls that fail.
import { NotACall } from "./errors.js";

/**
 * @typedef {object} Limits
 * @property {number} [time] Milliseconds until the call is stopped. None by default.
 * @property {number} [out] The most bytes of output, 16 MiB by default.
 * @property {number} [err] The most bytes of messages, 16 MiB by default.
 * @property {number} [written] The most bytes of names and contents of written files, 8 MiB by default.
 * @property {number} [rows] The most files that are written, 64 by default.
 */

/**
 * Numbers of calls, from 1, that fail: reads and writes of files, reads of the console, writes to `out` and to `err`.
 * @typedef {object} Fails
 * @property {number[]} [files]
 * @property {number[]} [console]
 * @property {number[]} [out]
 * @property {number[]} [err]
 */

/**
 * @typedef {object} Request
 * @property {"mic" | "mic-check"} [program] The program that is called, `mic` by default.
 * @property {string[]} words The words after the program's name.
 * @property {Record<string, string | Uint8Array> | Map<string, string | Uint8Array>} [files]
 * @property {string | Uint8Array} [input] Console input.
 * @property {Limits} [limits]
 * @property {Fails} [fails]
 */

const MIB = 1 << 20;

/** The programs of the module, each with the module's function that calls it. */
const PROGRAMS = new Map([
  ["mic", "mic_web_call"],
  ["mic-check", "mic_check_call"],
]);

export const DEFAULT_LIMITS = Object.freeze({ time: Infinity, out: 16 * MIB, err: 16 * MIB, written: 8 * MIB, rows: 64 });

/** The bytes of a text in UTF-8. A text with half of a surrogate pair has none. */
function utf8Of(text) {
  if (!text.isWellFormed?.() && /[\ud800-\udfff]/u.test(text)) {
    throw new NotACall(`no text in UTF-8: ${JSON.stringify(text)}`);
  }
  return new TextEncoder().encode(text);
}

function bytesOf(value) {
  return typeof value === "string" ? utf8Of(value) : value;
}

function entriesOf(files) {
  return files instanceof Map ? [...files] : Object.entries(files);
}

/** The limits that are given, and the usual ones for the others. */
function allLimits(limits) {
  const given = Object.entries(limits).filter(([, value]) => value !== undefined);
  return { ...DEFAULT_LIMITS, ...Object.fromEntries(given) };
}

function functionOf(program) {
  if (!PROGRAMS.has(program)) {
    throw new NotACall(`there is no program ${program}`);
  }
  return PROGRAMS.get(program);
}

/**
 * A request with everything in bytes, with all limits, and with the module's function for its program.
 * @param {Request} request
 */
export function readRequest({ program = "mic", words, files = {}, input = "", limits = {}, fails = {} }) {
  const { files: reads = [], console: inputs = [], out = [], err = [] } = fails;
  return {
    called: functionOf(program),
    words: words.map(utf8Of),
    files: entriesOf(files).map(([name, contents]) => ({ name: utf8Of(name), contents: bytesOf(contents) })),
    input: bytesOf(input),
    limits: allLimits(limits),
    fails: { files: reads, console: inputs, out, err },
  };
}
