// An exercise checked by its cases, by the rule of classroom/grade: a case has passed if the run ended by halt, gave exactly the wanted
// output, and had no more than the allowed cycles and misses.
import { readReport } from "../mic/report.js";
import { bytesOfText, isEqualBytes, latin1 } from "./bytes.js";

// What the file `options` says: words of `mic run`
export function exerciseOptions({ options }) {
  const value = name => (new RegExp(`--${name}[= ](\\S+)`).exec(options) || [])[1];
  return { machine: value("machine") || "mic1", map: value("map") || "standard", bound: +(value("bound") || 10_000_000) };
}

function settingOfCase(exercise, one, file) {
  const isMicro = exercise.kind === "mal", shared = exercise.program ? { name: "program.jas", text: exercise.program } : null;
  const program = isMicro ? (one.program ? { name: `${one.name}.jas`, text: one.program } : shared) : file;
  return { ...exerciseOptions(exercise), program, micro: isMicro ? file : null, input: one.input };
}

// Where two outputs differ, and what is there in each
function differenceOf(wanted, given) {
  let at = 0;
  while (at < wanted.length && at < given.length && wanted[at] === given[at]) at++;
  const start = Math.max(wanted.subarray(0, at).lastIndexOf(10) + 1, at - 20), line = wanted.subarray(0, at).filter(byte => byte === 10).length + 1;
  const piece = bytes => {
    const end = bytes.indexOf(10, start) + 1 || bytes.length;
    return JSON.stringify(latin1(bytes.subarray(start, Math.min(end, start + 40))));
  };
  return `line ${line}: wanted ${piece(wanted)}, given ${piece(given)}`;
}

async function runCase(mic, exercise, one, file) {
  const setting = settingOfCase(exercise, one, file), call = await mic.prepare(setting), input = bytesOfText(one.input);
  const cached = ["cache", ...call.options("bound", "map"), "--", call.program, String(exercise.lines)];
  return mic.accepted(call, exercise.lines ? call.request(cached, { input }) : call.run("run", [], { input }));
}

// {name, passed, points, of, cycles, misses, given, reason}
export async function gradeCase(mic, exercise, one, file) {
  const row = { name: one.name, passed: false, points: 0, of: one.points, cycles: 0, instructions: 0, misses: null, given: null, reason: "" };
  let answer;
  try {
    answer = await runCase(mic, exercise, one, file);
  } catch (error) {
    if (!error.refusal) throw error;
    const { line, text } = error.refusal;
    return { ...row, refusal: error.refusal, reason: `refused${line ? `, line ${line}` : ""}: ${text}` };
  }
  const report = readReport(latin1(answer.err)), wanted = bytesOfText(one.output);
  Object.assign(row, { cycles: report.cycles, instructions: report.instructions, given: answer.out });
  row.misses = report.cache ? report.cache.misses : null;
  row.reason = answer.status !== 0 ? `the run ended by ${report.end}`
    : !isEqualBytes(wanted, answer.out) ? differenceOf(wanted, answer.out)
      : one.cycles !== null && report.cycles > one.cycles ? `${report.cycles} cycles, and at most ${one.cycles} are allowed`
        : one.misses !== null && row.misses > one.misses ? `${row.misses} misses, and at most ${one.misses} are allowed` : "";
  row.passed = row.reason === "";
  row.points = row.passed ? one.points : 0;
  return row;
}
