// All that is shown of one cycle, as plain values: no document is needed to compute it, and nothing else is needed to draw it.
//
// A picture is one cycle. A register has what it holds in the cycle, and what the edge at its end makes of it.
// An access of memory is at the port in the cycle after its statement, when the word goes over the wires.
import { CONSOLE, hex } from "./word.js";

const NAMED_BYTES = { MBR1: 1, MBR1U: 1, MBR2: 2, MBR2U: 2 };

const bytesOf = text => (!text || text === "-" ? [] : text.match(/../g));

export function factsOf(trace, i) {
  const statement = trace.statementAt(i), stalled = trace.isStalled(i), { columns } = trace;
  const loads = stalled ? [] : statement.loads;
  const facts = {
    machine: trace.machine, cycle: trace.first + i, place: i, statement, stalled, loads,
    buses: { a: columns.a[i], b: columns.b[i], alu: columns.alu[i], c: columns.c[i] },
    flags: { N: columns.flags[i] & 1, Z: columns.flags[i] >> 1 },
    tested: { N: !stalled && statement.jamn, Z: !stalled && statement.jamz },
    a: stalled ? null : statement.a,
    b: stalled ? null : statement.b,
    computes: !stalled && statement.computes,
    jumps: loads.includes("PC"),
  };
  facts.word = wordPort(trace, i, facts);
  if (trace.machine === "mic1") facts.byte = bytePort(trace, i, facts);
  else facts.unit = fetchUnit(trace, i, facts);
  facts.registers = registersOf(trace, i, facts);
  facts.next = nextAddress(trace, i, facts);
  Object.assign(facts, instructionFacts(trace, i));
  return facts;
}

// Memory's port for words: the access that is there, and the one that begins at this edge
function wordPort(trace, i, { statement, stalled }) {
  const reading = trace.reads[i] === 1, writing = trace.writes[i] === 1, address = trace.register("MAR", i);
  return {
    reading, writing, address,
    waits: reading && stalled,
    isConsole: (reading || writing) && address === CONSOLE,
    data: reading ? trace.register("MDR", i + 1) : trace.register("MDR", i),
    arrives: reading && !stalled,
    begins: stalled ? "" : statement.read ? "read" : statement.write ? "write" : "",
    nextAddress: trace.register("MAR", i + 1),
    nextData: trace.register("MDR", i + 1),
  };
}

function bytePort(trace, i, { statement }) {
  return {
    fetching: trace.fetches[i] === 1, address: trace.register("PC", i), data: trace.register("MBR", i + 1),
    begins: statement.fetch, nextAddress: trace.register("PC", i + 1),
  };
}

function fetchUnit(trace, i, { statement, stalled, jumps, a, b }) {
  const now = bytesOf(trace.columns.queue[i]), next = bytesOf(trace.columns.queue[i + 1]);
  const takes = stalled || jumps ? 0 : statement.demand, pending = now.length <= 2;
  const address = trace.register("IMAR", i), named = stalled ? 0 : Math.max(NAMED_BYTES[a] || 0, NAMED_BYTES[b] || 0);
  return {
    now, next, takes, pending, address, named,
    arrived: jumps ? 0 : Math.max(0, next.length - (now.length - takes)),
    dropped: jumps,
    tooShort: stalled,
    nextAddress: trace.register("IMAR", i + 1),
    word: pending ? trace.word(address, i) : null,
    dispatches: !stalled && statement.jmpc,
  };
}

// Of each register: now, next, whether it is loaded, whether it changes, and where the new value comes from
function registersOf(trace, i, facts) {
  const found = {}, { machine, loads, word, unit, jumps, stalled } = facts;
  const put = (name, now, next, loaded, from) => { found[name] = { now, next, loaded, changed: now !== next, from }; };
  for (const name of ["MAR", "MDR", "PC", "SP", "LV", "CPP", "TOS", "OPC", "H"]) {
    const arrives = name === "MDR" && word.arrives, grows = machine === "mic2" && name === "PC" && !jumps;
    put(name, hex(trace.register(name, i)), hex(trace.register(name, i + 1)), loads.includes(name) || arrives, arrives || grows ? "M" : "C");
  }
  put("MPC", hex(trace.register("MPC", i), 3), hex(trace.register("MPC", i + 1), 3), !stalled, "S");
  if (machine === "mic1") {
    put("MBR", hex(trace.register("MBR", i), 2), hex(trace.register("MBR", i + 1), 2), facts.byte.fetching, "M");
  } else {
    const front = (bytes, count) => (bytes.length < count ? "–" : bytes.slice(0, count).join(""));
    for (const [name, count] of [["MBR1", 1], ["MBR2", 2]]) put(name, front(unit.now, count), front(unit.next, count), false, "M");
    put("IMAR", hex(unit.address), hex(unit.nextAddress), false, jumps ? "C" : "M");
  }
  return found;
}

// The row of the next address: Addr OR byte OR flag
function nextAddress(trace, i, { machine, statement, stalled, flags, unit }) {
  const dispatched = machine === "mic1" ? hex(trace.register("MBR", i + 1), 2) : unit.now[statement.operandBytes];
  const mpc = trace.register("MPC", i + 1), follower = trace.statements[mpc];
  const high = statement.jamn && flags.N === 1 || statement.jamz && flags.Z === 1;
  return {
    address: statement.address,
    byte: statement.jmpc && !stalled ? dispatched : null,
    tests: statement.tests && !stalled,
    high,
    mpc,
    label: follower && follower.label !== "-" ? follower.label : "",
  };
}

// The instruction to which the cycle belongs, its cycle of how many, the one that begins after it, and the end of the run
function instructionFacts(trace, i) {
  const k = trace.instructionAt(i), { place, text } = trace.begins[k], end = trace.endOf(k);
  const isLast = i === trace.count - 1;
  return {
    instruction: text,
    ordinal: i - place + 1,
    instructionCycles: end === trace.count && trace.cut ? null : end - place,
    follows: trace.columns.boundary[i] >= 0 ? trace.instructions[trace.columns.boundary[i]] : null,
    end: isLast && !trace.cut ? trace.report.end : null,
  };
}
