// Tests of the engine: answers, each error by its name, and that a stopped or broken call leaves it able to go on.
// usage: node engine.js MODULE.wasm
import assert from "node:assert/strict";
import fs from "node:fs";
import { makeCall } from "../call.js";
import { Engine, compileModule } from "../engine.js";
import { nodeWorker } from "./node_worker.js";
import { BREAKING, EMPTY, TWO_PROGRAMS } from "./tiny_module.js";

const compiled = await compileModule(fs.readFileSync(process.argv[2]));
const startWorker = nodeWorker(new URL("../worker.js", import.meta.url));

const text = (bytes) => new TextDecoder().decode(bytes);
const ABC = ".main\n BIPUSH 'A'\n OUT\n BIPUSH 'B'\n OUT\n BIPUSH 'C'\n OUT\n HALT\n.end-main\n";
const ECHO_ONE = ".main\n IN\n OUT\n HALT\n.end-main\n";
const ENDLESS = ".main\nagain: GOTO again\n.end-main\n";
const IDLE = "Main1 goto Main1\n";
const abc = { words: ["run", "abc.jas"], files: { "abc.jas": ABC } };
const endless = { words: ["run", "--bound=1000000000", "endless.jas"], files: { "endless.jas": ENDLESS } };
const assemble = { words: ["assemble", "abc.jas", "abc.ijvm"], files: { "abc.jas": ABC } };

const throwsAs = (name, run) => assert.throws(run, { name });
const rejectsAs = (name, promise) => assert.rejects(promise, { name });
const later = (ms) => new Promise((resolve) => setTimeout(resolve, ms));

async function withEngine(use) {
  const engine = new Engine(compiled, startWorker);
  try {
    await use(engine);
  } finally {
    engine.close();
  }
}

const TESTS = {
  "a call answers with all that came of it"() {
    const answer = makeCall(compiled, { words: ["run", "echo.jas"], files: { "echo.jas": ECHO_ONE }, input: "xyz" });
    assert.equal(answer.status, 0);
    assert.equal(text(answer.out), "x");
    assert.match(text(answer.err), /^end halt\ncycles \d+ instructions 3\n/);
    assert.equal(answer.left, 2);
    assert.deepEqual(answer.written, {});
    assert.equal(answer.full, false);
  },

  "a written file comes back, and what was given stays"() {
    const files = { "abc.jas": new TextEncoder().encode(ABC) };
    const { written } = makeCall(compiled, { ...assemble, files });
    assert.deepEqual(Object.keys(written), ["abc.ijvm"]);
    assert.deepEqual([...written["abc.ijvm"].subarray(0, 4)], [0x1d, 0xea, 0xdf, 0xad]);
    assert.equal(text(files["abc.jas"]), ABC);
  },

  "every name of a file comes through"() {
    for (const name of ["__proto__", "constructor", "a b", "é/ü.jas"]) {
      const files = new Map([[name, ABC]]);
      assert.equal(text(makeCall(compiled, { words: ["run", name], files }).out), "ABC");
      const { written } = makeCall(compiled, { words: ["assemble", "abc.jas", name], files: { "abc.jas": ABC } });
      assert.deepEqual(Object.keys(written), [name]);
    }
  },

  "words without a call have the usage text"() {
    const answer = makeCall(compiled, { words: [] });
    assert.equal(answer.status, 64);
    assert.match(text(answer.err), /^usage/);
  },

  "output beyond its limit is said"() {
    const cut = makeCall(compiled, { ...abc, limits: { out: 2 } });
    assert.deepEqual([cut.status, cut.full], [71, true]);
    assert.ok("AB".startsWith(text(cut.out)));
    const whole = makeCall(compiled, { ...abc, limits: { out: 3 } });
    assert.deepEqual([whole.status, text(whole.out), whole.full], [0, "ABC", false]);
  },

  "a call of the outside can be made to fail"() {
    const echo = { words: ["run", "echo.jas"], files: { "echo.jas": ECHO_ONE } };
    assert.equal(makeCall(compiled, { ...echo, fails: { console: [1] } }).status, 70);
    const failed = makeCall(compiled, { ...abc, fails: { out: [1] } });
    assert.deepEqual([failed.status, failed.full], [71, false]);
    assert.equal(makeCall(compiled, { ...abc, fails: { files: [1] } }).status, 66);
    assert.equal(makeCall(compiled, { ...abc, fails: { err: [1] } }).status, 71);
  },

  "each program is called by a function of its own"() {
    const module = new WebAssembly.Module(TWO_PROGRAMS);
    throwsAs("Trapped", () => makeCall(module, { words: [] }));
    throwsAs("Trapped", () => makeCall(module, { program: "mic", words: [] }));
    throwsAs("NotACall", () => makeCall(module, { program: "mic-check", words: [] }));
  },

  "NotACall: a text with half of a surrogate pair, or a program that is not there"() {
    throwsAs("NotACall", () => makeCall(compiled, { program: "micro", words: [] }));
    throwsAs("NotACall", () => makeCall(compiled, { words: ["\ud800"] }));
    throwsAs("NotACall", () => makeCall(compiled, { words: [], files: { "\udc00": "" } }));
  },

  "NoRoom: written files beyond the limits"() {
    throwsAs("NoRoom", () => makeCall(compiled, { ...assemble, limits: { written: 20 } }));
    throwsAs("NoRoom", () => makeCall(compiled, { ...assemble, limits: { rows: 0 } }));
  },

  "OutOfMemory: more room than there is memory"() {
    throwsAs("OutOfMemory", () => makeCall(compiled, { ...abc, limits: { out: 2 ** 33 } }));
    throwsAs("OutOfMemory", () => makeCall(compiled, { ...abc, limits: { out: 2 ** 31, err: 2 ** 31 - 2 ** 20 } }));
  },

  async "Trapped: the module breaks off"() {
    throwsAs("Trapped", () => makeCall(new WebAssembly.Module(BREAKING), { words: [] }));
    const engine = new Engine(new WebAssembly.Module(BREAKING), startWorker);
    await rejectsAs("Trapped", engine.call({ words: [] }));
    await rejectsAs("Trapped", engine.call({ words: [] }));
    engine.close();
  },

  async "BadModule: bytes of another kind"() {
    await rejectsAs("BadModule", compileModule(new Uint8Array([1, 2, 3])));
    throwsAs("BadModule", () => makeCall(new WebAssembly.Module(EMPTY), { words: [] }));
    throwsAs("BadModule", () => makeCall(new WebAssembly.Module(BREAKING), { program: "mic-check", words: [] }));
  },

  async "NoWorker: the worker does not start"() {
    const engine = new Engine(compiled, nodeWorker(new URL("./missing.js", import.meta.url)));
    await rejectsAs("NoWorker", engine.call(abc));
  },

  async "calls are made in turn"() {
    await withEngine(async (engine) => {
      const answers = await Promise.all([engine.call(abc), engine.call(assemble), engine.call(abc)]);
      assert.deepEqual(answers.map(({ out }) => text(out).slice(0, 4)), ["ABC", "text", "ABC"]);
    });
  },

  async "Stopped: a call is stopped, and the next is made"() {
    await withEngine(async (engine) => {
      const stopped = engine.call(endless);
      const next = engine.call(abc);
      setTimeout(() => engine.stop(), 300);
      await rejectsAs("Stopped", stopped);
      assert.equal(text((await next).out), "ABC");
      engine.stop();
      assert.equal(text((await engine.call(abc)).out), "ABC");
    });
  },

  async "TimedOut: a call takes longer than its limit"() {
    await withEngine(async (engine) => {
      await rejectsAs("TimedOut", engine.call({ ...endless, limits: { time: 200 } }));
      assert.equal(text((await engine.call({ ...abc, limits: { time: 60_000 } })).out), "ABC");
    });
  },

  async "an engine that is closed stops what it makes and what waits"() {
    const engine = new Engine(compiled, startWorker);
    const calls = [engine.call(endless), engine.call(abc)];
    await later(100);
    engine.close();
    await Promise.all(calls.map((call) => rejectsAs("Stopped", call)));
  },

  async "a call that waits for a small run can be stopped"() {
    await withEngine(async (engine) => {
      const warmed = engine.warm();
      const stopped = engine.call(endless);
      engine.stop();
      await rejectsAs("Stopped", stopped);
      await warmed;
      assert.equal(text((await engine.call(abc)).out), "ABC");
    });
  },

  async "small runs give way to a call"() {
    await withEngine(async (engine) => {
      const warmed = engine.warm();
      assert.equal(text((await engine.call(abc)).out), "ABC");
      await warmed;
    });
  },
};

const CHECKED = {
  "mic-check judges a microprogram"() {
    const judged = makeCall(compiled, { program: "mic-check", words: ["idle.mal"], files: { "idle.mal": IDLE } });
    assert.equal(judged.status, 1);
    assert.match(text(judged.out), /^not shown: /);
    assert.deepEqual(judged.written, {});
  },

  "mic-check refuses what is no microprogram"() {
    const refused = makeCall(compiled, { program: "mic-check", words: ["abc.jas"], files: { "abc.jas": ABC } });
    assert.equal(refused.status, 65);
    assert.match(text(refused.err), /abc\.jas/);
  },
};

if (WebAssembly.Module.exports(compiled).some(({ name }) => name === "mic_check_call")) {
  Object.assign(TESTS, CHECKED);
} else {
  console.log("left out: the module has no mic-check");
}

let failed = 0;
for (const [name, test] of Object.entries(TESTS)) {
  try {
    await test();
  } catch (error) {
    failed++;
    console.log(`${name}: ${error.message}`);
  }
}
console.log(`${Object.keys(TESTS).length - failed} passed, ${failed} failed`);
process.exit(failed > 0 ? 1 : 0);
