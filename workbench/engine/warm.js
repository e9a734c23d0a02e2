// Small runs that let the browser compile the module well before the first call that matters. A browser does so only
// for functions that have run a while, and never in the middle of a call.

const LOOP = `.main
.var
 i
.end-var
 BIPUSH 0
 ISTORE i
again: IINC i 1
 ILOAD i
 IFEQ done
 ILOAD i
 BIPUSH 65
 IAND
 POP
 GOTO again
done: HALT
.end-main
`;

const SMALL = 1 << 16;

function runOn(machine) {
  return {
    words: ["run", `--machine=${machine}`, "--bound=200000", "loop.jas"],
    files: { "loop.jas": LOOP },
    limits: { out: SMALL, err: SMALL, written: SMALL },
  };
}

const TURNS = 8;

/** @type {import("./request.js").Request[]} */
export const WARMING = Array.from({ length: TURNS }, () => ["mic1", "mic2"].map(runOn)).flat();
