// An engine for tests in node: each call is a process of the program `mic`, or of `mic-check`, in a folder of its own.
import { spawnSync } from "node:child_process";
import { mkdtempSync, readFileSync, readdirSync, rmSync, writeFileSync } from "node:fs";
import { tmpdir } from "node:os";
import { join } from "node:path";

const MOST_BYTES = 1 << 28;

export class NativeEngine {
  constructor(mic, check = null) {
    this.programs = { mic, "mic-check": check };
  }

  async call({ program = "mic", words, files = {}, input = "" }) {
    const folder = mkdtempSync(join(tmpdir(), "workbench."));
    try {
      for (const [name, bytes] of Object.entries(files)) writeFileSync(join(folder, name), bytes);
      const { status, stdout, stderr, error } = spawnSync(this.programs[program], words, { cwd: folder, input, maxBuffer: MOST_BYTES });
      if (error) throw error;
      const names = readdirSync(folder).filter(name => !(name in files));
      const written = Object.fromEntries(names.map(name => [name, new Uint8Array(readFileSync(join(folder, name)))]));
      return { status, out: new Uint8Array(stdout), err: new Uint8Array(stderr), written, left: 0, full: false, time: 0, memory: 0 };
    } finally {
      rmSync(folder, { recursive: true });
    }
  }
}
