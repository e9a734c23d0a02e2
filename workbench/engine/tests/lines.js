// Makes calls for another program: each line of standard input is a request, each line of standard output its answer, with
// the milliseconds of processor time that the call took.
// usage: node lines.js MODULE.wasm
import fs from "node:fs";
import readline from "node:readline";
import { makeCall } from "../call.js";
import { requestOf, replyOf } from "./json.js";

const compiled = await WebAssembly.compile(fs.readFileSync(process.argv[2]));

for await (const line of readline.createInterface({ input: process.stdin })) {
  let reply;
  try {
    const request = requestOf(JSON.parse(line));
    const before = process.cpuUsage();
    const answer = makeCall(compiled, request);
    const { user, system } = process.cpuUsage(before);
    reply = { ...replyOf(answer), processor: (user + system) / 1000 };
  } catch (error) {
    reply = { failure: `${error.name}: ${error.message}` };
  }
  process.stdout.write(JSON.stringify(reply) + "\n");
}
