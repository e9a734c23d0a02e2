// The engine of a page that is one file: the module and the worker's script lie in the page.
import { Engine, compileModule } from "../engine/engine.js";
import { bytesOfBase64 } from "../program/bytes.js";

const textIn = id => document.getElementById(id).textContent;

// Trusted types allow one thing as a script's address: that of the worker which lies in this page
function workerAddress() {
  const address = URL.createObjectURL(new Blob([textIn("worker-script")], { type: "text/javascript" }));
  if (!window.trustedTypes) return address;
  const policy = window.trustedTypes.createPolicy("mic-worker", { createScriptURL: given => (given === address ? given : "") });
  return policy.createScriptURL(address);
}

// The module lies in the page packed
async function moduleBytes() {
  const packed = new Blob([bytesOfBase64(textIn("module").trim())]).stream();
  return new Response(packed.pipeThrough(new DecompressionStream("gzip"))).arrayBuffer();
}

export async function startEngines() {
  const address = workerAddress(), compiled = await compileModule(await moduleBytes());
  const started = () => new Engine(compiled, () => new Worker(address));
  return { engine: started(), checking: started() };
}
