// The page that makes calls for another program, by `window.ask(request)`.
import { blobWorker } from "../blob_worker.js";
import { Engine, compileModule } from "../engine.js";
import { bytesOf, replyOf, requestOf } from "./json.js";

const textOf = (id) => document.getElementById(id).textContent;
const engine = compileModule(bytesOf(textOf("module"))).then((compiled) => new Engine(compiled, blobWorker(textOf("worker"))));

window.ask = async (request) => {
  try {
    return replyOf(await (await engine).call(requestOf(request)));
  } catch (error) {
    return { failure: `${error.name}: ${error.message}` };
  }
};
