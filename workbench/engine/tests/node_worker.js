// A worker of node with the interface of a browser's, for the engine's tests.
import { Worker } from "node:worker_threads";

const SHIM = `
const { parentPort, workerData } = require("node:worker_threads");
globalThis.self = globalThis;
globalThis.postMessage = (message, moved) => parentPort.postMessage(message, moved);
import(workerData).then(() => parentPort.on("message", (data) => self.onmessage({ data })));
`;

/** @param {URL} address of the worker's module */
export function nodeWorker(address) {
  return () => {
    const worker = new Worker(SHIM, { eval: true, workerData: String(address) });
    worker.on("message", (data) => worker.onmessage({ data }));
    worker.on("error", (error) => worker.onerror(error));
    return worker;
  };
}
