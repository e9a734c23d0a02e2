/** Starts the worker that stands beside this module, where a server gives both. */
export function moduleWorker() {
  return () => new Worker(new URL("./worker.js", import.meta.url), { type: "module" });
}
