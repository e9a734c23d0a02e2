/**
 * Starts a worker of this text, as in a page of one file.
 * @param {string} source The worker and all that it imports, as one script.
 */
export function blobWorker(source) {
  const address = URL.createObjectURL(new Blob([source], { type: "text/javascript" }));
  return () => new Worker(address);
}
