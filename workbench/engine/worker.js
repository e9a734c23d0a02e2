// The worker's side: makes the calls that the page asks for, one after the other.
import { makeCall } from "./call.js";

let compiled;

function failureOf(error) {
  return { name: error.name, message: error.message };
}

/** The answer's bytes move to the page and are not copied. */
function buffersOf({ out, err, written }) {
  return [out, err, ...Object.values(written)].map((bytes) => bytes.buffer);
}

self.onmessage = ({ data }) => {
  if (data.module) {
    compiled = data.module;
    return;
  }
  try {
    const answer = makeCall(compiled, data.request);
    self.postMessage({ answer }, buffersOf(answer));
  } catch (error) {
    self.postMessage({ failure: failureOf(error) });
  }
};
