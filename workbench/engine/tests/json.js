// Requests and answers as JSON, with bytes in base64.

export function bytesOf(text) {
  return Uint8Array.from(atob(text), (character) => character.charCodeAt(0));
}

const PIECE = 1 << 15;

function base64Of(bytes) {
  let text = "";
  for (let at = 0; at < bytes.length; at += PIECE) {
    text += String.fromCharCode(...bytes.subarray(at, at + PIECE));
  }
  return btoa(text);
}

const withValues = (object, change) => Object.fromEntries(Object.entries(object).map(([name, value]) => [name, change(value)]));

export function requestOf({ program, words, files, input, limits, fails }) {
  return { program, words, files: withValues(files, bytesOf), input: bytesOf(input), limits, fails };
}

export function replyOf({ status, out, err, written, left, full, time, memory }) {
  return { status, out: base64Of(out), err: base64Of(err), written: withValues(written, base64Of), left, full, time, memory };
}
