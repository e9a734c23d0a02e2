// Bytes as a page shows them: text where they are text, else rows of hexadecimal bytes. Never more than a browser can lay out.

const MOST_SHOWN = 200_000;
const MOST_ROWS = 1_000;
const ROW = 16;

/** The text of these bytes, or null where they are none, or have control characters that a page cannot show. */
export function textOf(bytes) {
  let text;
  try {
    text = new TextDecoder("utf-8", { fatal: true, ignoreBOM: true }).decode(bytes);
  } catch {
    return null;
  }
  return /[\0-\b\v\f\x0e-\x1f\x7f]/.test(text) ? null : text;
}

function rowOf(bytes, at) {
  const row = [...bytes.subarray(at, at + ROW)];
  const hex = row.map((byte) => byte.toString(16).padStart(2, "0")).join(" ");
  const text = row.map((byte) => (byte >= 32 && byte <= 126 ? String.fromCharCode(byte) : ".")).join("");
  return `${at.toString(16).padStart(8, "0")}  ${hex.padEnd(3 * ROW)} ${text}`;
}

export function hexOf(bytes) {
  const rows = [];
  for (let at = 0; at < bytes.length; at += ROW) {
    rows.push(rowOf(bytes, at));
  }
  return rows.join("\n");
}

/**
 * What is shown of these bytes, and a note where it is not all.
 * @param {Uint8Array} bytes
 */
export function shown(bytes) {
  const text = textOf(bytes);
  if (text === null) {
    return { text: hexOf(bytes.subarray(0, MOST_ROWS * ROW)), note: noteOf(bytes.length, MOST_ROWS * ROW) };
  }
  return { text: text.slice(0, MOST_SHOWN), note: noteOf(bytes.length, MOST_SHOWN) };
}

function noteOf(length, most) {
  return length > most ? `The first ${most} of ${length} bytes are shown. Save… writes all of them.` : "";
}
