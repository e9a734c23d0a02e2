// The words of a command line, as a shell splits them: at spaces, except between quotes.

const WORD = /(?:[^\s"']|"[^"]*"|'[^']*')+/g;

/** @param {string} line */
export function wordsOf(line) {
  const words = line.match(WORD) ?? [];
  return words.map((word) => word.replace(/"([^"]*)"|'([^']*)'/g, (_, double, single) => double ?? single));
}
