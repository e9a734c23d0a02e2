// The sentences of mic's messages, ends and differences: the same file as that of the scripts in classroom/, so that there is one text.

// Puts values into the places of a sentence: "{1} operands on one way"
export const filled = (sentence, places) => sentence.replace(/\{([^}]+)\}/g, (all, name) => (name in places ? String(places[name]) : all));

export const capital = text => text.charAt(0).toUpperCase() + text.slice(1);

// A message of the verifier in words, or "" where there is no sentence for it
export function verifierWords(sentences, text, places) {
  for (const { pattern, words } of sentences.verifier) {
    const found = new RegExp(pattern).exec(text);
    if (found) return filled(words, { ...places, ...found });
  }
  return "";
}

// How a run ended, with where: "Stopped by the bound of 1,000 cycles, in line 5 of a.jas; a program that .."
export function endWords(sentences, end, places, where) {
  const [name] = end.split(" "), sentence = sentences.ends[name];
  if (!sentence) return `The run ended by ${end}${where ? `, in ${where}` : ""}.`;
  const [first, ...rest] = filled(sentence, places).split("; ");
  return `${capital([`${first}${where ? `, in ${where}` : ""}`, ...rest].join("; "))}.`;
}
