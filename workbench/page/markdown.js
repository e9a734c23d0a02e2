// The little of Markdown that the tasks have: headings, paragraphs, lists, tables, code.
import { element } from "./dom.js";

const INLINE = /(`[^`]+`|\*\*[^*]+\*\*|\[[^\]]+\]\([^)]+\))/;

function inlineParts(text) {
  return text.split(INLINE).filter(Boolean).map(piece => {
    if (piece.startsWith("`")) return element("code", {}, piece.slice(1, -1));
    if (piece.startsWith("**")) return element("b", {}, piece.slice(2, -2));
    const named = /^\[([^\]]+)\]\(/.exec(piece);
    return named ? named[1] : piece;
  });
}

const BLOCKS = [
  ["fence", line => /^```/.test(line)], ["heading", line => /^#+ /.test(line)], ["table", line => /^\|/.test(line)],
  ["list", line => /^[-*] /.test(line)], ["blank", line => !line.trim()], ["paragraph", () => true],
];
const kindOfBlock = line => BLOCKS.find(([, is]) => is(line))[0];

function endOf(lines, from, kind) {
  let to = from + 1;
  if (kind === "fence") {
    while (to < lines.length && !/^```/.test(lines[to])) to++;
    return to + 1;
  }
  const goesOn = GOES_ON[kind];
  while (goesOn && to < lines.length && goesOn(lines[to])) to++;
  return to;
}

const GOES_ON = {
  table: line => /^\|/.test(line), list: line => /^([-*] |  )/.test(line), paragraph: line => kindOfBlock(line) === "paragraph",
};

const tableLine = line => element("tr", {}, ...line.split("|").slice(1, -1).map(text =>
  element("td", { className: "text" }, ...inlineParts(text.trim()))));
const listItem = item => element("li", {}, ...inlineParts(item.slice(2).replace(/\n\s*/g, " ")));

const MAKERS = {
  fence: lines => element("pre", {}, element("code", {}, lines.slice(1, /^```/.test(lines[lines.length - 1]) ? -1 : undefined).join("\n"))),
  heading: ([line]) => element(line.startsWith("# ") ? "h1" : "h2", {}, ...inlineParts(line.replace(/^#+ /, ""))),
  table: lines => element("table", { className: "rows" }, ...lines.filter(line => !/^\|[-| ]+$/.test(line)).map(tableLine)),
  list: lines => element("ul", {}, ...lines.join("\n").split(/\n(?=[-*] )/).map(listItem)),
  paragraph: lines => element("p", {}, ...inlineParts(lines.join(" "))),
};

export function markdown(text) {
  const lines = text.replace(/<\!--.*?-->\n?/gs, "").split("\n"), box = element("div", { className: "task" });
  for (let from = 0; from < lines.length;) {
    const kind = kindOfBlock(lines[from]), to = endOf(lines, from, kind);
    if (MAKERS[kind]) box.append(MAKERS[kind](lines.slice(from, to)));
    from = to;
  }
  return box;
}
