// The colours of a line in each of the three languages: pieces [class, text].

const RULES = {
  jas: [
    ["comment", /\/\/.*/y], ["section", /\.(?:end-)?(?:constant|main|method|var)\b/y],
    ["number", /'[ -~]'|-?\b(?:0x[0-9a-fA-F]+|\d+)\b/y], ["name", /[A-Za-z_]\w*/y],
  ],
  mal: [
    ["comment", /\/\/.*/y], ["section", /\.(?:label|default)\b/y], ["memory", /\b(?:rd|wr|fetch)\b/y],
    ["operation", /\b(?:goto|if|else|AND|OR|NOT)\b/y], ["register", /\b(?:MAR|MDR|PC|SP|LV|CPP|TOS|OPC|H|MBR[12]?U?|N|Z)\b/y],
    ["number", /\b(?:0x[0-9a-fA-F]+|\d+)\b/y], ["name", /[A-Za-z_]\w*/y],
  ],
  tiny: [
    ["comment", /\/\/.*/y], ["number", /'[ -~]'|\b(?:0x[0-9a-fA-F]+|\d+)\b/y], ["section", /\b(?:fn|var)\b/y],
    ["operation", /\b(?:if|else|while|return|halt)\b/y], ["memory", /\b(?:put|get)\b/y], ["label", /[A-Za-z_]\w*(?=\s*\()/y],
    ["name", /[A-Za-z_]\w*/y],
  ],
};
const MNEMONIC = new RegExp("^\\s*(?:[A-Za-z_]\\w*\\s*:\\s*)?(?:WIDE\\s+)?\\b(NOP|BIPUSH|LDC_W|ILOAD|ISTORE|POP|DUP|SWAP|IADD|ISUB|IAND|IOR"
  + "|IINC|IFEQ|IFLT|IF_ICMPEQ|GOTO|IRETURN|INVOKEVIRTUAL|WIDE|IN|OUT|ERR|HALT)\\b", "i");
const MAL_WORD = /^\s*(?:rd|wr|fetch|goto|if|MAR|MDR|PC|SP|LV|CPP|TOS|OPC|H|N|Z)$/;
const LONGEST = 400;            // letters of a line that gets colours

// Where the label of a line ends, and where its mnemonic begins and ends
function startOf(kind, line, declares) {
  if (kind === "jas") {
    const label = /^\s*[A-Za-z_]\w*(?=\s*:)/.exec(line), found = declares ? null : MNEMONIC.exec(line);
    return { label: label ? label[0].length : 0, from: found ? (label ? line.indexOf(":") + 1 : 0) : -1, to: found ? found[0].length : -1 };
  }
  const label = kind === "mal" ? /^\s*[A-Za-z_]\w*(?=\s|:|$)/.exec(line) : null;
  return { label: label && !MAL_WORD.test(label[0]) ? label[0].length : 0, from: -1, to: -1 };
}

// `declares` is true inside the sections of constants and locals, where a name is no instruction
export function colouredLine(kind, line, declares) {
  if (!RULES[kind] || line.length > LONGEST) return [["", line]];
  const { label, from, to } = startOf(kind, line, declares), pieces = [];
  let at = label, plain = "";
  const put = (name, text) => {
    if (plain) pieces.push(["", plain]);
    plain = "";
    pieces.push([name, text]);
  };
  if (label) put("label", line.slice(0, label));
  while (at < line.length) {
    if (from >= 0 && at >= from && at < to && /[A-Za-z]/.test(line[at])) {
      put("operation", line.slice(at, to));
      at = to;
      continue;
    }
    const [name, text] = pieceAt(RULES[kind], line, at);
    if (name && name !== "name") put(name, text);
    else plain += text;
    at += text.length;
  }
  if (plain) pieces.push(["", plain]);
  return pieces;
}

function pieceAt(rules, line, at) {
  for (const [name, rule] of rules) {
    rule.lastIndex = at;
    const found = rule.exec(line);
    if (found) return [name, found[0]];
  }
  return ["", line[at]];
}
