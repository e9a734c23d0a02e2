// The editor: a text field whose letters are unseen, over lines with colours, and a gutter with numbers, breakpoints and counts.
import { colouredLine } from "./colours.js";
import { element } from "./dom.js";

const TAB = 8;

export class Editor {
  // changed(text) after each change; toggled(line) when a breakpoint is set or taken away
  constructor(box, changed, toggled) {
    this.box = box;
    this.lines = [];
    this.kind = "";
    this.marks = { refused: 0, note: "", here: 0, value: "", breaks: new Set(), hits: null };
    this.area = element("textarea", { spellcheck: false, autocapitalize: "off", autocomplete: "off", wrap: "off", "aria-label": "source" });
    this.inner = element("div", { className: "inner" }, this.area);
    box.replaceChildren(this.inner);
    this.area.addEventListener("input", () => {
      this.draw();
      changed(this.area.value);
    });
    this.area.addEventListener("keydown", event => this.key(event, toggled));
    this.inner.addEventListener("mousedown", event => {
      const gutter = event.target.closest(".gutter");
      if (!gutter) return;
      event.preventDefault();
      toggled(+gutter.parentNode.dataset.line);
    });
  }

  get text() { return this.area.value; }
  // The line in which the caret is
  get caretLine() { return this.area.value.slice(0, this.area.selectionStart).split("\n").length; }

  key(event, toggled) {
    const plain = !event.ctrlKey && !event.altKey && !event.metaKey;
    if (event.key === "F9") {
      event.preventDefault();
      toggled(this.caretLine);
    } else if (event.key === "Escape") {
      this.tabLeaves = true;    // after Esc the Tab key leaves the editor, so that the keyboard is not caught in it
    } else if (event.key === "Tab" && plain && !event.shiftKey && !this.tabLeaves) {
      event.preventDefault();
      const at = this.area.selectionStart, column = at - (this.area.value.lastIndexOf("\n", at - 1) + 1);
      this.insert(" ".repeat(TAB - column % TAB));
    } else if (event.key === "Backspace" && plain && this.outdent()) {
      event.preventDefault();
    } else if (event.key === "Enter" && plain && !event.shiftKey) {
      event.preventDefault();
      this.insert("\n" + this.indentation());
    } else if (event.key.length === 1) {
      this.tabLeaves = false;
    }
  }
  indentation() {
    const at = this.area.selectionStart, line = this.area.value.slice(this.area.value.lastIndexOf("\n", at - 1) + 1, at);
    const [indent] = /^\s*/.exec(line);
    if (this.kind === "jas" && /^\s*\w+\s*:/.test(line)) return " ".repeat(TAB);
    return this.kind === "tiny" && /\{\s*$/.test(line) ? indent + "    " : indent;
  }
  // Backspace in the spaces before a line's text goes back to the tab stop before
  outdent() {
    const { selectionStart: at, selectionEnd, value } = this.area, before = value.slice(value.lastIndexOf("\n", at - 1) + 1, at);
    const width = this.kind === "tiny" ? TAB / 2 : TAB, count = before.length % width || width;
    if (at !== selectionEnd || before.length < 2 || !/^ +$/.test(before)) return false;
    this.area.setSelectionRange(at - count, at);
    this.insert("");
    return true;
  }
  // By the browser's own command, so that undo knows it
  insert(text) {
    if (document.execCommand(text ? "insertText" : "delete", false, text)) return;
    this.area.setRangeText(text, this.area.selectionStart, this.area.selectionEnd, "end");
    this.area.dispatchEvent(new Event("input"));
  }

  open(text, kind, isReadOnly = false) {
    this.kind = kind;
    this.lines.forEach(line => line.row.remove());
    this.lines = [];
    this.area.value = text;
    this.area.readOnly = isReadOnly;
    this.area.setSelectionRange(0, 0);
    this.draw();
  }

  newLine(k) {
    const hits = element("span", { className: "hits" }), body = element("span", { className: "text" });
    const number = element("span", { className: "number" }, String(k + 1));
    const gutter = element("span", { className: "gutter" }, element("span", { className: "dot" }), hits, number);
    const row = element("div", { className: "row" }, gutter, body);
    row.dataset.line = k + 1;
    this.inner.append(row);
    return { row, hits, body, note: null, shown: null, state: "" };
  }

  draw() {
    const texts = this.area.value.split("\n");
    while (this.lines.length > texts.length) this.lines.pop().row.remove();
    let declares = false;
    texts.forEach((text, k) => {
      const line = this.lines[k] ||= this.newLine(k), state = this.kind + declares;
      if (line.shown !== text || line.state !== state) {
        line.shown = text;
        line.state = state;
        line.body.replaceChildren(...colouredLine(this.kind, text, declares).map(([name, piece]) =>
          element("span", { className: name ? `c-${name}` : "" }, piece)));
      }
      if (/^\s*\.(var|constant)\b/.test(text)) declares = true;
      else if (/^\s*\.end-/.test(text)) declares = false;
    });
    this.mark({});
  }

  // refused: a line, and its note; here: the line that runs, and its values; breaks: lines; hits: of each line how often it was reached
  mark(change) {
    Object.assign(this.marks, change);
    const { hits } = this.marks, width = hits ? String(Math.max(0, ...hits.values())).length : 0;
    const digits = Math.max(3, String(this.lines.length).length) + 4.5 + (width ? width + 1 : 0);
    this.box.style.setProperty("--gutter", `${digits}ch`);
    this.lines.forEach((line, k) => this.markLine(line, k + 1));
  }
  markLine(line, number) {
    const { refused, note, here, value, breaks, hits } = this.marks, count = hits ? hits.get(number) : undefined;
    const names = ["row", breaks.has(number) && "break", refused === number && "refused", here === number && "here", count === 0 && "never"]
      .filter(Boolean).join(" ");
    if (line.row.className !== names) line.row.className = names;
    const shown = count === undefined ? "" : String(count);
    if (line.hits.textContent !== shown) line.hits.textContent = shown;
    const text = refused === number ? note : here === number ? value : "";
    if ((line.note ? line.note.textContent : "") === text) return;
    if (line.note) line.note.remove();
    line.note = text ? element("span", { className: refused === number ? "note" : "note value" }, text) : null;
    if (line.note) line.row.append(line.note);
  }

  reveal(number) {
    const line = this.lines[number - 1];
    if (!line) return;
    const top = line.row.offsetTop, height = line.row.offsetHeight, { scrollTop, clientHeight } = this.box;
    if (top < scrollTop + height || top + 3 * height > scrollTop + clientHeight) this.box.scrollTop = Math.max(0, top - clientHeight / 2);
  }
  goTo(number) {
    const texts = this.area.value.split("\n"), at = texts.slice(0, number - 1).join("\n").length + (number > 1 ? 1 : 0);
    this.area.focus({ preventScroll: true });
    this.area.setSelectionRange(at, at + (texts[number - 1] || "").length);
    this.reveal(number);
  }
}
