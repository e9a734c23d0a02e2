// Elements of the page, made without markup in strings.

export const byId = id => document.getElementById(id);

const isShown = child => child !== null && child !== undefined && child !== false;

// element("td", {className: "n", onclick: f, "aria-label": "x"}, "text", other elements)
export function element(name, properties = {}, ...children) {
  const made = document.createElement(name);
  for (const [key, value] of Object.entries(properties)) {
    if (key.startsWith("on")) made.addEventListener(key.slice(2), value);
    else if (key in made) made[key] = value;
    else made.setAttribute(key, value);
  }
  made.append(...children.filter(isShown));
  return made;
}

export function fill(target, ...children) {
  target.replaceChildren(...children.filter(isShown));
  return target;
}

export const button = (text, action, properties = {}) => element("button", { type: "button", onclick: action, ...properties }, text);
export const link = (text, action, properties = {}) => button(text, action, { className: "link", ...properties });
export const cell = (text, className = "") => element("td", { className }, text);
export const tableRow = (className, ...cells) => element("tr", { className }, ...cells);
export const headRow = (...texts) =>
  element("tr", {}, ...texts.map(text => element("th", { scope: "col", className: text.startsWith("#") ? "n" : "" }, text.replace(/^#/, ""))));
export const soft = text => element("span", { className: "soft" }, text);

// Text with `code` in backticks
export function withCode(text) {
  return text.split(/(`[^`]*`)/).filter(Boolean)
    .map(piece => (piece.startsWith("`") ? element("code", {}, piece.slice(1, -1)) : piece));
}

export function iconOf(path) {
  const space = "http://www.w3.org/2000/svg", svg = document.createElementNS(space, "svg"), shape = document.createElementNS(space, "path");
  svg.setAttribute("viewBox", "0 0 20 14");
  svg.setAttribute("width", 20);
  svg.setAttribute("height", 14);
  svg.setAttribute("aria-hidden", "true");
  shape.setAttribute("d", path);
  svg.append(shape);
  return svg;
}

// Brings rows into the sight of their boxes: all is measured before anything is moved, so that a step lays the page out once
export function intoSight(pairs) {
  const tops = pairs.map(([box, row]) => {
    if (!row || row.hidden) return null;
    const top = row.offsetTop, height = row.offsetHeight;
    const isOut = top < box.scrollTop + height / 2 || top + 2 * height > box.scrollTop + box.clientHeight;
    return isOut ? Math.max(0, top - box.clientHeight / 2 + height) : null;
  });
  pairs.forEach(([box], k) => { if (tops[k] !== null) box.scrollTop = tops[k]; });
}

// A dialog with buttons, as [text, value] or [text, function that gives the value]; the promise has the value, or null
export function ask(title, content, buttons) {
  const dialog = byId("dialog");
  return new Promise(resolve => {
    const close = value => { dialog.close(); resolve(value); };
    const made = buttons.map(([text, value], k) =>
      button(text, () => close(typeof value === "function" ? value() : value), { className: k === 0 ? "go" : "" }));
    fill(dialog, element("h2", { id: "dialog-title" }, title), content, element("div", { className: "todo" }, ...made));
    dialog.oncancel = () => resolve(null);
    dialog.onkeydown = event => {
      if (event.key !== "Enter" || event.target.tagName !== "INPUT") return;
      event.preventDefault();
      made[0].click();
    };
    dialog.showModal();
  });
}

const LINK_LIVES = 10_000;      // milliseconds

// Lets the user keep a text as a file
export function saveAs(name, text) {
  const address = URL.createObjectURL(new Blob([text], { type: "text/plain" }));
  element("a", { href: address, download: name }).click();
  setTimeout(() => URL.revokeObjectURL(address), LINK_LIVES);
}
