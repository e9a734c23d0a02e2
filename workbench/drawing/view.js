// The drawing in a page: built once for a machine, and then shown for one cycle after another.
import { boxNode, lineOf, lookOf, shownText, tableOf, textNode, wireNodes } from "./picture.js";

const SVG = "http://www.w3.org/2000/svg";

function svgElement(name, attributes = {}) {
  const made = document.createElementNS(SVG, name);
  for (const key in attributes) made.setAttribute(key, attributes[key]);
  return made;
}

export class PictureView {
  // `aside` is an element of the page that is put into the free corner of the drawing
  constructor(svg, machine, aside) {
    const { at, trunks, wires, boxes, texts } = tableOf(machine);
    this.svg = svg;
    svg.setAttribute("viewBox", `0 0 ${at.width} ${at.height}`);
    svg.setAttribute("preserveAspectRatio", "xMidYMin");
    this.layers = Object.fromEntries(["trunks", "wires", "litTrunks", "litWires", "boxes"].map(name => [name, svgElement("g")]));
    svg.replaceChildren(...Object.values(this.layers));
    this.trunks = trunks.map(trunk => this.trunk(trunk));
    this.wires = wires.map(wire => this.wire(wire));
    this.boxes = boxes.map(box => this.box(box)).filter(({ entry }) => typeof entry.look === "function");
    this.texts = texts.map(text => this.text(text)).filter(({ entry }) => entry.field || typeof entry.look === "function");
    if (aside) svg.append(this.corner(at, aside));
  }

  trunk(entry) {
    this.layers.trunks.append(svgElement("path", { class: "trunk", d: lineOf(entry.points) }));
    const element = svgElement("path", { class: `lit k${entry.kind}` });
    this.layers.litTrunks.append(element);
    return { entry, element };
  }
  wire(entry) {
    const element = svgElement("g", { class: `wire k${entry.kind}`, "data-wire": entry.name });
    element.append(...wireNodes(entry).map(([name, attributes]) => svgElement(name, attributes)));
    this.layers.wires.append(element);
    return { entry, element, on: false };
  }
  box(entry) {
    const element = svgElement(...boxNode(entry));
    element.setAttribute("class", lookOf(entry, null));
    this.layers.boxes.append(element);
    return { entry, element };
  }
  text(entry) {
    const element = svgElement(...textNode(entry));
    element.setAttribute("class", lookOf(entry, null));
    if (entry.field) element.setAttribute("data-field", entry.field);
    element.textContent = shownText(entry, null);
    this.layers.boxes.append(element);
    return { entry, element };
  }
  corner({ wordsX, x, nextTop, height }, aside) {
    const corner = svgElement("foreignObject", { x: wordsX, y: nextTop + 84, width: x.right - wordsX + 14, height: height - nextTop - 88 });
    corner.append(aside);
    return corner;
  }

  // A wire that is lit lies above the buses, and all others below
  show(facts) {
    for (const { entry, element } of this.trunks) element.setAttribute("d", (path => (path ? lineOf(path) : ""))(entry.lit(facts)));
    for (const wire of this.wires) {
      const on = Boolean(wire.entry.lit(facts));
      if (on !== wire.on) {
        wire.on = on;
        wire.element.classList.toggle("on", on);
        (on ? this.layers.litWires : this.layers.wires).append(wire.element);
      }
      if (wire.entry.hidden) wire.element.style.display = wire.entry.hidden(facts) ? "none" : "";
    }
    for (const { entry, element } of this.boxes) element.setAttribute("class", lookOf(entry, facts));
    for (const { entry, element } of this.texts) this.showText(entry, element, facts);
  }
  showText(entry, element, facts) {
    const text = shownText(entry, facts), look = lookOf(entry, facts);
    if (element.textContent !== text) element.textContent = text;
    if (element.getAttribute("class") !== look) element.setAttribute("class", look);
    if (!entry.width) return;
    const width = entry.width(facts);
    if (width) {
      element.setAttribute("textLength", width);
      element.setAttribute("lengthAdjust", "spacingAndGlyphs");
    } else {
      element.removeAttribute("textLength");
      element.removeAttribute("lengthAdjust");
    }
  }
}
