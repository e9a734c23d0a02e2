// The drawing with nothing lit, as the text of an SVG file: for the documents.
import { boxNode, lineOf, lookOf, shownText, tableOf, textNode, wireNodes } from "./picture.js";

const escaped = text => String(text).replace(/[&<>"]/g, sign => ({ "&": "&amp;", "<": "&lt;", ">": "&gt;", '"': "&quot;" })[sign]);
const tag = (name, attributes, inner = "") =>
  `<${name}${Object.entries(attributes).map(([key, value]) => ` ${key}="${escaped(value)}"`).join("")}${inner ? `>${inner}</${name}>` : "/>"}`;

const shape = ([name, attributes], entry, text = "") => tag(name, { ...attributes, class: lookOf(entry, null) }, escaped(text));

// `style` is the text of the style sheet; `title` and `description` are for readers who do not see the picture
export function svgText(machine, { style, title, description }) {
  const { at, trunks, wires, boxes, texts } = tableOf(machine, { hasLegend: false });
  const parts = [
    ...trunks.map(trunk => tag("path", { class: "trunk", d: lineOf(trunk.points) })),
    ...wires.map(wire => `<g class="wire k${wire.kind}">${wireNodes(wire).map(([name, attributes]) => tag(name, attributes)).join("")}</g>`),
    ...boxes.map(box => shape(boxNode(box), box)),
    ...texts.filter(text => shownText(text, null)).map(text => shape(textNode(text), text, shownText(text, null))),
  ];
  const box = `0 0 ${at.width} ${at.height}`;
  return `<svg xmlns="http://www.w3.org/2000/svg" class="picture" viewBox="${box}" role="img" aria-labelledby="title description">
<title id="title">${escaped(title)}</title>
<desc id="description">${escaped(description)}</desc>
<style>${style}</style>
<rect class="ground" width="${at.width}" height="${at.height}"/>
${parts.join("\n")}
</svg>
`;
}
