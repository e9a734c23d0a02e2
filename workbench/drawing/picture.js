// The drawing of a machine: a table of trunks, wires, boxes and texts, and a loop over it. Each entry has what it is and, as functions
// of a cycle's facts, how it looks. Without facts the drawing has nothing lit: that is the one of the documents.
import { controlParts, fieldPlaces, mpcPlace, nextPlaces } from "./control.js";
import { datapathParts, legendParts, registerParts } from "./datapath.js";
import { layoutOf } from "./layout.js";
import { trunksOf, wiresOf } from "./wires.js";

const ARROW = 10;

export function tableOf(machine, { hasLegend = true } = {}) {
  const at = layoutOf(machine);
  at.fields = fieldPlaces(at);
  at.next = nextPlaces(at);
  const parts = [datapathParts(at), controlParts(at), registerParts(mpcPlace(at)), ...(hasLegend ? [legendParts(at)] : [])];
  return { at, trunks: trunksOf(at), wires: wiresOf(at), boxes: parts.flatMap(part => part.boxes), texts: parts.flatMap(part => part.texts) };
}

export const lineOf = points => "M" + points.map(point => point.join(" ")).join("L");

// The shaft ends inside the arrow's head
function arrowOf(points) {
  const [x0, y0] = points[points.length - 2], [x1, y1] = points[points.length - 1], length = Math.hypot(x1 - x0, y1 - y0);
  const ux = (x1 - x0) / length, uy = (y1 - y0) / length, half = ARROW * 0.55;
  const corner = side => [x1 - ux * ARROW - side * uy * half, y1 - uy * ARROW + side * ux * half];
  return {
    shaft: [...points.slice(0, -1), [x1 - ux * (ARROW - 2), y1 - uy * (ARROW - 2)]],
    head: [[x1, y1], corner(1), corner(-1)],
  };
}
const cornersOf = points => points.map(point => point.map(value => +value.toFixed(2)).join(",")).join(" ");

export function wireNodes({ points, crosses = [] }) {
  const { shaft, head } = arrowOf(points);
  return [
    ...crosses.map(part => ["path", { class: "halo", d: lineOf(part) }]),
    ["path", { class: "line", d: lineOf(shaft.map(point => point.map(value => +value.toFixed(2)))) }],
    ["polygon", { points: cornersOf(head) }],
  ];
}

export function boxNode(box) {
  if (box.path) return ["path", { d: lineOf(box.path) }];
  if (box.polygon) return ["polygon", { points: cornersOf(box.polygon) }];
  const { x, y, width, height } = box;
  return ["rect", { x: +x.toFixed(2), y, width: +width.toFixed(2), height }];
}

export function textNode({ x, y, anchor = "start", size }) {
  return ["text", { x: +x.toFixed(2), y, "text-anchor": anchor, ...(size ? { "font-size": size } : {}) }];
}

// The facts of no cycle: nothing is loaded, driven, tested or read
const NOTHING = {
  stalled: true, loads: [], a: null, b: null, computes: false, tested: {},
  statement: { fields: new Proxy({}, { get: () => "" }), loads: [], shift: "" },
  word: {}, byte: {}, unit: { now: [], next: [], arrived: 0, takes: 0 }, next: { byte: null, tests: false },
  registers: new Proxy({}, { get: () => ({}) }),
};

export const lookOf = (entry, facts) => (typeof entry.look === "string" ? entry.look : entry.look(facts || NOTHING));

export function shownText({ text, idle = "" }, facts) {
  if (typeof text === "string") return text;
  return facts ? text(facts) : idle;
}
