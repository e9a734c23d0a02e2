// What the words of a frame are, and the frames of all calls that are under way: docs/ijvm.md draws them.

// The role of the word at `offset` from LV in a frame of `unit`, or "" where the unit is not known
export function roleOf(unit, offset) {
  if (!unit) return "";
  const { header, parameters, locals, names } = unit;
  if (header < 0) return offset < locals ? names[offset] || `local ${offset}` : "operand";
  const own = parameters + locals;
  if (offset === 0) return "link word";
  if (offset < own) return names[offset - 1] || `${offset < parameters ? "parameter" : "local"} ${offset}`;
  return offset === own ? "return address" : offset === own + 1 ? "caller's LV" : "operand";
}

const LINKING = new Set(["link word", "return address", "caller's LV"]);
export const isLinking = role => LINKING.has(role);

// The role with the value, as "n = 3"
export function meaningOf(unit, offset, value) {
  const role = roleOf(unit, offset);
  return !role || isLinking(role) ? role : `${role} = ${value | 0}`;
}

// The locals of the running frame, as [name, value]
export function localsOf(trace, i) {
  const lv = trace.register("LV", i), { unit } = trace.frameAt(i);
  if (!unit) return [];
  const first = unit.header < 0 ? 0 : 1;
  return unit.names.map((name, k) => [name, trace.word(lv + first + k, i) | 0]);
}

const MOST_FRAMES = 200;
const CALL_BYTES = 3;           // of INVOKEVIRTUAL; the return address is the one after it

// The frames at place i, the running one first: {unit, lv, sp, address} with the address of the call in it
export function framesOf(trace, i) {
  const found = [], { units } = trace.setup;
  let { unit, depth, number } = trace.frameAt(i), lv = trace.register("LV", i), sp = trace.register("SP", i), address = null;
  if (!unit) return [{ unit: null, lv, sp, address }];
  while (unit && found.length < MOST_FRAMES) {
    found.push({ unit, lv, sp, address });
    if (--depth < 1) break;
    const link = trace.word(lv, i), callersLv = trace.word(link + 1, i);
    address = trace.word(link, i) - CALL_BYTES;
    sp = lv - 1;
    lv = callersLv;
    unit = null;
    for (; number >= 0 && !unit; number--) {
      const frame = trace.frames[number];
      if (frame.depth === depth && frame.lv === lv && frame.unit >= 0) { unit = units[frame.unit]; break; }
    }
    if (!unit) found.push({ unit: null, lv, sp, address });
  }
  return found;
}
