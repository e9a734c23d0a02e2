// The table of wires: name, kind, points, and when a wire is lit. `crosses` are the stretches at which it crosses a bus.
// Kinds: A, B and C for the buses, M for memory and the fetch unit, S for control.

const row = source => source.replace(/U$/, "");

// The wires between registers and the three buses
function busWires(at) {
  const { x, y, isMic1 } = at, wires = [];
  for (const name of ["H", "OPC", "TOS", "CPP", "LV", "SP", "PC", "MDR", "MAR"]) {
    wires.push({ name: `C ${name}`, kind: "C", points: [[x.c + 1, at.cInput(name)], [x.box, at.cInput(name)]], lit: f => f.loads.includes(name) });
  }
  if (isMic1) {
    for (const source of ["MDR", "PC", "MBR", "MBRU", "SP", "LV", "CPP", "TOS", "OPC"]) {
      const height = y[row(source)] + bHeight(at, source);
      wires.push({ name: `B ${source}`, kind: "B", points: [[x.end, height], [x.b - 1.5, height]], lit: f => f.b === source });
    }
    return wires;
  }
  for (const name of at.rows.filter(other => other !== "MAR")) {
    const a = y[name] + 8, b = y[name] + 20;
    wires.push({ name: `A ${name}`, kind: "A", points: [[x.end, a], [x.a - 1.5, a]], lit: f => f.a !== null && row(f.a) === name });
    wires.push({ name: `B ${name}`, kind: "B", points: [[x.end, b], [x.b - 1.5, b]], crosses: [[[x.a - 7, b], [x.a + 7, b]]],
      lit: f => f.b !== null && row(f.b) === name });
  }
  return wires;
}

// How far below the top of its row a source leaves for the B bus
const bHeight = (at, source) => (!at.isMic1 ? 20 : source === "MBR" ? 5 : source === "MBRU" ? 23 : 14);

function aluWires(at) {
  const { x, y, aluA, aluB, aluTop, aluBottom, shiftTop, center, isMic1 } = at;
  return [
    { name: "A in", kind: "A", points: [[aluA, isMic1 ? y.H + 30 : aluTop - 22], [aluA, aluTop]], lit: f => f.a !== null },
    { name: "B in", kind: "B", points: [[aluB, aluTop - 16], [aluB, aluTop]], lit: f => f.b !== null },
    { name: "ALU out", kind: "C", points: [[center, aluBottom], [center, shiftTop]], lit: f => f.loads.length > 0 },
    ...["N", "Z"].flatMap((name, k) => flagWires(at, name, aluTop + 41 + 27 * k, k)),
  ];
}

// From the ALU's edge to the flag's box, and from there to the row of the next address
function flagWires({ aluB, aluTop, center, flagX, nextTop, next }, name, y, k) {
  const edge = aluB + 54 - (y - aluTop) / 84 * (aluB - 30 - center), from = flagX + 40, turn = from + 12 + 10 * k, to = next.flag.middle - 9 + 18 * k;
  const lit = f => f.tested[name];
  return [
    { name: `${name} out`, kind: "S", points: [[edge, y], [flagX, y]], lit },
    { name, kind: "S", points: [[from, y], [turn, y], [turn, nextTop + 58 + 10 * k], [to, nextTop + 58 + 10 * k], [to, nextTop + 26]], lit },
  ];
}

function memoryWires(at) {
  const { x, y } = at, over = height => [[[x.c - 9, height], [x.c + 9, height]]];
  const toMemory = (name, height, lit, hidden) =>
    ({ name, kind: "M", points: [[x.box, height], [x.memoryRight, height]], crosses: over(height), lit, hidden });
  const fromMemory = (name, height, lit, hidden) =>
    ({ name, kind: "M", points: [[x.memoryRight, height], [x.box, height]], crosses: over(height), lit, hidden });
  const wires = [
    toMemory("MAR out", y.MAR + 21, f => f.word.reading || f.word.writing),
    fromMemory("MDR in", y.MDR + 21, f => f.word.arrives, f => f.word.writing),
    toMemory("MDR out", y.MDR + 21, f => f.word.writing, f => f.word.reading),
  ];
  if (at.isMic1) {
    return [...wires, toMemory("PC out", y.PC + 21, f => f.byte.fetching), fromMemory("MBR in", y.MBR + 14, f => f.byte.fetching)];
  }
  return [
    ...wires,
    { name: "word up", kind: "M", points: [[x.memory + 30, at.memoryBottom], [x.memory + 30, at.unitTop]], lit: f => f.unit.pending },
    fromMemory("MBR1 in", at.middle("MBR1"), f => f.unit.named === 1 || f.unit.dispatches && f.unit.named === 0),
    fromMemory("MBR2 in", at.middle("MBR2"), f => f.unit.named === 2),
    fromMemory("PC in", y.PC + 21, f => f.unit.takes > 0),
  ];
}

function controlWires(at) {
  const { x, next, nextTop, storeTop, storeHeight, fieldTop, fields, mpcTop } = at, { right } = x, down = right - 84;
  const byteY = at.middle(at.isMic1 ? "MBR" : "MBR1"), buses = at.isMic1 ? [x.b] : [x.a, x.b], middle = fields.Addr.middle;
  return [
    { name: "MPC", kind: "S", points: [[down, mpcTop + 30], [down, storeTop]], lit: () => true },
    { name: "MIR", kind: "S", points: [[down, storeTop + storeHeight], [down, fieldTop - 22]], lit: () => true },
    { name: "Addr", kind: "S", points: [[middle, fieldTop + 26], [middle, nextTop - 20]], lit: f => !f.stalled },
    { name: "byte", kind: "S", points: [[x.end, byteY], [x.byteWire, byteY], [x.byteWire, nextTop + 44], [next.byte.middle, nextTop + 44],
      [next.byte.middle, nextTop + 26]], crosses: buses.map(bus => [[bus - 9, byteY], [bus + 9, byteY]]), lit: f => f.next.byte !== null },
    { name: "sum", kind: "S", points: [[next.sum.middle + 27, nextTop + 13], [right + 14, nextTop + 13], [right + 14, 56], [right, 56]],
      lit: f => !f.stalled },
  ];
}

export function wiresOf(at) {
  return [...busWires(at), ...aluWires(at), ...memoryWires(at), ...controlWires(at)];
}

// The buses, pale, and of each the stretch that is lit: from the register that drives it down, or up to the highest that it loads
export function trunksOf(at) {
  const { x, y, aluA, aluB, aluTop, center, shiftMiddle, isMic1 } = at, bDown = isMic1 ? [[x.b, aluTop - 10]]
    : [[x.b, aluTop - 22], [aluB, aluTop - 22], [aluB, aluTop - 10]];
  const aDown = [[x.a, aluTop - 46], [aluA, aluTop - 46], [aluA, aluTop - 10]], cUp = [[center - 78, shiftMiddle], [x.c, shiftMiddle]];
  const trunks = [
    { kind: "C", points: [...cUp, [x.c, y.MAR + 5]],
      lit: f => f.loads.length && [...cUp, [x.c, Math.min(...f.loads.map(at.cInput)) - 2.2]] },
    { kind: "B", points: [[x.b, y.MDR + (isMic1 ? 11 : 17)], ...bDown],
      lit: f => f.b && [[x.b, y[row(f.b)] + bHeight(at, f.b)], ...bDown] },
  ];
  if (!isMic1) {
    trunks.push({ kind: "A", points: [[x.a, y.MDR + 5], ...aDown], lit: f => f.a && [[x.a, y[row(f.a)] + 8], ...aDown] });
  }
  return trunks;
}
