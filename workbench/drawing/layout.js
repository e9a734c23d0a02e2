// Where the parts of the drawing are, in units of the picture: the arrangement of the book, for each machine.

export const ROW_HEIGHT = 30;

const COLUMNS = {
  mic1: { memory: 10, memoryWidth: 148, c: 190, box: 222, name: 54, now: 90, next: 98, b: 514, byteWire: 548, control: 582, right: 1000 },
  mic2: { memory: 10, memoryWidth: 150, c: 190, box: 222, name: 54, now: 90, next: 98, a: 504, b: 534, byteWire: 560, control: 590, right: 1004 },
};
const ROWS = {
  mic1: [["MAR", 42], ["MDR", 82], ["PC", 132], ["MBR", 172], ["SP", 212], ["LV", 252], ["CPP", 292], ["TOS", 332], ["OPC", 372], ["H", 412]],
  mic2: [["MAR", 42], ["MDR", 79], ["PC", 136], ["MBR1", 173], ["MBR2", 210], ["SP", 247], ["LV", 284], ["CPP", 321], ["TOS", 358],
    ["OPC", 395], ["H", 432]],
};
const UNITS = {
  mic1: { aluA: 272, aluB: 514, aluTop: 512, width: 1022 },
  mic2: { aluA: 270, aluB: 512, aluTop: 530, width: 1026 },
};

// The three registers that have a wire to memory too: the C bus enters them higher
const HIGH_ROWS = ["MAR", "MDR", "PC"];

export function layoutOf(machine) {
  const x = { ...COLUMNS[machine] }, y = Object.fromEntries(ROWS[machine]), { aluA, aluB, aluTop, width } = UNITS[machine];
  x.end = x.box + x.name + x.now + x.next;
  x.memoryRight = x.memory + x.memoryWidth;
  const aluBottom = aluTop + 84, shiftTop = aluBottom + 30;
  const memoryTop = 34, memoryBottom = machine === "mic1" ? y.MBR + ROW_HEIGHT + 8 : y.MDR + ROW_HEIGHT + 4;
  return {
    machine, x, y, aluA, aluB, aluTop, aluBottom, shiftTop, width, memoryTop, memoryBottom,
    rows: ROWS[machine].map(([name]) => name),
    isMic1: machine === "mic1",
    height: shiftTop + 36,
    center: (aluA + aluB) / 2,
    shiftMiddle: shiftTop + 14,
    middle: name => y[name] + ROW_HEIGHT / 2,
    cInput: name => y[name] + (HIGH_ROWS.includes(name) ? 8 : 14),
    unitTop: y.PC - 4,                    // of Mic-2's fetch unit
    unitBottom: y.PC + 160,
    flagX: aluB + 34,
    mpcTop: 42,
    storeTop: 102, storeHeight: 86,
    fieldTop: 240,                        // of the word's fields
    nextTop: 334,                         // of the row of the next address
    wordsX: aluB + 34 + 40 + 32,          // of the sentences
  };
}
