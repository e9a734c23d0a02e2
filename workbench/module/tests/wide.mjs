// The functions on 128 bits, compared with numbers of any size: each edge with each, and random values.
// usage: node wide.mjs WIDE.wasm
import assert from "node:assert/strict";
import fs from "node:fs";
import { randomNumbers } from "./random.mjs";

const RANDOM = 20_000;

const { memory, __multi3, __ashlti3, __lshrti3, __ashrti3 } = new WebAssembly.Instance(
  new WebAssembly.Module(fs.readFileSync(process.argv[2])),
).exports;

/** Where a result of 128 bits is written: a function's first argument. */
const RESULT = 1024;

const halvesOf = (value) => [BigInt.asIntN(64, value), BigInt.asIntN(64, value >> 64n)];

function result() {
  const view = new DataView(memory.buffer, RESULT);
  return (view.getBigUint64(8, true) << 64n) | view.getBigUint64(0, true);
}

const random = randomNumbers(128);

/** A number of 128 bits, of eight pieces: the low bits of such a random number repeat too soon. */
function random128() {
  return Array.from({ length: 8 }, () => random(1 << 16)).reduce((value, piece) => (value << 16n) | BigInt(piece), 0n);
}

function checkProduct(x, y) {
  __multi3(RESULT, ...halvesOf(x), ...halvesOf(y));
  assert.equal(result(), BigInt.asUintN(128, x * y), `${x} * ${y}`);
}

function checkShifts(x) {
  for (let by = 0; by < 128; by++) {
    __ashlti3(RESULT, ...halvesOf(x), by);
    assert.equal(result(), BigInt.asUintN(128, x << BigInt(by)), `${x} << ${by}`);
    __lshrti3(RESULT, ...halvesOf(x), by);
    assert.equal(result(), x >> BigInt(by), `${x} >> ${by}`);
    __ashrti3(RESULT, ...halvesOf(x), by);
    assert.equal(result(), BigInt.asUintN(128, BigInt.asIntN(128, x) >> BigInt(by)), `signed ${x} >> ${by}`);
  }
}

const EDGES = [0n, 31n, 32n, 63n, 64n, 65n, 96n, 127n, 128n].flatMap((power) => [2n ** power - 1n, 2n ** power, 2n ** power + 1n]);
const edges = EDGES.map((value) => BigInt.asUintN(128, value));
edges.forEach((x) => edges.forEach((y) => checkProduct(x, y)));
edges.forEach(checkShifts);
for (let count = 0; count < RANDOM; count++) {
  checkProduct(random128(), random128());
}
for (let count = 0; count < RANDOM / 100; count++) {
  checkShifts(random128());
}
console.log(`wide: ${edges.length ** 2 + RANDOM} products and ${edges.length + RANDOM / 100} values by each shift agree`);
