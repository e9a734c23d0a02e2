// Random calls of the heap, each compared with a plain account of which blocks are in use: no byte is handed out twice,
// a block keeps its contents until it is freed, and where there is no memory the heap says so and goes on.
// usage: node heap.mjs HEAP.wasm
import assert from "node:assert/strict";
import fs from "node:fs";
import { randomNumbers } from "./random.mjs";

const UNIT = 16;
const STEPS = 60_000;
const MOST_LIVE = 400;

function sizeFrom(random) {
  const kind = random(20);
  return kind === 0 ? random(1 << 20) : kind < 5 ? random(5000) : random(100);
}

/** The compiled heap, called as the crate calls it: a result of two numbers stands where the first argument says. */
class Heap {
  constructor(bytes) {
    this.exports = new WebAssembly.Instance(new WebAssembly.Module(bytes)).exports;
    this.result = this.exports.host_take(16n) >>> 0;
  }

  bytes(at, size) {
    return new Uint8Array(this.exports.memory.buffer, at, size);
  }

  tried() {
    const view = new DataView(this.exports.memory.buffer, this.result);
    assert.notEqual(view.getBigUint64(8, true), 0n, "an address is never null");
    return view.getBigUint64(0, true) === 0n ? null : Number(view.getBigUint64(8, true));
  }

  alloc(size, alignment = 8) {
    this.exports.rattle_alloc(this.result, BigInt(size), BigInt(alignment));
    return this.tried();
  }

  realloc(at, kept, size) {
    this.exports.rattle_realloc(this.result, at, BigInt(kept), BigInt(size), 8n);
    return this.tried();
  }

  dealloc(at) {
    this.exports.rattle_dealloc(at);
  }
}

/** Which block is in use at each 16 bytes, and what each block holds. */
class Account {
  constructor(heap) {
    this.heap = heap;
    this.users = new Map();
    this.blocks = [];
    this.next = 1;
  }

  units({ at, size }) {
    return Array.from({ length: Math.ceil(Math.max(size, 1) / UNIT) }, (_, index) => at / UNIT + index);
  }

  add(at, size) {
    assert.equal(at % UNIT, 0, "blocks begin at multiples of 16");
    assert.ok(at + size <= this.heap.exports.memory.buffer.byteLength, "a block lies in the memory");
    const block = { at, size, id: this.next++ };
    for (const unit of this.units(block)) {
      assert.ok(!this.users.has(unit), `a block is handed out twice, at ${unit * UNIT}`);
      this.users.set(unit, block.id);
    }
    this.heap.bytes(at, size).fill(block.id % 251);
    this.blocks.push(block);
  }

  holds({ at, size, id }) {
    return this.heap.bytes(at, size).every((byte) => byte === id % 251);
  }

  remove(index) {
    const [block] = this.blocks.splice(index, 1);
    assert.ok(this.holds(block), `the block at ${block.at} has lost its contents`);
    this.units(block).forEach((unit) => this.users.delete(unit));
    return block;
  }
}

function takeAndGive(heap, account, random) {
  for (let step = 0; step < STEPS; step++) {
    const kind = random(account.blocks.length < MOST_LIVE ? 5 : 10);
    if (kind < 3 || account.blocks.length === 0) {
      const size = sizeFrom(random);
      account.add(heap.alloc(size), size);
    } else if (kind === 3) {
      const { at, size, id } = account.remove(random(account.blocks.length));
      const wanted = sizeFrom(random);
      const moved = heap.realloc(at, size, wanted);
      const kept = heap.bytes(moved, Math.min(size, wanted));
      assert.ok(kept.every((byte) => byte === id % 251), "a block that grows keeps its contents");
      account.add(moved, wanted);
    } else {
      heap.dealloc(account.remove(random(account.blocks.length)).at);
    }
  }
  while (account.blocks.length > 0) {
    heap.dealloc(account.remove(0).at);
  }
}

/** Sizes around those of the classes, all in use at once. */
function edges(heap, account) {
  for (let power = 16; power <= 1 << 16; power *= 2) {
    for (const size of [power - 1, power, power + 1, 1.5 * power - 1, 1.5 * power, 1.5 * power + 1]) {
      account.add(heap.alloc(size), size);
    }
  }
  assert.ok(account.blocks.every((block) => account.holds(block)));
}

/** Without memory. */
function atTheEnd(heap, account) {
  assert.equal(heap.alloc(2 ** 32), null);
  assert.equal(heap.alloc(2 ** 63), null);
  assert.equal(heap.alloc(32, 32), null, "no alignment above 16");
  const blocks = [];
  for (let at = heap.alloc(2 ** 30); at !== null; at = heap.alloc(2 ** 30)) {
    blocks.push(at);
    assert.ok(blocks.length < 4, "there are at most three GiB");
  }
  assert.ok(new Set(blocks).size === blocks.length);
  const last = account.blocks.at(-1);
  assert.equal(heap.realloc(last.at, last.size, 2 ** 31), null);
  assert.ok(account.holds(last), "a block that cannot grow stays as it is");
  account.add(heap.alloc(100), 100);
}

const heap = new Heap(fs.readFileSync(process.argv[2]));
const account = new Account(heap);
takeAndGive(heap, account, randomNumbers(71));
edges(heap, account);
atTheEnd(heap, account);
console.log(`heap: ${STEPS} steps agree`);
