// The memory of one instance of the module: room is taken from its heap, and written and read as bytes and 64-bit numbers.
import { OutOfMemory } from "./errors.js";

/** The fewest bytes that are taken: an empty slice has an address too. */
const LEAST = 16;

/** The bytes of a 64-bit number, which are eight in a module with 32-bit memory too. */
const NUMBER = 8;

/** A stretch of the module's memory. */
class Slice {
  constructor(memory, address, length) {
    this.memory = memory;
    this.address = address;
    this.length = length;
  }

  /** A view of the bytes, valid until the memory grows. */
  bytes(start = 0, end = this.length) {
    return new Uint8Array(this.memory.buffer, this.address + start, end - start);
  }

  /** The 64-bit number at this index. */
  number(index) {
    return Number(new DataView(this.memory.buffer).getBigUint64(this.address + NUMBER * index, true));
  }
}

export class ModuleMemory {
  /** @param {WebAssembly.Exports} exports */
  constructor(exports) {
    this.memory = exports.memory;
    this.take = exports.host_take;
  }

  /** Room for this many bytes. */
  room(length) {
    const address = this.take(BigInt(Math.max(length, LEAST))) >>> 0;
    if (address === 0) {
      throw new OutOfMemory(`no room for ${length} bytes in the module's memory`);
    }
    return new Slice(this.memory, address, length);
  }

  /** Room with these bytes. */
  withBytes(bytes) {
    const slice = this.room(bytes.length);
    slice.bytes().set(bytes);
    return slice;
  }

  /** Room for this many 64-bit numbers. */
  numberRoom(count) {
    return this.room(NUMBER * count);
  }

  /** Room with these 64-bit numbers. */
  withNumbers(numbers) {
    const slice = this.numberRoom(numbers.length);
    const view = new DataView(this.memory.buffer, slice.address);
    numbers.forEach((number, index) => view.setBigUint64(NUMBER * index, BigInt(number), true));
    return slice;
  }
}
