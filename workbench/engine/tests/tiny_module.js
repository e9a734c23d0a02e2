// Modules with exports of the real one, in WebAssembly's binary form.

const named = (name) => [name.length, ...Buffer.from(name)];
const section = (id, bytes) => [id, bytes.length, ...bytes];

/** Its call of `mic` breaks off, and it has no other program.
 *
 *   (func (export "host_take") (param i64) (result i32) i32.const 64)
 *   (func (export "mic_web_call") (result i32) unreachable)
 *   (memory (export "memory") 600)
 */
export const BREAKING = Uint8Array.from([
  ...[0x00, 0x61, 0x73, 0x6d, 0x01, 0x00, 0x00, 0x00],
  ...section(1, [2, 0x60, 1, 0x7e, 1, 0x7f, 0x60, 0, 1, 0x7f]),
  ...section(3, [2, 0, 1]),
  ...section(5, [1, 0x00, 0xd8, 0x04]),
  ...section(7, [3, ...named("host_take"), 0, 0, ...named("mic_web_call"), 0, 1, ...named("memory"), 2, 0]),
  ...section(10, [2, 5, 0, 0x41, 0xc0, 0x00, 0x0b, 3, 0, 0x00, 0x0b]),
]);

/** The same with a call of `mic-check`, which finds no call in what is given.
 *
 *   (func (export "mic_check_call") (result i32) i32.const 2)
 */
export const TWO_PROGRAMS = Uint8Array.from([
  ...[0x00, 0x61, 0x73, 0x6d, 0x01, 0x00, 0x00, 0x00],
  ...section(1, [2, 0x60, 1, 0x7e, 1, 0x7f, 0x60, 0, 1, 0x7f]),
  ...section(3, [3, 0, 1, 1]),
  ...section(5, [1, 0x00, 0xd8, 0x04]),
  ...section(7, [4, ...named("host_take"), 0, 0, ...named("mic_web_call"), 0, 1, ...named("mic_check_call"), 0, 2, ...named("memory"), 2, 0]),
  ...section(10, [3, 5, 0, 0x41, 0xc0, 0x00, 0x0b, 3, 0, 0x00, 0x0b, 4, 0, 0x41, 0x02, 0x0b]),
]);

export const EMPTY = Uint8Array.from([0x00, 0x61, 0x73, 0x6d, 0x01, 0x00, 0x00, 0x00]);
