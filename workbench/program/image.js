// An image file: the words of text and pool by their addresses, and the bytes of the text. docs/ijvm.md has its form.

const POOL_WORD = 0x4000;

export function imageOf(bytes) {
  const view = new DataView(bytes.buffer, bytes.byteOffset, bytes.byteLength), memory = new Map(), pool = [];
  let text = new Uint8Array(0);
  for (let at = 4; at + 8 <= bytes.length;) {
    const origin = view.getUint32(at), size = view.getUint32(at + 4), block = bytes.subarray(at + 8, at + 8 + size);
    if (origin === 0) text = block;
    for (let place = 0; place < size; place += 4) {
      const word = [0, 1, 2, 3].reduce((sum, k) => sum * 256 + (block[place + k] || 0), 0);
      memory.set((origin ? POOL_WORD : 0) + place / 4, word);
      if (origin) pool.push(word);
    }
    at += 8 + size;
  }
  return { memory, text, pool };
}
