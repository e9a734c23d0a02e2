// A direct-mapped cache beside Mic-1: docs/machines.md has its rules. Each access of a trace is a hit, a miss or a write.
import { CONSOLE } from "./word.js";

const WORDS_OF_A_BLOCK = 4;

// The accesses of a whole trace with a cache of `lines` lines, in their order:
// {place, kind, address, line, block, isMiss, evicted: the block that was there, or null, by: the place at which that was loaded}
export function cacheAccesses(trace, lines) {
  const held = new Map(), accesses = [], { columns, count, statements, setup } = trace, { MAR, PC } = columns.registers;
  const add = (place, kind, address) => {
    if (address === CONSOLE || address >= setup.memoryWords) return;
    const block = Math.floor(address / WORDS_OF_A_BLOCK), line = block % lines, there = held.get(line) || null;
    const isHeld = there !== null && there.block === block;
    const access = { place, kind, address, line, block, isMiss: kind !== "write" && !isHeld, evicted: null };
    if (access.isMiss) {
      access.evicted = there;
      held.set(line, { block, place });
    }
    accesses.push(access);
  };
  for (let i = 0; i < count; i++) {
    const { read, write, fetch } = statements[columns.word[i]];
    if (read || write) add(i, read ? "read" : "write", MAR[i + 1]);
    if (fetch) add(i, "fetch", PC[i + 1] >>> 2);
  }
  return accesses;
}

export function cacheTotals(accesses) {
  const counted = accesses.filter(({ kind }) => kind !== "write"), misses = counted.filter(({ isMiss }) => isMiss).length;
  return { hits: counted.length - misses, misses };
}

// Of each line: its misses and hits, and which blocks it held
export function cacheLines(accesses) {
  const lines = new Map();
  for (const { line, block, kind, isMiss } of accesses) {
    if (kind === "write") continue;
    if (!lines.has(line)) lines.set(line, { line, hits: 0, misses: 0, blocks: new Map() });
    const row = lines.get(line);
    if (isMiss) row.misses++;
    else row.hits++;
    row.blocks.set(block, (row.blocks.get(block) || 0) + (isMiss ? 1 : 0));
  }
  return [...lines.values()].sort((a, b) => b.misses - a.misses || a.line - b.line);
}
