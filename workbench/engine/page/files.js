// The files of the page: the examples, and what the user and the program write. They live in memory.
import { hexOf, textOf } from "./shown.js";

export class Files {
  /** @param {{ name: string, bytes: Uint8Array }[]} examples */
  constructor(examples) {
    this.contents = new Map(examples.map(({ name, bytes }) => [name, bytes]));
    this.unsaved = new Set();
  }

  get names() {
    return [...this.contents.keys()].sort();
  }

  has(name) {
    return this.contents.has(name);
  }

  bytes(name) {
    return this.contents.get(name);
  }

  /** The text of a file and whether it can be edited: rows of bytes cannot. */
  text(name) {
    const bytes = this.bytes(name);
    const text = textOf(bytes);
    return text === null ? { text: hexOf(bytes), isText: false } : { text, isText: true };
  }

  write(name, bytes) {
    this.contents.set(name, bytes);
    this.unsaved.add(name);
  }

  delete(name) {
    this.contents.delete(name);
    this.unsaved.delete(name);
  }
}

/** Lets the user keep these bytes as a file. */
export function download(name, bytes) {
  const link = document.createElement("a");
  link.href = URL.createObjectURL(new Blob([bytes]));
  link.download = name.split("/").at(-1);
  link.click();
  setTimeout(() => URL.revokeObjectURL(link.href), 1000);
}
