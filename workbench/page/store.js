// The user's files, kept by the browser. Each has a version, so that two tabs do not overwrite each other unseen. Beside them are
// the examples; a changed example is a file of the user's with the same name, and the example comes back when that is removed.

const PREFIX = "mic-workbench/file/", SETTINGS = "mic-workbench/settings";

export class Conflict extends Error {}
export class StorageFull extends Error {}

function browserStorage() {
  try {
    const storage = window.localStorage, probe = "mic-workbench/probe";
    storage.setItem(probe, "1");
    storage.removeItem(probe);
    return storage;
  } catch {
    return null;
  }
}

// Where the browser keeps nothing, files live as long as the page
export class PageStorage {
  constructor() { this.map = new Map(); }
  get length() { return this.map.size; }
  key(k) { return [...this.map.keys()][k]; }
  getItem(key) { return this.map.has(key) ? this.map.get(key) : null; }
  setItem(key, text) { this.map.set(key, text); }
  removeItem(key) { this.map.delete(key); }
}

export class FileStore {
  // examples: {name: text}
  constructor(examples, storage = browserStorage()) {
    this.isKept = storage !== null;
    this.storage = storage || new PageStorage();
    this.examples = examples;
  }

  own() {
    return Array.from({ length: this.storage.length }, (_, k) => this.storage.key(k))
      .filter(key => key.startsWith(PREFIX)).map(key => key.slice(PREFIX.length)).sort();
  }
  has(name) { return this.storage.getItem(PREFIX + name) !== null || name in this.examples; }
  isOwn(name) { return this.storage.getItem(PREFIX + name) !== null; }

  // {text, version}; the version of an example is ""
  read(name) {
    const kept = this.storage.getItem(PREFIX + name);
    if (kept !== null) {
      try {
        return JSON.parse(kept);
      } catch {
        return { text: kept, version: "?" };
      }
    }
    return name in this.examples ? { text: this.examples[name], version: "" } : null;
  }

  // `expected` is the version that was read, or null to write over any. Returns the new version
  write(name, text, expected) {
    const now = this.read(name);
    if (expected !== null && (now ? now.version : "") !== expected) throw new Conflict(name);
    const version = `${Date.now().toString(36)}-${Math.random().toString(36).slice(2, 8)}`;
    try {
      this.storage.setItem(PREFIX + name, JSON.stringify({ text, version }));
    } catch {
      throw new StorageFull(name);
    }
    return version;
  }
  remove(name) { this.storage.removeItem(PREFIX + name); }

  // A name that no file has: "sum.jas", "sum-2.jas", ..
  freeName(name) {
    const [, stem, kind] = /^(.*?)(\.\w+)?$/.exec(name);
    for (let k = 1; ; k++) {
      const tried = k === 1 ? name : `${stem}-${k}${kind || ""}`;
      if (!this.has(tried)) return tried;
    }
  }

  settings() {
    try {
      return JSON.parse(this.storage.getItem(SETTINGS)) || {};
    } catch {
      return {};
    }
  }
  keepSettings(settings) {
    try {
      this.storage.setItem(SETTINGS, JSON.stringify({ ...this.settings(), ...settings }));
    } catch { /* a full storage has been reported where a file was written */ }
  }

  // told(name) when another tab has written or removed a file
  watch(told) {
    window.addEventListener("storage", ({ key }) => { if (key && key.startsWith(PREFIX)) told(key.slice(PREFIX.length)); });
  }
}
