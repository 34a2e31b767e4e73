"use strict";
// The host of a program: the words that it is started with, three standard streams, and one folder of files in memory.
// This file has no page around it: it runs in a worker, and in the page of try_cases.

// Error numbers of Linux, as system.c hands them on.
const NO_SUCH_FILE = 2, BAD_HANDLE = 9, TOO_LARGE = 27;
// Flags of `open` on Linux.
const CREATES = 0x40, EMPTIES = 0x200;
// How many bytes a run may write into all its files together.
const MOST_WRITTEN = 64 * 1024 * 1024;

/** Thrown where the program ends by itself. */
class Exit {
  constructor(code) { this.code = code & 255; }
}

/** A file in memory. `bytes` may be longer than the file, which has `size` bytes. */
class MemoryFile {
  constructor(bytes, number) {
    this.bytes = bytes;
    this.size = bytes.length;
    this.number = number;
    this.isChanged = false;
  }

  empty() {
    this.bytes = new Uint8Array();
    this.size = 0;
    this.isChanged = true;
  }

  /** Writes a piece at a place, and gives the room for it. */
  put(piece, at) {
    const end = at + piece.length;
    if (end > this.bytes.length) {
      const larger = new Uint8Array(Math.max(end, 2 * this.bytes.length, 4096));
      larger.set(this.bytes.subarray(0, this.size));
      this.bytes = larger;
    }
    this.bytes.set(piece, at);
    this.size = Math.max(this.size, end);
    this.isChanged = true;
  }

  contents() { return this.bytes.slice(0, this.size); }
}

/** The folder of a run, its open handles and its standard streams. Calls answer as Linux does: below 0 is an error. */
class Folder {
  constructor(files, input, roomOfFile) {
    this.files = new Map();
    this.handles = new Map();
    this.roomOfFile = roomOfFile;
    this.written = 0;
    this.isFull = false;
    this.nextNumber = 1;
    this.nextHandle = 3;
    for (const [name, bytes] of Object.entries(files)) this.files.set(name, this.fileOf(bytes));
    this.streams = [input, new Uint8Array(), new Uint8Array()].map((bytes) => this.fileOf(bytes));
    this.streams.forEach((file, handle) => this.handles.set(handle, { file, at: 0 }));
  }

  fileOf(bytes) { return new MemoryFile(bytes, this.nextNumber++); }

  open(name, flags) {
    if (!this.files.has(name)) {
      if (!(flags & CREATES)) return -NO_SUCH_FILE;
      const made = this.fileOf(new Uint8Array());
      made.isChanged = true;
      this.files.set(name, made);
    }
    const file = this.files.get(name);
    if (flags & EMPTIES) file.empty();
    this.handles.set(this.nextHandle, { file, at: 0 });
    return this.nextHandle++;
  }

  close(handle) { return this.handles.delete(handle) ? 0 : -BAD_HANDLE; }

  /** Copies the next bytes of a file, and returns how many. */
  read(handle, into) {
    const open = this.handles.get(handle);
    if (!open) return -BAD_HANDLE;
    const piece = open.file.bytes.subarray(open.at, Math.min(open.file.size, open.at + into.length));
    into.set(piece);
    open.at += piece.length;
    return piece.length;
  }

  /** Takes as many bytes as there is room for, and returns how many; an error where there is none. */
  write(handle, from) {
    const open = this.handles.get(handle);
    if (!open) return -BAD_HANDLE;
    const isStream = handle <= 2; // (a report that says that a file has no room has room itself)
    const length = isStream ? from.length : Math.min(from.length, this.roomOfFile - open.at, MOST_WRITTEN - this.written);
    if (length < from.length) this.isFull = true;
    if (length <= 0 && from.length > 0) return -TOO_LARGE;
    open.file.put(from.subarray(0, length), open.at);
    open.at += length;
    if (!isStream) this.written += length;
    return length;
  }

  truncate(handle, length) {
    const open = this.handles.get(handle);
    if (!open) return -BAD_HANDLE;
    open.file.size = Math.min(open.file.size, length);
    open.file.isChanged = true;
    return 0;
  }

  number(handle) { return this.handles.get(handle)?.file.number ?? 0; }
  size(handle) { return this.handles.get(handle)?.file.size ?? 0; }

  /** The files that the run made, emptied or wrote, by their names. */
  changed() {
    const found = {};
    for (const [name, file] of this.files) if (file.isChanged) found[name] = file.contents();
    return found;
  }
}

/** The functions that system.c imports. `memoryOf` returns the program's memory, which is there only once the program is. */
function importsOf(folder, words, memoryOf) {
  const bytesAt = (at, length) => new Uint8Array(memoryOf().buffer, Number(at), Number(length));
  const textAt = (at) => {
    const all = new Uint8Array(memoryOf().buffer), from = Number(at);
    return new TextDecoder().decode(all.slice(from, all.indexOf(0, from)));
  };
  return {
    word(index, into, room) {
      const word = words[Number(index)];
      if (word === undefined) return -1n;
      bytesAt(into, room).set(word.subarray(0, Number(room)));
      return word.length > Number(room) ? -2n : BigInt(word.length);
    },
    open: (name, flags) => folder.open(textAt(name), flags),
    close: (handle) => folder.close(handle),
    read: (handle, into, length) => BigInt(folder.read(handle, bytesAt(into, length))),
    write: (handle, from, length) => BigInt(folder.write(handle, bytesAt(from, length))),
    truncate: (handle, length) => folder.truncate(handle, Number(length)),
    number: (handle) => BigInt(folder.number(handle)),
    size: (handle) => BigInt(folder.size(handle)),
    exit(code) { throw new Exit(code); },
  };
}

/** Runs `main`, and returns its exit code, or what stopped it where it did not end by itself. */
function callMain(instance) {
  try {
    return { code: instance.exports.main(0, 0n) & 255, fault: null };
  } catch (thrown) {
    if (thrown instanceof Exit) return { code: thrown.code, fault: null };
    return { code: null, fault: String(thrown) };
  }
}

/**
 * Runs a program once. A run has an instance, a memory and a folder of its own, so that nothing of it is left for the next.
 * `words` are the program's name and its words; `files` has the bytes of each file by its name; `input` is standard input;
 * `roomOfFile` is how many bytes an opened file has room for. Texts may be strings or bytes.
 * Returns the exit code, what stopped the program otherwise, standard output and error, the files that changed, the bytes of
 * memory, and whether a write found no room.
 */
function runProgram(module, { words, files = {}, input = new Uint8Array(), roomOfFile = Infinity }) {
  const encoder = new TextEncoder();
  const bytesOf = (text) => (typeof text === "string" ? encoder.encode(text) : text);
  const folder = new Folder(files, bytesOf(input), roomOfFile);
  let memory = null;
  const instance = new WebAssembly.Instance(module, { host: importsOf(folder, words.map(bytesOf), () => memory) });
  memory = instance.exports.memory;
  const began = performance.now();
  const { code, fault } = callMain(instance);
  return {
    code,
    fault,
    output: folder.streams[1].contents(),
    errors: folder.streams[2].contents(),
    files: folder.changed(),
    memory: memory.buffer.byteLength,
    isFull: folder.isFull,
    milliseconds: performance.now() - began,
  };
}
