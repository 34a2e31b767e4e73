"use strict";
// A program in a worker of its own, so that the page answers while it runs, and Stop can end it.

/** Thrown where a run was ended by Stop. */
class Stopped extends Error {}

/** Returns the bytes of a program that was packed as gzip in base64. */
async function unpack(base64) {
  const packed = Uint8Array.from(atob(base64), (letter) => letter.charCodeAt(0));
  return new Uint8Array(await new Response(new Blob([packed]).stream().pipeThrough(new DecompressionStream("gzip"))).arrayBuffer());
}

class Program {
  /** `bytes` is the WebAssembly module. The worker compiles it by itself: a page that is a file cannot hand it a compiled one. */
  constructor(name, bytes) {
    this.name = name;
    this.bytes = bytes;
    this.start();
  }

  start() {
    // The worker's text comes from the page, since a page that is a file may not load a worker from another file.
    const address = URL.createObjectURL(new Blob([WORKER_TEXT], { type: "text/javascript" }));
    this.worker = new Worker(address);
    URL.revokeObjectURL(address);
    this.waiting = new Map();
    this.lastId = 0;
    this.worker.onmessage = ({ data }) => this.take(data);
    this.worker.onerror = (event) => this.rejectAll(new Error(`the worker of ${this.name} failed: ${event.message || "no reason was told"}`));
    this.isReady = this.ask({ module: this.bytes });
    this.isReady.catch(() => {}); // (a run that waits for it reports it)
  }

  take({ id, result, fault }) {
    const { resolve, reject } = this.waiting.get(id);
    this.waiting.delete(id);
    if (fault === undefined) resolve(result);
    else reject(new Error(fault));
  }

  rejectAll(error) {
    for (const { reject } of this.waiting.values()) reject(error);
    this.waiting.clear();
  }

  ask(request) {
    return new Promise((resolve, reject) => {
      this.waiting.set(++this.lastId, { resolve, reject });
      this.worker.postMessage({ id: this.lastId, ...request });
    });
  }

  /** Runs the program with these words after its name; the rest as `runProgram` has it. */
  async run(words, files, input) {
    await this.isReady.catch((error) => {
      throw error instanceof Stopped ? error : new Error(`${this.name} could not be loaded: ${error.message}`);
    });
    return this.ask({ run: { words: [this.name, ...words], files, input } });
  }

  /** Ends what runs, whose callers get `Stopped`, and starts anew. */
  stop() {
    this.worker.terminate();
    this.rejectAll(new Stopped());
    this.start();
  }
}
