"use strict";

// The program, in a Worker, so that a long run leaves the page alive, and can be stopped.

const program = {
  compiled: null, // a promise of the module
  worker: null,
  waiting: new Map(), // the number of a call: what waits for its answer
  calls: 0,

  // Unpacks the module, which the page holds as text, and compiles it.
  async compile() {
    const module = await unpacked(bytesOf(document.getElementById("module").textContent), "gzip");
    return WebAssembly.compile(module).catch((error) => {
      throw new Error(`this browser lacks WebAssembly with 64-bit memory, which newer ones have (${error.message})`);
    });
  },

  async start() {
    this.compiled ??= this.compile();
    const module = await this.compiled;
    if (this.worker) return;
    const source = document.getElementById("worker").textContent;
    const address = URL.createObjectURL(new Blob([source], { type: "text/javascript" }));
    this.worker = new Worker(address);
    URL.revokeObjectURL(address);
    this.worker.onmessage = ({ data }) => {
      const answered = this.waiting.get(data.number);
      this.waiting.delete(data.number);
      answered?.(data);
    };
    this.worker.postMessage({ module });
  },

  // What the program answers to these words; null where it was stopped. Files are texts or bytes, by their names.
  async answer(words, files) {
    await this.start();
    const coded = new Map(
      Object.entries(files).map(([name, text]) => [name, typeof text === "string" ? new TextEncoder().encode(text) : text]),
    );
    const number = this.calls++;
    return new Promise((answered) => {
      this.waiting.set(number, answered);
      this.worker.postMessage({ number, words, files: coded });
    });
  },

  stop() {
    this.worker?.terminate();
    this.worker = null;
    for (const answered of this.waiting.values()) answered(null);
    this.waiting.clear();
  },
};

// The bytes that a text in base 64 stands for.
const bytesOf = (text) => Uint8Array.from(atob(text), (letter) => letter.charCodeAt(0));

// What a stream that packs or unpacks makes of these bytes.
async function through(bytes, stream) {
  return new Uint8Array(await new Response(new Blob([bytes]).stream().pipeThrough(stream)).arrayBuffer());
}

const unpacked = (bytes, how) => through(bytes, new DecompressionStream(how));
const packed = (bytes, how) => through(bytes, new CompressionStream(how));
