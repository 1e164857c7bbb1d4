// The program in the page: workers with the module compiled, one of them always kept ready, so that a run
// that is ended (by the end of its worker, as nothing else stops it) costs the next one no time.
import { Failure, failure } from "./failure.js";
import { lackOfBrowser } from "./memory64.js";

const WITHOUT = "This page was made without the program, and draws what it is given.";

const block = (name) => document.getElementById(name).textContent;

// The module's bytes, out of the page's own text.
async function moduleBytes() {
  const packed = Uint8Array.from(atob(block("tilebench-module")), (letter) => letter.charCodeAt(0));
  const stream = new Blob([packed]).stream().pipeThrough(new DecompressionStream("gzip"));
  return new Response(stream).arrayBuffer();
}

// The address of the worker's text. (Where the policy asks for it, an address of a script comes by way of a
// named rule.)
function workerAddress() {
  const address = URL.createObjectURL(new Blob([block("tilebench-worker")], { type: "text/javascript" }));
  if (!globalThis.trustedTypes) return address;
  return trustedTypes.createPolicy("tilebench", { createScriptURL: () => address }).createScriptURL("");
}

// A worker with the module, which runs one thing at a time.
class ProgramWorker {
  constructor(address, bytes) {
    this.worker = new Worker(address);
    this.worker.onmessage = ({ data }) => this.heard(data);
    this.worker.onerror = (event) => this.heard({ failed: "trap", why: event.message });
    this.settle = null;
    this.ready = new Promise((resolve, reject) => { this.start = { resolve, reject }; });
    this.ready.catch(() => {});
    const notUnpacked = (error) => this.heard({ failed: "memory", why: String(error) });
    bytes.then((module) => this.worker.postMessage({ module }), notUnpacked);
  }

  heard(data) {
    if (data.isReady) this.start.resolve();
    else if (this.settle) this.settle(data);
    else this.start.reject(new Failure("trap", `the program did not start: ${data.why}`));
  }

  async run(words, input) {
    await this.ready;
    const heard = await new Promise((resolve) => {
      this.settle = resolve;
      // (the whole buffer behind a list of bytes would go along with a part of it)
      this.worker.postMessage({ words, input: input.length < input.buffer.byteLength ? input.slice() : input });
    });
    this.settle = null;
    if (heard.answer) return heard.answer;
    if (heard.failed === "memory") throw failure("memory");
    throw new Failure("trap", `the program trapped (${heard.why}); the next run starts afresh`);
  }

  end() {
    this.worker.terminate();
  }
}

// All workers of the page. A run takes one for itself, and gives it back or ends it.
export class Workers {
  constructor() {
    this.lack = block("tilebench-module") ? lackOfBrowser() : WITHOUT;
    this.isNative = false;
    this.free = [];
    if (this.lack) return;
    this.address = workerAddress();
    this.bytes = moduleBytes();
    this.keepOne();
  }

  // (the last of the free ones is the one that ran last, whose code the browser has compiled best)
  keepOne() {
    if (!this.free.length) this.free.unshift(new ProgramWorker(this.address, this.bytes));
  }

  // A run in a worker: its promise, and how it is ended. A worker that answered is kept for the next run.
  begin(words, input) {
    const worker = this.free.pop() ?? new ProgramWorker(this.address, this.bytes);
    this.keepOne();
    const answer = worker.run(words, input).then(
      (found) => { this.giveBack(worker); return found; },
      (error) => { worker.end(); throw error instanceof Failure ? error : failure("memory"); },
    );
    return { answer, end: () => worker.end() };
  }

  giveBack(worker) {
    this.free.push(worker);
    if (this.free.length > 2) this.free.shift().end();
  }
}
