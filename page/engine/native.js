// The native program behind tools/live, which answers as the worker does.
import { Failure, failure } from "./failure.js";

export class Server {
  constructor(address) {
    this.address = address;
    this.lack = "";
    this.isNative = true;
  }

  // A run by the server: its promise, and how it is ended.
  begin(words, input) {
    const hangUp = new AbortController();
    const asked = words.map((word) => `word=${encodeURIComponent(word)}`).join("&");
    const how = { method: "POST", body: input, signal: hangUp.signal };
    return { answer: this.answer(`${this.address}/run?${asked}`, how), end: () => hangUp.abort() };
  }

  async answer(address, how) {
    let came, bytes;
    try {
      came = await fetch(address, how);
      bytes = new Uint8Array(await came.arrayBuffer());
    } catch (error) {
      throw error instanceof RangeError ? failure("memory") : failure("gone");
    }
    const header = (name) => Number(came.headers.get(`Tilebench-${name}`));
    if (!came.ok) throw new Failure("trap", new TextDecoder().decode(bytes).trim());
    // (the output stands first, and the error output behind it)
    const out = header("Out");
    const outputs = { out: bytes.subarray(0, out), err: bytes.subarray(out) };
    return { status: header("Status"), ...outputs, ms: header("Milliseconds") };
  }
}
