// What the program's module asks of its host: its words, its input, its outputs and its end. Nothing proves
// this code.

// A list of bytes that grows as it is written to.
class Output {
  constructor() {
    this.bytes = new Uint8Array(1 << 16);
    this.length = 0;
  }

  write(more) {
    if (this.length + more.length > this.bytes.length) {
      const wider = new Uint8Array(Math.max(2 * this.bytes.length, this.length + more.length));
      wider.set(this.bytes.subarray(0, this.length));
      this.bytes = wider;
    }
    this.bytes.set(more, this.length);
    this.length += more.length;
  }

  // What was written, in a buffer of its own length. (A large one is rather handed over than copied.)
  taken() {
    const { buffer } = this.bytes;
    if (typeof buffer.transfer === "function") return new Uint8Array(buffer.transfer(this.length));
    return this.bytes.slice(0, this.length);
  }
}

// Thrown through the program where it ends before its entry returns.
class Exit {
  constructor(status) {
    this.status = status;
  }
}

class Host {
  constructor(words, input) {
    this.words = ["tilebench", ...words].map((word) => new TextEncoder().encode(word));
    this.input = input;
    this.taken = 0;
    this.outputs = { 1: new Output(), 2: new Output() };
    this.memory = null;
  }

  at(address, length) {
    return new Uint8Array(this.memory.buffer, Number(address), Number(length));
  }

  arg(number, address, length) {
    const word = this.words[Number(number)];
    if (word === undefined) return -1n;
    const room = Math.min(word.length, Number(length));
    this.at(address, room).set(word.subarray(0, room));
    return word.length > Number(length) ? -2n : BigInt(word.length);
  }

  read(file, address, length) {
    const many = Math.min(Number(length), this.input.length - this.taken);
    this.at(address, many).set(this.input.subarray(this.taken, this.taken + many));
    this.taken += many;
    return BigInt(many);
  }

  write(file, address, length) {
    this.outputs[file].write(this.at(address, length));
    return length;
  }

  imports() {
    return {
      arg: (number, address, length) => this.arg(number, address, length),
      read: (file, address, length) => this.read(file, address, length),
      write: (file, address, length) => this.write(file, address, length),
      exit: (status) => { throw new Exit(status); },
    };
  }
}

// One run of the program from its beginning, in a memory of its own: its status and its outputs. A trap is
// thrown on.
export function runProgram(module, words, input) {
  const host = new Host(words, input), began = performance.now();
  const { exports } = new WebAssembly.Instance(module, { host: host.imports() });
  host.memory = exports.memory;
  let status;
  try {
    status = exports.run();
  } catch (thrown) {
    if (!(thrown instanceof Exit)) throw thrown;
    status = thrown.status;
  }
  return { status, out: host.outputs[1].taken(), err: host.outputs[2].taken(), ms: performance.now() - began };
}
