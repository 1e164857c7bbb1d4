// What the growth of a compiled system computed, row by row: a machine's tape, a counter's numbers, a rule's cells.
// The tiles
// are read back by their names, as the compilers give them.
import { Lines } from "./bytes.js";

// Answers a row as cells, [{text, isHead}], or null where it is not complete.
class Tape {
  constructor(system, growth) {
    Object.assign(this, { system, growth, shown: new Map() });
  }

  // The types of a row of the box, from the west on; -1 at empty sites.
  typesOf(y) {
    const { system, growth } = this, from = (system.box[3] - y) * system.wide;
    return Array.from({ length: system.wide }, (_, x) => {
      const n = growth.placeAt[from + x];
      return n < 0 ? -1 : growth.types[n];
    });
  }

  isComplete(y) {
    const from = (this.system.box[3] - y) * this.system.wide;
    return this.growth.placeAt.subarray(from, from + this.system.wide).every((n) => n >= 0);
  }

  // How many rows from the lowest one on are complete.
  completeRows() {
    let many = 0;
    while (many < this.system.high && this.isComplete(this.system.box[1] + many)) many++;
    return many;
  }

  // What a type shows, asked once of each.
  shows(type) {
    if (!this.shown.has(type)) {
      this.shown.set(type, type < 0 ? null : this.read(this.system.nameOf(type).split(":"), type));
    }
    return this.shown.get(type);
  }
}

// ---- machines

const MACHINE_WORDS = { state: "states", symbol: "symbols" };

export function machineIn(bytes) {
  const machine = { states: [], symbols: [], rules: new Map(), tape: [], cells: 0, rows: 0, head: 0, lines: new Map() };
  const lines = new Lines(bytes);
  while (lines.next()) {
    const [word, ...rest] = lines.rest(), list = MACHINE_WORDS[word];
    machine.lines.set(word === "rule" ? `rule ${rest[0]} ${rest[1]}` : list ? `${word} ${rest[0]}` : word,
      lines.number);
    if (list) machine[list].push(rest[0]);
    else if (word === "rule") machine.rules.set(`${rest[0]} ${rest[1]}`, rest.slice(2));
    else if (word === "tape") machine.tape.push(...rest);
    else if (["cells", "rows", "head"].includes(word)) machine[word] = Number(rest[0]);
  }
  while (machine.tape.length < machine.cells) machine.tape.push(machine.symbols[0]);
  return machine;
}

class MachineTape extends Tape {
  constructor(system, growth, bytes) {
    super(system, growth);
    this.machine = machineIn(bytes);
    this.many = this.completeRows();
    this.order = Array.from({ length: this.many }, (_, at) => system.box[1] + at);
    this.end = this.ending();
    this.title = "The tape after each step";
  }

  // The symbol that a tile shows, and the state of a head on it.
  read([kind, ...rest]) {
    const { machine } = this;
    if (kind === "t") {
      const cell = Number(rest[0]);
      return { symbol: machine.tape[cell], state: cell === machine.head ? machine.states[0] : null };
    }
    if (kind === "a") {
      const [state, symbol, move] = machine.rules.get(`${rest[0]} ${rest[1]}`);
      return { symbol, state: move === "S" ? state : null };
    }
    return kind === "R" || kind === "L" ? { symbol: rest[1], state: rest[0] } : { symbol: rest[0], state: null };
  }

  row(y) {
    return this.typesOf(y).map((type) => {
      const { symbol, state } = this.shows(type);
      return { text: state === null ? symbol : `${state} ${symbol}`, isHead: state !== null };
    });
  }

  headOf(step) {
    const y = this.system.box[1] + step;
    if (step < 0) return null;
    return this.typesOf(y).map((type) => this.shows(type)).find((it) => it.state !== null) ?? null;
  }

  // How the run ended.
  ending() {
    const { machine } = this, last = this.many - 1, head = this.headOf(last),
      steps = `${last} step${last === 1 ? "" : "s"}`;
    if (!head) {
      const before = this.headOf(last - 1), move = before && machine.rules.get(`${before.state} ${before.symbol}`)?.[2];
      const end = `${move === "L" ? "west" : "east"} end of its ${machine.cells} cells`;
      return { tone: "no", text: `Ran off the ${end} in step ${last}: it did not halt.` };
    }
    if (!machine.rules.has(`${head.state} ${head.symbol}`)) {
      return { tone: "yes", text: `Halted in state ${head.state} over ${head.symbol}, after ${steps}.` };
    }
    const next = `in state ${head.state} over ${head.symbol}`;
    return { tone: "within", text: `Cut off by its ${machine.rows} rows: it would go on ${next}.` };
  }

  lineOf(type) {
    const [kind, ...rest] = this.system.nameOf(type).split(":"), { lines } = this.machine;
    const key = { t: "tape", a: `rule ${rest[0]} ${rest[1]}`, R: `state ${rest[0]}`, L: `state ${rest[0]}` }[kind]
      ?? `symbol ${rest[0]}`;
    return lines.get(key) ?? lines.get("head") ?? 0;
  }
}

// ---- counters

class CounterTape extends Tape {
  constructor(system, growth) {
    super(system, growth);
    this.many = this.completeRows();
    this.order = Array.from({ length: this.many }, (_, at) => system.box[1] + at);
    const left = system.high - this.many;
    this.end = left ? { tone: "no", text: `${left} row${left === 1 ? " is" : "s are"} not complete.` } : this.ending();
    this.title = "The number in each row";
  }

  // The bit that a counter's tile shows.
  read([kind, rest], type) {
    if (kind === "t") return this.system.glueName(this.system.side(type, 0)).slice(-1);
    const bits = [...rest].map(Number);
    return String(kind === "ie" ? 1 - bits[0] : kind === "im" || kind === "iw" ? bits[0] ^ bits[1] : bits[0]);
  }

  row(y) {
    const bits = this.typesOf(y).map((type) => this.shows(type)).join("");
    return [{ text: bits, isHead: false }, { text: `= ${parseInt(bits, 2)}`, isHead: true }];
  }

  ending() {
    const number = (y) => this.row(y)[1].text.slice(2), [, y0, , y1] = this.system.box;
    return { tone: "yes", text: `Counted from ${number(y0)} to ${number(y1 - 1)}, and on to ${number(y1)}.` };
  }

  lineOf(type) {
    return this.system.typeLines[type];
  }
}

// ---- two-input rules

class RuleTape extends Tape {
  constructor(system, growth, bytes) {
    super(system, growth);
    const [, y0, , y1] = system.box, left = new Lines(bytes);
    this.many = y1 - y0;
    this.order = Array.from({ length: this.many }, (_, at) => y1 - at);
    this.lines = new Map();
    while (left.next()) {
      const words = left.rest();
      this.lines.set(words[0] === "rule" ? `rule ${words[1]} ${words[2]}` : words[0] === "symbol"
        ? `symbol ${words[1]}` : words[0], left.number);
    }
    this.title = "West:south at each cell, the highest row first";
    const none = this.emptyCells();
    this.end = none ? { tone: "within",
      text: `${none} cell${none === 1 ? " is" : "s are"} without a rule or an input.` }
      : { tone: "yes", text: "Each cell has a rule and its inputs." };
  }

  emptyCells() {
    let none = 0;
    const { wide, high } = this.system;
    for (let row = 0; row + 1 < high; row++) {
      for (let x = 1; x < wide; x++) if (this.growth.placeAt[row * wide + x] < 0) none++;
    }
    return none;
  }

  read([kind, ...rest]) {
    return kind === "q" ? rest.join(":") : null;
  }

  row(y) {
    return this.typesOf(y).slice(1).map((type) => ({ text: this.shows(type) ?? "\u00b7", isHead: false }));
  }

  lineOf(type) {
    const [kind, ...rest] = this.system.nameOf(type).split(":");
    return this.lines.get(kind === "q" ? `rule ${rest[0]} ${rest[1]}` : "size") ?? 0;
  }
}

// The tape of what is shown, or null where nothing is to be read off it.
export function tapeOf({ kind, system, growth }, bytes) {
  if (!system || !growth.count) return null;
  if (kind === "machine") return new MachineTape(system, growth, bytes);
  if (kind === "rule") return new RuleTape(system, growth, bytes);
  return kind === "system" && system.types.numberOf("cw:0") >= 0 ? new CounterTape(system, growth) : null;
}
