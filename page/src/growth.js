// Reads what stands behind a system: places, frames, marks of a certificate, and the lines that tell something.
import { FIRST_HASH, Fault, HASH_STEP, Lines, encode, joined } from "./bytes.js";
import { LETTERS, typeIn } from "./system.js";

export const ANSWERS = ["closed", "unique", "legal", "stuck", "verified"];
const NEWLINE = 10, SPACE = 32, MINUS = 45;

// Places in their order, each with the number of its site and of its type. `placeAt` has for each site the number of
// the
// first place there, or -1. A frame has its number and how many places it ends at. `sides` and `ranks` are of a
// certificate.
export class Growth {
  constructor(system, most) {
    Object.assign(this, { system, cells: new Int32Array(most), types: new Uint16Array(most), count: 0 });
    Object.assign(this, { placeAt: new Int32Array(system.wide * system.high).fill(-1), told: [], frames: [] });
    Object.assign(this, { sides: null, ranks: null, isFramed: false });
  }

  add(cell, type) {
    if (this.count === this.cells.length) this.grow();
    if (this.placeAt[cell] < 0) this.placeAt[cell] = this.count;
    this.cells[this.count] = cell;
    this.types[this.count++] = type;
  }

  // Takes away the last place.
  drop() {
    const cell = this.cells[--this.count];
    if (this.placeAt[cell] === this.count) this.placeAt[cell] = -1;
  }

  grow() {
    const most = Math.max(64, this.cells.length * 2);
    const cells = new Int32Array(most), types = new Uint16Array(most);
    cells.set(this.cells);
    types.set(this.types);
    Object.assign(this, { cells, types });
  }

  // The number of the place at a site, or -1.
  numberAt(x, y) {
    const cell = this.system.cellAt(x, y);
    return cell < 0 ? -1 : this.placeAt[cell];
  }

  siteOf(n) {
    return this.system.siteOf(this.cells[n]);
  }

  nameAt(x, y) {
    const n = this.numberAt(x, y);
    return n < 0 ? "the empty site" : this.system.nameOf(this.types[n]);
  }

  mark(n) {
    return this.sides ? { sides: lettersOf(this.sides[n]), rank: this.ranks[n] } : null;
  }
}

export function lettersOf(mask) {
  return [...LETTERS].filter((_, side) => mask & (1 << side)).join("") || "-";
}

// The growth that bytes say behind their system, or a Fault. `from` is where it begins, `number` the line before it.
export function readGrowth(system, bytes, from = system.length, number = system.lastLine) {
  // (the shortest place line has twelve bytes)
  const growth = new Growth(system, Math.floor((bytes.length - from) / 12) + 1);
  const lines = new Lines(bytes, from, number);
  while (readPlaces(growth, lines) && lines.next()) readLine(growth, lines);
  return growth;
}

// Reads lines as the program prints them, `place X Y NAME`, as long as they are so; always true. (All is written out
// within
// one loop: a large growth has a million of them.)
function readPlaces(growth, lines) {
  const { system } = growth, { bytes } = lines, [x0, y0, x1, y1] = system.box, { wide } = system;
  if (growth.isFramed || growth.told.length) return true;
  const { slots, starts, signs } = system.types.packed(), mask = slots.length - 1;
  for (let at = lines.at; ; lines.at = at, lines.number++) {
    if (bytes[at] !== 112 || bytes[at + 1] !== 108 || bytes[at + 4] !== 101 || bytes[at + 5] !== SPACE) return true;
    let x = 0, y = 0;
    at += 6;
    for (let n = 0; n < 2; n++) {
      const isNegative = bytes[at] === MINUS, first = isNegative ? ++at : at;
      let value = 0;
      for (let digit = bytes[at] - 48; digit >= 0 && digit <= 9; digit = bytes[++at] - 48) value = value * 10 + digit;
      if (at === first || at > first + 7 || bytes[at++] !== SPACE) return true;
      x = y;
      y = isNegative ? -value : value;
    }
    if (x < x0 || x > x1 || y < y0 || y > y1) return true;
    const begin = at;
    let hash = FIRST_HASH;
    while (bytes[at] > SPACE) hash = Math.imul(hash ^ bytes[at++], HASH_STEP);
    const length = at - begin;
    if (bytes[at++] !== NEWLINE) return true;
    for (let slot = hash & mask; ; slot = (slot + 1) & mask) {
      const type = slots[slot];
      if (type < 0) return true;
      const from = starts[type];
      let same = starts[type + 1] - from === length ? 0 : -1;
      while (same >= 0 && same < length) same = signs[from + same] === bytes[begin + same] ? same + 1 : -1;
      if (same < 0) continue;
      growth.add((y1 - y) * wide + x - x0, type);
      break;
    }
  }
}

function readLine(growth, lines) {
  const keyword = lines.word(0);
  if (keyword in LINES) {
    const [many, read] = LINES[keyword];
    if (lines.count !== many) {
      throw new Fault(lines.number, `${keyword} wants ${many} words, and here are ${lines.count}`);
    }
    read(growth, lines);
  } else if (ANSWERS.includes(keyword)) {
    if (keyword === "closed" && growth.told.length) {
      throw new Fault(lines.number, "a growth has one closed line, before its unique line");
    }
    growth.told.push(lines.rest());
  } else throw new Fault(lines.number, `${keyword} is no keyword of a growth`);
}

const LINES = {
  place: [4, (growth, lines) => {
    if (growth.told.length) {
      throw new Fault(lines.number, "a growth ends with its closed and unique lines, and here another one begins");
    }
    const cell = siteIn(growth, lines), type = typeIn(growth.system, lines, 3);
    // (behind the line `grown` all that the frames had is listed again)
    if (!growth.isFramed || growth.placeAt[cell] < 0) growth.add(cell, type);
  }],
  frame: [3, (growth, lines) => {
    if (growth.isFramed || growth.told.length) throw new Fault(lines.number, "no frame comes behind the growth");
    growth.frames.push({ number: lines.integer(1), many: lines.integer(2) });
  }],
  grown: [1, (growth) => { growth.isFramed = true; }],
  mark: [6, readMark],
};

function readMark(growth, lines) {
  if (growth.told.length) throw new Fault(lines.number, "a certificate stands right behind its system");
  const cell = siteIn(growth, lines), sides = lines.word(4), rank = lines.integer(5);
  if (!/^(-|N?E?S?W?)$/.test(sides)) throw new Fault(lines.number, "sides are - or letters of NESW, in this order");
  if (Number.isNaN(rank)) throw new Fault(lines.number, `${lines.word(5)} is no number`);
  growth.sides ??= new Uint8Array(growth.cells.length);
  growth.ranks ??= new Float64Array(growth.cells.length);
  growth.sides[growth.count] = [...sides].reduce((mask, it) => mask | (it === "-" ? 0 : 1 << LETTERS.indexOf(it)), 0);
  growth.ranks[growth.count] = rank;
  growth.add(cell, typeIn(growth.system, lines, 3));
}

function siteIn(growth, lines) {
  const x = lines.integer(1), y = lines.integer(2);
  if (Number.isNaN(x) || Number.isNaN(y)) throw new Fault(lines.number, "a site is two numbers");
  const cell = growth.system.cellAt(x, y);
  if (cell < 0) throw new Fault(lines.number, "the site is not in the box");
  return cell;
}

// The place lines of the first places, as bytes.
export function placesBytes(growth, many = growth.count) {
  const pieces = [];
  let lines = [];
  for (let n = 0; n < many; n++) {
    const [x, y] = growth.siteOf(n);
    lines.push(`place ${x} ${y} ${growth.system.nameOf(growth.types[n])}\n`);
    if (lines.length === 8192) { pieces.push(encode(lines.join(""))); lines = []; }
  }
  pieces.push(encode(lines.join("")));
  return joined(pieces);
}
