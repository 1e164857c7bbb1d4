// Reads a system text: its glues, types, pairs, box and seeds. It reads and judges nothing: the program refuses.
import { Fault, Lines, Names } from "./bytes.js";

export const SIDES = ["north", "east", "south", "west"];
export const STEPS = [[0, 1], [1, 0], [0, -1], [-1, 0]];
export const LETTERS = "NESW";
export const opposite = (side) => (side + 2) % 4;

const MOST_GLUES = 8192, MOST_TYPES = 16384;
const WORDS = { tau: 2, glue: 3, pair: 4, tile: 6, box: 5, seed: 4, end: 1 };

// A tile system. A side has the number of its glue, or -1.
export class System {
  constructor() {
    Object.assign(this, { version: 1, tau: 0, glues: new Names(), strengths: [], types: new Names(), sides: [] });
    Object.assign(this, { pairs: new Map(), partners: new Map(), seeds: [], box: null, wide: 0, high: 0 });
    // of each glue and type the line, and of the whole the last line with its end in the bytes
    Object.assign(this, { glueLines: [], typeLines: [], boxLine: 0, lastLine: 0, length: 0, colours: [] });
  }

  side(type, side) {
    return this.sides[4 * type + side];
  }

  nameOf(type) {
    return this.types.name(type);
  }

  glueName(glue) {
    return glue < 0 ? "-" : this.glues.name(glue);
  }

  // The strength with which two sides interact.
  between(one, other) {
    if (one < 0 || other < 0) return 0;
    return one === other ? this.strengths[one] : this.pairs.get(one * MOST_GLUES + other) ?? 0;
  }

  // The greatest strength with which a glue interacts.
  strongest(glue) {
    if (glue < 0) return 0;
    return Math.max(this.strengths[glue], ...(this.partners.get(glue) ?? []).map((it) => this.between(glue, it)));
  }

  isInside(x, y) {
    const [x0, y0, x1, y1] = this.box;
    return x >= x0 && x <= x1 && y >= y0 && y <= y1;
  }

  // A site's number, by rows from the top; -1 outside the box.
  cellAt(x, y) {
    return this.isInside(x, y) ? (this.box[3] - y) * this.wide + x - this.box[0] : -1;
  }

  siteOf(cell) {
    return [this.box[0] + (cell % this.wide), this.box[3] - Math.floor(cell / this.wide)];
  }

  // How far beyond which sides of the box a site lies, in words.
  beyond(x, y) {
    const [x0, y0, x1, y1] = this.box, far = [y - y1, x - x1, y0 - y, x0 - x];
    return SIDES.map((side, at) => [side, far[at]]).filter((it) => it[1] > 0).map((it) =>
      `${it[0]} by ${it[1]}`).join(" and ");
  }
}

// What each line of a system does to it.
const READ = {
  tau: (system, lines, number) => { system.tau = number(1); },
  glue: (system, lines, number) => {
    if (system.glues.count === MOST_GLUES) throw new Fault(lines.number, `a system has at most ${MOST_GLUES} glues`);
    const glue = system.glues.add(lines.bytes, lines.words[2], lines.words[3]);
    system.strengths[glue] = number(2);
    system.glueLines[glue] = lines.number;
  },
  pair: readPair,
  tile: readTile,
  box: (system, lines, number) => {
    const [x0, y0, x1, y1] = (system.box = [1, 2, 3, 4].map(number));
    Object.assign(system, { wide: x1 - x0 + 1, high: y1 - y0 + 1, boxLine: lines.number });
    if (!(system.wide > 0 && system.high > 0 && system.wide <= 1024 && system.high <= 1024)) {
      throw new Fault(lines.number, "a box has its lower left corner first, and at most 1024 sites on a side");
    }
  },
  seed: (system, lines, number) => {
    system.seeds.push({ x: number(1), y: number(2), type: typeIn(system, lines, 3), line: lines.number });
  },
};

function readPair(system, lines, number) {
  if (system.version < 2) {
    throw new Fault(lines.number, "pairs of unlike glues are of version 2: the first line must be tiles 2");
  }
  const one = glueIn(system, lines, 1), other = glueIn(system, lines, 2), strength = number(3);
  for (const [a, b] of [[one, other], [other, one]]) {
    system.pairs.set(a * MOST_GLUES + b, strength);
    if (!system.partners.has(a)) system.partners.set(a, []);
    system.partners.get(a).push(b);
  }
}

function readTile(system, lines) {
  if (system.types.count === MOST_TYPES) throw new Fault(lines.number, `a system has at most ${MOST_TYPES} types`);
  const { bytes, words } = lines, type = system.types.add(bytes, words[2], words[3]);
  for (let side = 0; side < 4; side++) {
    const from = words[4 + 2 * side], isNone = bytes[from] === 45 && words[5 + 2 * side] === from + 1;
    system.sides[4 * type + side] = isNone ? -1 : glueIn(system, lines, 2 + side);
  }
  system.typeLines[type] = lines.number;
}

function glueIn(system, lines, n) {
  const glue = system.glues.find(lines.bytes, lines.words[2 * n], lines.words[2 * n + 1]);
  if (glue < 0) throw new Fault(lines.number, `no glue is named ${lines.word(n)}`);
  return glue;
}

export function typeIn(system, lines, n) {
  const type = system.types.find(lines.bytes, lines.words[2 * n], lines.words[2 * n + 1]);
  if (type < 0) throw new Fault(lines.number, `no type is named ${lines.word(n)}`);
  return type;
}

// The system that a text begins with, or a Fault for the first line that can't be read.
export function readSystem(bytes) {
  const system = new System(), lines = new Lines(bytes);
  lines.remark = (it) => keepColour(system, it);
  if (!lines.next() || lines.count !== 2 || !lines.is(0, "tiles") || !(lines.is(1, "1") || lines.is(1, "2"))) {
    throw new Fault(Math.max(1, lines.number), "a system begins with the line: tiles 1, or tiles 2");
  }
  system.version = lines.integer(1);
  const number = (n) => {
    const value = lines.integer(n);
    if (Number.isNaN(value)) throw new Fault(lines.number, `${lines.word(n)} is no number`);
    return value;
  };
  while (lines.next()) {
    const keyword = lines.word(0);
    if (!(keyword in WORDS)) throw new Fault(lines.number, `${keyword} is no keyword of a system`);
    if (lines.count !== WORDS[keyword]) {
      throw new Fault(lines.number, `${keyword} wants ${WORDS[keyword]} words, and here are ${lines.count}`);
    }
    if (keyword === "end") return ended(system, lines);
    READ[keyword](system, lines, number);
  }
  throw new Fault(lines.number + 1, "the text ends within the system");
}

function ended(system, lines) {
  if (!system.box || !system.seeds.length) throw new Fault(lines.number, "the system has no box or no seed yet");
  system.lastLine = lines.number;
  system.length = Math.min(lines.at, lines.bytes.length);
  return system;
}

// A remark `# colour NAME #rrggbb` is heeded, wherever it stands before the end.
function keepColour(system, lines) {
  if (lines.count !== 4 || !lines.is(0, "#") || !(lines.is(1, "colour") || lines.is(1, "color"))) return;
  const found = /^#([0-9a-fA-F]{6})$/.exec(lines.word(3));
  if (found) system.colours.push({ name: lines.word(2), rgb: parseInt(found[1], 16), line: lines.number });
}
