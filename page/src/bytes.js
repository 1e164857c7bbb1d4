// A text's bytes: its lines, words, numbers and names, without a string for each of them.

const ENCODER = new TextEncoder();
const DECODER = new TextDecoder("utf-8", { ignoreBOM: true });
const SPACE = 32, NEWLINE = 10, MINUS = 45, HASH = 35;
const MOST_WORDS = 160;

export const encode = (text) => ENCODER.encode(text);
export const decode = (bytes) => DECODER.decode(bytes);

// Several pieces as one; each ends with a newline but the last, which stays as it is.
export function joined(pieces) {
  const whole = pieces.filter((it) => it.length);
  const isOpen = (it, at) => at + 1 < whole.length && it[it.length - 1] !== NEWLINE;
  const all = new Uint8Array(whole.reduce((length, it, at) => length + it.length + isOpen(it, at), 0));
  let from = 0;
  whole.forEach((it, at) => {
    all.set(it, from);
    from += it.length;
    if (isOpen(it, at)) all[from++] = NEWLINE;
  });
  return all;
}

// A text that can't be read: the number of the line, and why.
export class Fault extends Error {
  constructor(line, why) {
    super(`line ${line}: ${why}`);
    this.line = line;
    this.why = why;
  }
}

// Goes over the lines of a text that are neither empty nor remarks. `words` has the begin and the end of each word.
export class Lines {
  constructor(bytes, from = 0, number = 0) {
    Object.assign(this, { bytes, at: from, number, from, to: from, count: 0, words: new Int32Array(2 * MOST_WORDS) });
    // what is called with the begin and the end of each remark
    this.remark = null;
  }

  // Moves to the next line; false at the end.
  next() {
    while (this.at < this.bytes.length) {
      this.part();
      if (!this.count) continue;
      if (this.bytes[this.words[0]] !== HASH) return true;
      this.remark?.(this);
    }
    return false;
  }

  // Parts the line that begins here into words.
  part() {
    const { bytes, words } = this, length = bytes.length;
    let at = this.at, many = 0, isWord = false;
    for (; at < length && bytes[at] !== NEWLINE; at++) {
      if (bytes[at] === SPACE) {
        if (isWord) words[many++] = at;
        isWord = false;
      } else if (!isWord && many < words.length) {
        words[many++] = at;
        isWord = true;
      }
    }
    if (isWord) words[many++] = at;
    Object.assign(this, { from: this.at, to: at, at: at + 1, number: this.number + 1, count: many >> 1 });
  }

  word(n) {
    return decode(this.bytes.subarray(this.words[2 * n], this.words[2 * n + 1]));
  }

  rest(from = 0) {
    return Array.from({ length: Math.max(0, this.count - from) }, (_, n) => this.word(n + from));
  }

  is(n, text) {
    const from = this.words[2 * n];
    if (this.words[2 * n + 1] - from !== text.length) return false;
    for (let at = 0; at < text.length; at++) if (this.bytes[from + at] !== text.charCodeAt(at)) return false;
    return true;
  }

  // The number that a word is, or NaN.
  integer(n) {
    return integerIn(this.bytes, this.words[2 * n], this.words[2 * n + 1]);
  }
}

// The number that bytes spell: an optional minus and one to ten digits; else NaN.
export function integerIn(bytes, from, to) {
  const isNegative = bytes[from] === MINUS, first = from + isNegative;
  if (to - first < 1 || to - first > 10) return NaN;
  let value = 0;
  for (let at = first; at < to; at++) {
    const digit = bytes[at] - 48;
    if (digit < 0 || digit > 9) return NaN;
    value = value * 10 + digit;
  }
  return isNegative ? -value : value;
}

export const FIRST_HASH = 0x811c9dc5;
export const HASH_STEP = 0x01000193;

export function hashOf(bytes, from, to) {
  let hash = FIRST_HASH;
  for (let at = from; at < to; at++) hash = Math.imul(hash ^ bytes[at], HASH_STEP);
  return hash >>> 0;
}

// Names by number, found by their bytes. A name becomes a string when it is asked for.
export class Names {
  constructor() {
    Object.assign(this, { count: 0, spans: [], sources: [], strings: [], slots: new Int32Array(64).fill(-1) });
  }

  slotOf(bytes, from, to) {
    const mask = this.slots.length - 1;
    let slot = hashOf(bytes, from, to) & mask;
    while (this.slots[slot] >= 0 && !this.isName(this.slots[slot], bytes, from, to)) slot = (slot + 1) & mask;
    return slot;
  }

  isName(n, bytes, from, to) {
    const own = this.sources[n], first = this.spans[2 * n];
    if (this.spans[2 * n + 1] - first !== to - from) return false;
    for (let at = 0; at < to - from; at++) if (own[first + at] !== bytes[from + at]) return false;
    return true;
  }

  // The number of the name, or -1.
  find(bytes, from, to) {
    return this.slots[this.slotOf(bytes, from, to)];
  }

  numberOf(text) {
    const bytes = encode(text);
    return this.find(bytes, 0, bytes.length);
  }

  // Adds a name, or gives the number that it has.
  add(bytes, from, to) {
    if (this.count * 2 >= this.slots.length) this.grow();
    const slot = this.slotOf(bytes, from, to);
    if (this.slots[slot] >= 0) return this.slots[slot];
    this.spans.push(from, to);
    this.sources.push(bytes);
    this.slots[slot] = this.count;
    return this.count++;
  }

  grow() {
    this.slots = new Int32Array(this.slots.length * 2).fill(-1);
    for (let n = 0; n < this.count; n++) {
      this.slots[this.slotOf(this.sources[n], this.spans[2 * n], this.spans[2 * n + 1])] = n;
    }
  }

  // All names as one piece: their signs, where each begins, and the slots of their hashes.
  packed() {
    const starts = new Int32Array(this.count + 1);
    for (let n = 0; n < this.count; n++) starts[n + 1] = starts[n] + this.spans[2 * n + 1] - this.spans[2 * n];
    const signs = new Uint8Array(starts[this.count]);
    for (let n = 0; n < this.count; n++) signs.set(this.bytesOf(n), starts[n]);
    return { slots: this.slots, starts, signs };
  }

  bytesOf(n) {
    return this.sources[n].subarray(this.spans[2 * n], this.spans[2 * n + 1]);
  }

  name(n) {
    return (this.strings[n] ??= decode(this.bytesOf(n)));
  }

  all() {
    return Array.from({ length: this.count }, (_, n) => this.name(n));
  }
}
