// A refused text, line by line, as what is behind a refusal is sought in it. Lines count from 1.
import { decode } from "./bytes.js";

const NEWLINE = 10, HASH = 35;
const GAPS = /[\t-\r\x1c- \x85\xa0\u1680\u2000-\u200a\u2028\u2029\u202f\u205f\u3000]+/;
const isGap = (byte) => byte === 32 || (byte >= 9 && byte <= 13);

export const wordsIn = (line) => decode(line).split(GAPS).filter((it) => it !== "");

// The line with each byte shown that is no plain ASCII sign, spaces at its end too.
export function visible(line) {
  const signs = Array.from(line, (it) => {
    if (it >= 32 && it < 127) return String.fromCharCode(it);
    return { 9: "\\t", 13: "\\r" }[it] ?? `\\x${it.toString(16).padStart(2, "0")}`;
  });
  const shown = signs.join(""), bare = shown.replace(/ +$/, "");
  return bare + "\\x20".repeat(shown.length - bare.length);
}

export class RefusedText {
  constructor(bytes) {
    Object.assign(this, { bytes, first: 1 });
  }

  // Each line that is neither empty nor a remark: its number, and where it begins and ends.
  *spans(upto = Infinity) {
    const { bytes } = this;
    for (let from = 0, number = 1; from < bytes.length && number <= upto; number++) {
      let to = bytes.indexOf(NEWLINE, from);
      if (to < 0) to = bytes.length;
      let at = from;
      while (at < to && isGap(bytes[at])) at++;
      if (number >= this.first && at < to && bytes[at] !== HASH) yield [number, at, to];
      from = to + 1;
    }
  }

  // The rows of words that begin with a keyword, with their numbers, up to a line.
  *rows(keyword, upto = Infinity) {
    for (const [number, from, to] of this.spans(upto)) {
      if (this.begins(from, to, keyword)) yield [number, wordsIn(this.bytes.subarray(from, to))];
    }
  }

  begins(from, to, keyword) {
    for (let at = 0; at < keyword.length; at++) if (this.bytes[from + at] !== keyword.charCodeAt(at)) return false;
    return from + keyword.length >= to || isGap(this.bytes[from + keyword.length]);
  }

  // The words of the last line above this one that is neither empty nor a remark.
  before(number) {
    let last = null;
    for (const it of this.spans(number - 1)) last = it;
    return last ? wordsIn(this.bytes.subarray(last[1], last[2])) : [];
  }

  // A line as it stands, or null behind the last one.
  line(number) {
    let from = 0;
    for (let n = 1; n < number && from < this.bytes.length; n++) {
      const to = this.bytes.indexOf(NEWLINE, from);
      from = to < 0 ? this.bytes.length : to + 1;
    }
    if (number < 1 || from >= this.bytes.length) return null;
    const to = this.bytes.indexOf(NEWLINE, from);
    return this.bytes.subarray(from, to < 0 ? this.bytes.length : to);
  }

  // The names that lines of a keyword declare up to a line.
  names(keyword, upto) {
    return [...this.rows(keyword, upto)].filter(([, row]) => row.length > 1).map(([, row]) => row[1]);
  }

  // The number in the header of a system text, or nothing.
  version(upto) {
    for (const [, row] of this.rows("tiles", upto)) if (row.length === 2) return row[1];
    return "";
  }
}
