// The guesses at the mistake behind a refused line.
import { REFUSALS } from "../generated.js";
import { closest } from "./close_matches.js";
import { encode } from "./bytes.js";
import { visible } from "./refused_text.js";

const { FIELDS, NUMBERS, SITES, READERS, KINDS } = REFUSALS;
const isIn = (table, key) => Object.hasOwn(table, key);
const shown = (text) => visible(encode(text));
const asked = (near) => (near === null ? "" : `; ${near}?`);

// Bytes that an editor hides, or that look like others.
export function* guessBytes(line) {
  const text = Array.from(line, (it) => String.fromCharCode(it)).join("");
  if (text.endsWith("\r")) yield "the line ends as on Windows, with a carriage return: sed -i 's/\\r$//' FILE";
  if (text.includes("\t")) yield "a tab stands in the line, and only spaces part words";
  if (text.includes("\xc2\xa0")) yield "a no-break space stands in the line, and only plain spaces part words";
  if (/\xe2\x80[\x90-\x94]|\xe2\x88\x92/.test(text)) {
    yield "a long dash stands in the line: none and minus are the plain -";
  }
}

export function* guessHeader({ line, words, command }) {
  if (line[0] === 0xef && line[1] === 0xbb && line[2] === 0xbf) {
    yield "the file begins with a byte-order mark: save it as UTF-8 without one";
  } else if (line.includes(0)) yield "the file is saved as UTF-16: save it as UTF-8";
  if (!line.some((it) => it !== 32 && (it < 9 || it > 13))) yield "there is no line that is neither empty nor a remark";
  const word = words[0] ?? "", reader = isIn(READERS, word) ? READERS[word] : command,
    isKind = isIn(KINDS, command) && command !== "system";
  if (reader !== command) {
    const what = { turing: "a Turing machine", quadrant: "a two-input rule", batch: "a batch" }[reader];
    yield `this is ${what}: tools/explain ${reader} FILE`;
  } else if (word === "tiles" && isKind && words.length === 2) {
    yield command === "batch"
      ? "this is a tile system: a batch begins with `batch 1`, and in front of each system stands a `job` line"
      : `this is a tile system, which ${command} does not read`;
  } else if (["place", "mark", "look", "claim", "split", "join"].includes(word)) {
    yield "the system stands first: cat SYSTEM FILE";
  } else if (words.length && isIn((isKind ? KINDS[command] : KINDS.system).before, word)) {
    yield "the line itself may be fine: the header is missing above it";
  } else if (word === "tiles" && guessBytes(line).next().done) {
    yield "a system is written in version 1 or 2, and nothing else stands in its header";
  }
}

// Of the words that are to be numbers, the first one that is none.
export function* guessNumber(words) {
  for (const at of NUMBERS[words[0]] ?? []) {
    const it = words[at] ?? "0";
    if (/^-?[0-9]{11,}$/.test(it)) yield "it has more than ten digits";
    else if (!/^-?[0-9]+$/.test(it)) {
      yield `${shown(it)} is no number${isIn(FIELDS, words[0]) ? `: a ${words[0]} line has ${FIELDS[words[0]]}` : ""}`;
    } else continue;
    return;
  }
}

// Of the words that may be names, the first one that is none, and why.
export function* guessWord({ words, command }) {
  const isShort = command === "turing" || command === "quadrant", most = isShort ? 8 : 40;
  if (["glue", "tile", "pair"].includes(words[0]) && /^-[0-9]*$/.test(words[1])) {
    yield `${words[1]} is no name: a ${words[0]} line has ${FIELDS[words[0]]}`;
    return;
  }
  for (const it of words.slice(1)) {
    if (words[0] === "tile" && /^-[0-9]+$/.test(it)) {
      yield `${it} is no name; a side without a glue is -`;
      return;
    }
    const signs = [...new Set([...it].filter((sign) =>
      !(isShort ? /^[A-Za-z0-9_]$/ : /^[A-Za-z0-9_:.]$/).test(sign)))].sort(bySign);
    if (signs.length && !/^-[0-9]*$/.test(it)) {
      yield `${shown(it)} has ${signs.map(shown).join(" ")}, which no name has`;
      return;
    }
    if ([...it].length > most) {
      yield `${it} has ${[...it].length} bytes, and a name at most ${most}`;
      return;
    }
  }
}

const bySign = (one, other) => one.codePointAt(0) - other.codePointAt(0);

export function* guessLine(it) {
  const { words, kind, command } = it, known = kind.words, word = words[0];
  if (words.length && !isIn(known, word) && isIn(known, word.toLowerCase())) {
    yield `keywords have small letters: ${word.toLowerCase()}`;
  } else if (words.length && !isIn(known, word) && word !== "closed" && word !== "unique") {
    yield `${word} is no keyword${asked(closest(word, Object.keys(known)))}`;
  }
  if (words.slice(1).some((one) => one.includes("#"))) yield "a remark needs a line of its own";
  else if (words.length && isIn(known, word) && words.length !== known[word]) {
    const rule = { 5: ": west and south, then what goes east and north",
      6: ": a state and a symbol, then the new state, the new symbol and the move" };
    const fields = word === "rule" ? rule[known.rule] : ["tile", "mark"].includes(word) ? `: ${FIELDS[word]}` : "";
    const more = ["tape", "bottom", "left"].includes(word) ? " or more" : "";
    yield `a ${word} line has ${known[word]} words${more}, and this one ${words.length}${fields}`;
  } else if (words.length && (!isIn(KINDS, command) || command === "system")) yield* guessPlace(it);
}

// Why a line is no line here, though it has its keyword's number of words.
function* guessPlace({ words, text, number, command }) {
  const ends = [...text.rows("end", number - 1)].filter(([, row]) => row.length === 1);
  if (!ends.length && ["place", "mark", "closed", "unique", "look", "claim", "split", "join"].includes(words[0])) {
    yield `a ${words[0]} line stands behind the system: is the line \`end\` missing above it?`;
  } else if (ends.length && isIn(REFUSALS.BEHIND, command)) {
    yield `the system ends in line ${ends[0][0]}, and behind it ${command} reads ${REFUSALS.BEHIND[command]} lines`;
  }
}

export function* guessName({ words, text, number }) {
  const isGlue = words[0] === "tile" || words[0] === "pair", what = isGlue ? "glue" : "type";
  const known = text.names(isGlue ? "glue" : "tile", number - 1);
  const named = words[0] === "tile" ? words.slice(2) : words[0] === "pair" ? words.slice(1, 3)
    : [words[0] === "mark" ? words[3] : words[words.length - 1]];
  const it = isGlue ? named.find((one) => one !== "-" && !known.includes(one)) : named[0];
  if (it === undefined) return;
  for (const [at, row] of text.rows(isGlue ? "glue" : "tile")) {
    if (at < number || row[1] !== it) continue;
    yield `${what} ${it} is declared further down, in line ${at}: each line names what stands above it`;
    return;
  }
  if (isGlue && ["0", "null", "none", "x", "_", "*", "."].includes(it.toLowerCase())) {
    yield `no glue is named ${it}; a side without a glue is -`;
  } else {
    yield `no ${what} is named ${it}${asked(closest(it, known, 0.5))}`;
    const bearers = isGlue ? [...text.rows("tile")].filter(([, row]) => row.slice(2).includes(it)).length : 0;
    if (bearers > 1) yield `${bearers} tiles bear ${it}: is its \`glue\` line missing?`;
  }
  if (!known.includes(it) && known.some((one) => one.toLowerCase() === it.toLowerCase())) {
    yield "capitals and small letters differ";
  }
}

export function* guessSymbol({ words, text, number }) {
  yield* unknown(words.slice(1).map((it) => [it, "symbol"]), text, number);
}

export function* guessMachineName({ words, text, number }) {
  const kinds = ["state", "symbol", "state", "symbol"];
  yield* unknown(words[0] === "rule" ? words.slice(1, 5).map((it, at) => [it, kinds[at]])
    : words.slice(1).map((it) => [it, "symbol"]), text, number);
}

// The first word that names nothing of its kind.
function* unknown(fields, text, number) {
  for (const [it, what] of fields) {
    const known = text.names(what, number - 1);
    if (known.includes(it)) continue;
    yield `no ${what} is named ${it}${asked(closest(it, known, 0.5))}`;
    return;
  }
}

export function* guessDouble({ words, text, number, command, cause }) {
  const [word, one, other] = words;
  if (cause === "DoubleName" && word === "rule") {
    const pair = command === "turing" ? `the state ${one} and the symbol ${other}`
      : `${one} from the west and ${other} from the south`;
    yield `there is a rule for ${pair} above`;
  } else if (cause === "DoubleName" && word === "pair") {
    const isSame = ([, row]) => new Set([...row.slice(1, 3), one, other]).size === new Set([one, other]).size
      && new Set(row.slice(1, 3)).size === new Set([one, other]).size;
    const first = [...text.rows("pair", number - 1)].find(isSame);
    yield first ? `line ${first[0]} pairs them already`
      : "a glue is not paired with itself: its own strength stands in its `glue` line";
  } else {
    const isSite = ["place", "mark", "seed"].includes(word);
    const isLike = ([, row]) => (isSite ? Number(row[1]) === Number(one) && Number(row[2]) === Number(other)
      : row[1] === one);
    yield `line ${[...text.rows(word)].find(isLike)?.[0] ?? "above"} has it already`;
  }
}

export function* guessRange(words) {
  const at = (SITES[words[0]] ?? []).map((it) => words[it]).filter((it) => /^-?[0-9]+$/.test(it)).map(Number);
  if (at.some((it) => Math.abs(it) > 1000000)) yield "a coordinate is -1000000 to 1000000";
  else if (words[0] === "box" && at.length === 4) {
    const [x0, y0, x1, y1] = at;
    if (x1 < x0 || y1 < y0) yield "the lower left corner comes first, then the upper right one";
    else if (x1 - x0 > 1023 || y1 - y0 > 1023) {
      yield `a side has at most 1024 sites, and this box has ${x1 - x0 + 1} by ${y1 - y0 + 1}`;
    }
  } else if (isIn(RANGES, words[0])) yield RANGES[words[0]];
}

const RANGES = {
  glue: "a strength is 0 to 250", pair: "a strength is 0 to 250", mark: "a rank is 0 to 4294967295",
  ...Object.fromEntries(["job", "look", "claim", "split", "join"].map((it) => [it, "its number is 0 to 4294967295"])),
  tau: "a temperature is 1 to 1000", cells: "a machine has 1 to 512 cells and 1 to 1024 rows",
  rows: "a machine has 1 to 512 cells and 1 to 1024 rows", size: "a rule has 1 to 1023 columns and 1 to 1023 rows",
  head: "the head starts at one of the cells, and the first cell is 0",
};
