// What is behind a refusal: the line, the cause in words, and the mistakes that mostly lead to it. The refusal is the
// program's; what is behind it is a guess. The words and their order are those of tools/refusals.py.
import { REFUSALS } from "../generated.js";
import { guessBytes, guessHeader, guessLine, guessName, guessNumber, guessRange, guessSymbol, guessMachineName,
  guessWord,
  guessDouble } from "./guesses.js";
import { RefusedText, visible, wordsIn } from "./refused_text.js";

const SHOWN = 600;
const kindOf = (command) => REFUSALS.KINDS[command] ?? REFUSALS.KINDS.system;

// What is to be said of a refused text, line by line.
export function reasons(bytes, number, cause, command) {
  // (a line that is much too long is shown by its start)
  const text = new RefusedText(bytes), whole = text.line(number), line = whole && whole.subarray(0, SHOWN);
  const words = wordsIn(line ?? new Uint8Array()), limit = REFUSALS.LIMITS[words[0] ?? ""] ?? "more than there may be";
  const said = (REFUSALS.CAUSES[cause] ?? "a cause that this page does not know")
    .replace("{limit}", limit).replace("{header}", kindOf(command).header);
  const shown = line ? `    ${visible(line)}${whole.length > SHOWN ? " .." : ""}` : number
    ? "    (behind the last line)" : "    (the whole input)";
  const it = { text, line: line ?? new Uint8Array(), words, number, command, kind: kindOf(command), cause,
    isPast: !line };
  return [`line ${number}: ${cause}: ${said}`, shown, ...[...guesses(it)].map((guess) => `  - ${guess}`)];
}

// The refusal that a program's words tell, or null.
export function refusalIn(said) {
  const found = /^refused text line (\d+) (\w+)\s*$/.exec(said);
  return found && { line: Number(found[1]), cause: found[2] };
}

// What may be behind the cause, most telling first.
function* guesses(it) {
  const { cause, command, number, text } = it;
  it.before = text.before(number);
  if (command === "batch" && cause !== "TooMany") {
    // (each job has names of its own)
    for (const [at] of text.rows("job", number)) text.first = at;
  }
  if (["NoHeader", "BadLine", "BadName", "BadNumber", "UnknownName"].includes(cause)) yield* guessBytes(it.line);
  yield* BEHIND[cause]?.(it) ?? [];
}

const isHidden = (it) => !guessBytes(it.line).next().done;

const BEHIND = {
  *NoHeader(it) {
    if (it.before[0] === "job") {
      yield "behind a `job` line stands a whole system, which begins with the line `tiles 1` or `tiles 2`";
    } else yield* guessHeader(it);
  },
  *NoEnd(it) {
    if (it.isPast && it.command === "batch") {
      yield "a batch has at least one job, and each job a system, whose last line is: end";
    } else if (it.isPast) yield `the last line of a ${it.kind.name} is: end`;
    else yield "the last line has no newline behind it";
  },
  *BadLine(it) {
    const { words, before, command } = it, isBatch = command === "batch";
    if (words[0] === "pair" && it.text.version() === "1") {
      yield "pairs of unlike glues are of version 2: the first line must be `tiles 2`";
    } else if (isBatch && words.length && ["batch", "end"].includes(before[0] ?? "batch")) {
      const behind = before.join(" ") === "end" || before[0] === "end" ? "the `end` of a system" : "the header";
      yield `behind ${behind} stands a \`job\` line, and this one begins with ${words[0]}`;
    } else if (isBatch && words[0] === "job" && words.length === 2) yield "the system above it has no `end` line";
    else yield* guessLine(it);
  },
  *OutOfOrder(it) {
    const [word] = it.words;
    if (["place", "closed", "unique"].includes(word)) {
      yield "a growth ends with its closed and unique lines: do two growths stand here, one behind the other?";
    } else if (word === "seed" && it.text.version() === "1" && !it.text.rows("seed", it.number - 1).next().done) {
      yield "several seeds are of version 2: the first line must be `tiles 2`";
    } else {
      const wanted = it.kind.before[word] ?? "something else";
      yield `the line itself may be fine: before ${word} stands ${wanted}; is a line missing above, or misplaced?`;
    }
  },
  UnknownName: (it) => ({ turing: guessMachineName, quadrant: guessSymbol }[it.command] ?? guessName)(it),
  DoubleName: guessDouble,
  DoubleSite: guessDouble,
  *BadName(it) {
    const last = it.words[it.words.length - 1];
    if (it.words[0] === "mark") yield "the sides of a mark are - for none, or capital letters of NESW in this order";
    else if (it.words[0] === "rule" && ["l", "r", "s"].includes(last)) yield "a move has a capital: L, R or S";
    else if (it.command === "turing" && it.words[0] === "rule" && !["L", "R", "S"].includes(last)) {
      yield `a move is L, R or S, and here stands ${last}`;
    } else if (!isHidden(it)) yield* guessWord(it);
  },
  *BadNumber(it) {
    if (!isHidden(it)) yield* guessNumber(it.words);
  },
  SeedOutside: guessBox,
  OutsideBox: guessBox,
  OutOfRange: (it) => guessRange(it.words),
  *TooMany(it) {
    const [word] = it.words, fills = { tape: "cells", bottom: "columns", left: "rows" }[word];
    if (fills) yield `the ${word} lines have more symbols than there are ${fills}`;
    else if (word === "end") {
      const boxes = [...it.text.rows("box", it.number)].map(([, row]) => row.slice(1, 5).map(Number));
      const sites = boxes.reduce((all, box) => all + (box[2] - box[0] + 1) * (box[3] - box[1] + 1), 0);
      yield `the boxes have ${sites} sites up to this job, which is the ${boxes.length}th`;
    }
  },
  *AfterEnd(it) {
    if (it.command in REFUSALS.KINDS && it.command !== "system") {
      yield "nothing stands behind the `end` line: take away what follows it";
    } else {
      yield "places behind a system are for check, certify, replay and picture, marks for verify, "
        + "steps of scouts for schedule";
    }
  },
};

function* guessBox(it) {
  for (const [, row] of it.text.rows("box", it.number - 1)) {
    yield `the corners of the box are ${row[1]} ${row[2]} and ${row[3]} ${row[4]}`;
    return;
  }
}
