// Any other command of the program, with its words, on the text.
import { decode, joined } from "./bytes.js";
import { $, button } from "./dom.js";
import { reasons, refusalIn } from "./refusals.js";
import { placesBytes } from "./growth.js";
import { ask, asking, lack, Unanswered } from "./program.js";
import { REFUSALS } from "../generated.js";
import { download } from "./saving.js";
import { page } from "./state.js";

const SHOWN = 60000;
const ON_GROWTH = ["check", "replay", "certify", "picture"],
  ON_TEXT = ["turing", "quadrant", "batch", "verify", "schedule"], ON_NOTHING = ["counter", "load"];
const STATUSES = { 0: "a yes, or done", 1: "a no", 2: "the words were refused", 3: "the input was refused" };
let last = new Uint8Array();

// What a command reads: the growth behind its system, the text as it stands, the system alone, or nothing.
function inputOf(command) {
  if (ON_NOTHING.includes(command)) return new Uint8Array();
  if (ON_TEXT.includes(command) || !page.system) return page.bytes;
  return ON_GROWTH.includes(command) && page.growth ? joined([page.systemBytes, placesBytes(page.growth)])
    : page.systemBytes;
}

async function run() {
  const words = $("command-words").value.split(" ").filter(Boolean), input = inputOf(words[0]);
  $("command-status").textContent = "running \u2026";
  $("command-out").textContent = "";
  if (lack) return tellEnd(lack);
  try {
    const ran = await ask(asking, words, input);
    last = ran.out;
    const out = decode(ran.out.subarray(0, SHOWN)),
      more = ran.out.length > SHOWN ? `\n(${ran.out.length.toLocaleString("en")} bytes in all: save them)` : "";
    const found = refusalIn(ran.said),
      why = found ? reasons(input, found.line, found.cause, words[0]).join("\n") : wordsWhy(ran.said);
    $("command-out").textContent = out + more + (ran.said ? `${ran.said}\n${why}` : "");
    return tellEnd(`status ${ran.status}: ${STATUSES[ran.status]}`);
  } catch (why) {
    if (!(why instanceof Unanswered)) throw why;
    return why.isEnded ? undefined : tellEnd(why.message);
  }
}

// Why the words are refused.
export function wordsWhy(said) {
  const cause = /^refused words (\w+)$/.exec(said)?.[1];
  return cause ? REFUSALS.WORDS_CAUSES[cause] ?? "" : "";
}

function tellEnd(text) {
  $("command-status").textContent = text;
  $("command-save").hidden = !last.length;
  return undefined;
}

export function beginCommand() {
  $("command-form").addEventListener("submit", (event) => {
    event.preventDefault();
    run();
  });
  $("command-save").addEventListener("click", () => download("answer.txt", last));
  const known = ["report", "format", "upgrade", "replay", "picture", "race", "watch --frames 8", "grow --choice 5",
    "certify", "load 7"];
  $("command-known").replaceChildren(...known.map((words) => button(words, () => {
    $("command-words").value = words;
    run();
  })));
}
