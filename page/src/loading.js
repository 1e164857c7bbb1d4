// From the text to the picture: grows what stands in the editor, and puts the answer on the page.
import { Attaching } from "./bonds.js";
import { Fault } from "./bytes.js";
import { $, paused } from "./dom.js";
import { drawNow, measure, redraw } from "./board.js";
import { Kinds } from "./colours.js";
import { bytes as editedBytes, isPart, mark, reveal } from "./editor.js";
import { grown, handedIn, Refused } from "./growing.js";
import { KINDS, kindOf } from "./kinds.js";
import { meaningOf } from "./meanings.js";
import { beginPicture } from "./picture.js";
import { show } from "./player.js";
import { lack, typing, Unanswered } from "./program.js";
import { page, tell } from "./state.js";
import { tapeOf } from "./tapes.js";
import { setTape } from "./tape_panel.js";
import { refusedVerdict, verdictOf } from "./verdict.js";
import { fit, view } from "./view.js";

// how long the last growth took, for the pause in typing; when the last key came, and its picture; how many texts
// were done
const timing = { took: 20, key: 0, picture: 0, count: 0 };
let last = null, asked = 0;

export const timings = timing;
const busy = paused(() => { $("busy").hidden = false; });

function same(one, other) {
  if (one === null || one.length !== other.length) return false;
  for (let at = 0; at < one.length; at++) if (one[at] !== other[at]) return false;
  return true;
}

let running = Promise.resolve(), isRunning = false;

// Comes to its end where what is grown now is done.
export const settled = () => running;

// Whether nothing is grown, nor is to be at the next pause.
export const isIdle = () => !isRunning && !later.isDue();

// Grows the text now. `isNew` where another text was opened: it is looked at afresh.
export function growNow(how = {}) {
  running = growText(how);
  return running;
}

async function growText({ isNew = false, words = [] }) {
  later.stop();
  const bytes = editedBytes();
  if (!isNew && !words.length && same(last, bytes)) return;
  last = words.length ? null : bytes;
  const mine = ++asked, began = performance.now();
  isRunning = true;
  typing.stop();
  tell("growing");
  busy(250);
  try {
    const shown = await grown(bytes, words);
    if (mine === asked) load(shown, bytes, isNew);
  } catch (why) {
    if (mine === asked && !(why instanceof Unanswered && why.isEnded)) failed(why, bytes, isNew);
  }
  if (mine !== asked) return;
  isRunning = false;
  busy.stop();
  $("busy").hidden = true;
  timing.took = performance.now() - began;
  timing.count++;
}

const later = paused(() => growNow());

// A key was pressed: the text grows at the next pause, and what grows of an older text is ended.
export function grownLater(isAtOnce) {
  timing.key = performance.now();
  typing.stop();
  asked++;
  last = null;
  isRunning = false;
  later(isAtOnce ? 0 : Math.max(20, Math.min(120, timing.took / 4)));
}

// Puts what grew on the page.
export function load(shown, bytes, isNew = false) {
  const chosen = page.kinds && page.chosen >= 0 ? page.kinds.name(page.chosen) : null, box = page.system?.box.join(" ");
  tell("forgotten");
  Object.assign(page, { kind: shown.kind, bytes, systemBytes: shown.systemBytes, system: shown.system,
    growth: shown.growth });
  Object.assign(page, { answer: shown.answer, handed: shown.handed, jobs: shown.jobs, steps: shown.steps,
    events: shown.events });
  Object.assign(page, { meanings: [], mark: null, row: null, isStale: false, mode: "look" });
  mark({ fault: 0 });
  $("board").classList.remove("stale");
  $("kind").textContent = KINDS[shown.kind].name;
  if (!shown.system) return loadNone(shown);
  page.kinds = new Kinds(page.system, page.by);
  page.attaching = new Attaching(page.system);
  page.chosen = chosen === null ? -1 : kindNamed(chosen);
  setAnswers(shown, shown.told);
  beginPicture();
  look(isNew || box !== page.system.box.join(" "));
  show(page.growth.count);
  setTape(tapeOf(page, bytes), isNew);
  tell("loaded");
  tellTook();
  drawNow();
  timing.picture = performance.now();
  return undefined;
}

function loadNone(shown) {
  page.kinds = page.attaching = null;
  page.verdict = verdictOf(shown, []);
  setTape(null);
  tell("verdict");
  redraw();
}

export function kindNamed(name) {
  for (let kind = 0; kind < page.kinds.count; kind++) if (page.kinds.name(kind) === name) return kind;
  return -1;
}

// What the lines of an answer say of what is shown.
export function setAnswers(shown, told) {
  page.meanings = told.map((words) => meaningOf(page.growth, words));
  page.verdict = verdictOf(shown, page.meanings);
  if (lack && !shown.answer) page.verdict = { tone: "plain", head: "Not judged", text: lack, site: null };
  tell("verdict");
}

function look(isAfresh) {
  measure();
  if (isAfresh) view.isFit = true;
  if (view.isFit !== false) fit();
}

function tellTook() {
  const { answer } = page, ms = answer?.ms;
  $("took").textContent = ms === undefined ? ""
    : `${page.growth.count.toLocaleString("en")} tiles \u00b7 ${ms < 10 ? ms.toFixed(1) : Math.round(ms)} ms`;
}

// ---- what did not grow

function failed(why, bytes, isNew) {
  const { kind } = kindOf(bytes);
  let verdict;
  if (why instanceof Refused) verdict = refusedVerdict(why.said, why.bytes, why.command);
  else if (why instanceof Fault) {
    verdict = { tone: "plain", head: "Can't be read", text: `${why.why}.`, site: null, line: why.line };
  } else if (why instanceof Unanswered) {
    verdict = { tone: "plain", head: HEADS[why.kind] ?? "Not grown", text: why.message, site: null };
  } else {
    verdict = { tone: "plain", head: "Not grown", text: `The page came upon a mistake of its own: ${why.message}`,
      site: null };
    console.error(why);
  }
  if (isNew) drawUngrown(kind, bytes);
  Object.assign(page, { verdict, meanings: [], isStale: page.system !== null });
  $("board").classList.toggle("stale", page.isStale);
  $("kind").textContent = KINDS[kind].name;
  $("took").textContent = "";
  mark({ fault: isPart() ? 0 : verdict.line ?? 0 });
  tell("verdict");
  redraw();
  // (while it is typed on, the text is not scrolled away at once)
  const wait = isNew || document.activeElement !== $("text") ? 0 : 900;
  if (verdict.line) revealing(wait, verdict.line);
  else revealing.stop();
}

const revealing = paused((line) => reveal(line));
const HEADS = { slow: "Given up", memory: "Not enough memory", status: "Not grown", trap: "The program halted",
  lack: "Nothing can be grown here", long: "Too long" };

// Of a new text that did not grow nothing of the older one stays in the picture.
function drawUngrown(kind, bytes) {
  Object.assign(page, { system: null, growth: null, kinds: null, attaching: null, meanings: [] });
  tell("forgotten");
  setTape(null);
  if (!["system", "growth", "certificate"].includes(kind)) return;
  try {
    const shown = handedIn(kind, bytes);
    load({ ...shown, told: [] }, bytes, true);
  } catch {
    // (it can't be read, which is told)
  }
}
