// The editor: the text with its line numbers, the lines that are marked, and what was typed before.
import { $ } from "./dom.js";
import { History } from "./history.js";
import { decode, encode } from "./bytes.js";
import { tell } from "./state.js";

const area = $("text"), numbers = $("numbers"), LINE = 20, PAD = 8;
// A long text stands in the editor by its start alone, since a page is slow with a million lines.
const LONG = 1500000, MOST_LINES = 40000, START = 4000;
const history = new History();
// the bytes of a text that came as such, and what of it stands in the editor
let held = { bytes: null, value: "" }, numbered = 0, marks = { fault: 0, chosen: 0 }, caret = 0;

export const text = () => area.value;
export const isPart = () => area.readOnly;

// The bytes of the text: as they came, as long as nothing was typed.
export const bytes = () => (held.bytes && area.value === held.value ? held.bytes : encode(area.value));

function isLongText(source) {
  if (source.length > LONG) return true;
  let lines = 0;
  for (let at = source.indexOf(10); at >= 0; at = source.indexOf(10, at + 1)) lines++;
  return lines > MOST_LINES;
}

// Puts a text into the editor. It can be taken back.
export function put(given, name = "") {
  const source = typeof given === "string" ? encode(given) : given;
  const isLong = isLongText(source);
  const start = isLong ? decode(source.subarray(0, START)).replace(/\n[^\n]*$/, "") : "";
  area.value = isLong ? `${start}\n# (a long text, of which only the start stands here)\n` : decode(source);
  area.readOnly = isLong;
  held = { bytes: source, value: area.value };
  history.keep({ text: area.value, start: 0, end: 0, held, isLong, name }, false);
  area.setSelectionRange(0, 0);
  area.scrollTop = 0;
  changed();
}

// What was typed, or edited in a form: from now on the text is what stands in the editor, and no longer what came.
function keep(isTyped) {
  held = { bytes: null, value: "" };
  history.keep({ text: area.value, start: area.selectionStart, end: area.selectionEnd, held, isLong: false, name: "" },
    isTyped);
  changed();
}

function changed() {
  numberLines();
  mark({ fault: 0 });
  $("undo").disabled = !history.can(-1);
  $("redo").disabled = !history.can(1);
}

export function travel(by) {
  const step = history.move(by);
  if (!step) return;
  area.value = step.text;
  area.readOnly = step.isLong;
  held = step.held;
  area.setSelectionRange(step.start, step.end);
  changed();
  tell("typed", true);
}

// Puts lines in place of some, counted from 1: `many` of them from line `from` on. It can be taken back.
export function replaceLines(from, many, lines) {
  const all = area.value.split("\n");
  all.splice(from - 1, many, ...lines);
  const top = area.scrollTop;
  area.value = all.join("\n");
  area.scrollTop = top;
  keep(false);
  tell("typed", true);
}

// The text as it stands in the editor, where every line ends with a newline alone.
export function takeReturnsAway() {
  keep(false);
  tell("typed", true);
}

export const lineAt = (number) => area.value.split("\n")[number - 1] ?? "";

// ---- lines

function numberLines() {
  let many = 1;
  for (let at = area.value.indexOf("\n"); at >= 0; at = area.value.indexOf("\n", at + 1)) many++;
  if (many === numbered) return;
  numbered = many;
  $("gutter").style.width = `${Math.max(2, String(many).length) + 2}ch`;
  numbers.textContent = `${Array.from({ length: many }, (_, at) => at + 1).join("\n")}\n\n\n`;
  numbers.scrollTop = area.scrollTop;
}

// Marks the line of a fault, or of what is chosen; 0 for none.
export function mark(given) {
  marks = { ...marks, ...given };
  const lines = [[marks.fault, "var(--mark-fault)"], [marks.chosen, "var(--mark-chosen)"]].filter(([line]) => line > 0);
  for (const it of [area, numbers]) {
    it.style.backgroundImage = lines.map(([, colour]) => `linear-gradient(${colour}, ${colour})`).join(", ");
    it.style.backgroundPosition = lines.map(([line]) => `0 ${PAD + (line - 1) * LINE}px`).join(", ");
  }
  $("gutter").dataset.fault = marks.fault || "";
}

export const isInView = (line) => {
  const at = PAD + (line - 1) * LINE - area.scrollTop;
  return at >= 0 && at + LINE <= area.clientHeight;
};

// Scrolls to a line, where it is not in view.
export function reveal(line) {
  if (!isInView(line)) area.scrollTop = Math.max(0, PAD + (line - 1) * LINE - area.clientHeight / 2.5);
}

// Goes to a line, and puts the caret there.
export function goTo(line, takesFocus = true) {
  if (line < 1) return;
  const lines = area.value.split("\n"), from = lines.slice(0, line - 1).reduce((all, it) => all + it.length + 1, 0);
  if (takesFocus) area.focus({ preventScroll: true });
  area.setSelectionRange(from, from + (lines[line - 1] ?? "").length);
  caret = line;
  reveal(line);
}

export const caretLine = () => area.value.slice(0, area.selectionStart).split("\n").length;

function caretMoved() {
  if (document.activeElement !== area) return;
  const line = caretLine();
  if (line === caret) return;
  caret = line;
  tell("caret", line);
}

// ---- hands

function pressed(event) {
  const key = event.key.toLowerCase();
  if ((event.ctrlKey || event.metaKey) && !event.altKey && (key === "z" || key === "y")) {
    event.preventDefault();
    travel(key === "y" || event.shiftKey ? 1 : -1);
  }
}

// A long text that is pasted is not put into the editor as a whole.
function pasted(event) {
  const given = event.clipboardData?.getData("text/plain") ?? "";
  if (!isLongText(encode(given))) return;
  event.preventDefault();
  const isAlone = area.readOnly || area.value.trim() === "";
  tell("opened", encode(isAlone ? given : area.value.slice(0, area.selectionStart) + given
    + area.value.slice(area.selectionEnd)));
}

export function beginEditor() {
  area.addEventListener("input", () => { keep(true); tell("typed", false); });
  area.addEventListener("beforeinput", (event) => {
    const by = { historyUndo: -1, historyRedo: 1 }[event.inputType];
    if (!by) return;
    event.preventDefault();
    travel(by);
  });
  area.addEventListener("keydown", pressed);
  area.addEventListener("paste", pasted);
  area.addEventListener("scroll", () => { numbers.scrollTop = area.scrollTop; });
  document.addEventListener("selectionchange", caretMoved);
  $("undo").addEventListener("click", () => travel(-1));
  $("redo").addEventListener("click", () => travel(1));
}
