// What a machine, a rule or a counter computed, in a list beside the picture. Only the rows in view are made.
import { $, make } from "./dom.js";
import { redraw, showSite } from "./board.js";
import { openDrawer, opened } from "./drawer.js";
import { on, page } from "./state.js";

const ROW = 22, list = $("tape-rows");
let tape = null;

export const theTape = () => tape;

// The row of the list for a row of the box.
function rowElement(at) {
  const y = tape.order[at], cells = tape.row(y),
    row = make("div", { class: y === page.row ? "tape-row is-seen" : "tape-row", role: "listitem" });
  row.style.top = `${at * ROW}px`;
  row.append(make("span", { class: "tape-step" }, String(y - page.system.box[1])));
  const width = Math.max(...cells.map((it) => it.text.length));
  for (const it of cells) {
    row.append(make("span", { class: it.isHead ? "tape-cell is-head" : "tape-cell" },
      width <= 3 ? it.text.padStart(width) : it.text));
  }
  row.addEventListener("pointerenter", () => { page.row = y; redraw(); });
  row.addEventListener("click", () => showSite({ x: Math.round((page.system.box[0] + page.system.box[2]) / 2), y }));
  return row;
}

function fill() {
  if (!tape || opened() !== "tape") return;
  const first = Math.max(0, Math.floor(list.scrollTop / ROW) - 4),
    last = Math.min(tape.order.length, Math.ceil((list.scrollTop + list.clientHeight) / ROW) + 4);
  const space = make("div", { class: "tape-space", "aria-hidden": "true" });
  space.style.height = `${tape.order.length * ROW}px`;
  list.replaceChildren(space, ...Array.from({ length: Math.max(0, last - first) }, (_, n) => rowElement(first + n)));
}

// The row under the pointer is marked and comes into view.
function pointed(y) {
  if (y === page.row) return;
  page.row = tape && opened() === "tape" ? y : null;
  const at = tape ? tape.order.indexOf(y) : -1;
  if (at >= 0 && opened() === "tape"
    && (at * ROW < list.scrollTop || (at + 1) * ROW > list.scrollTop + list.clientHeight)) {
    list.scrollTop = at * ROW - list.clientHeight / 2;
  }
  fill();
  redraw();
}

// A new growth: what its rows say, or nothing.
export function setTape(next, isNew) {
  tape = next;
  $("open-tape").hidden = !tape;
  if (!tape) {
    page.row = null;
    if (opened() === "tape") openDrawer("");
    return;
  }
  $("tape-title").textContent = tape.title;
  Object.assign($("tape-end"), { textContent: tape.end.text }).dataset.tone = tape.end.tone;
  if (isNew) openDrawer("tape");
  fill();
}

export function beginTape() {
  list.addEventListener("scroll", fill);
  new ResizeObserver(fill).observe(list);
  on("row", pointed);
  on("opened-tape", fill);
  on("closed-tape", () => { page.row = null; redraw(); });
}
