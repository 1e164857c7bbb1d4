// The card beside the pointer, and the keyboard's cursor on the board.
import { $, announce, make, swatch } from "./dom.js";
import { css } from "./colours.js";
import { redraw, showSite, zoomMiddle, showAll } from "./board.js";
import { on, page, tell } from "./state.js";
import { sentenceOf, wordsOfSite } from "./site_words.js";
import { cornerOf, view } from "./view.js";

const card = $("card"), canvas = $("canvas");
let last = null;

function show(site, at) {
  last = site ? { site, at } : null;
  const isNear = site && isNearBox(site);
  card.hidden = !isNear;
  tell("row", isNear && page.system.isInside(site.x, site.y) ? site.y : null);
  if (!isNear) return;
  fill(wordsOfSite(site));
  const { offsetWidth: wide, offsetHeight: high } = card, { clientWidth, clientHeight } = canvas, gap = 16;
  const x = at.x + gap + wide > clientWidth ? at.x - gap - wide : at.x + gap;
  const y = at.y + gap + high > clientHeight ? at.y - gap - high : at.y + gap;
  card.style.left = `${Math.max(2, Math.min(x, clientWidth - wide - 2))}px`;
  card.style.top = `${Math.max(2, Math.min(y, clientHeight - high - 2))}px`;
}

function isNearBox({ x, y }) {
  const [x0, y0, x1, y1] = page.system.box;
  return x >= x0 - 2 && x <= x1 + 2 && y >= y0 - 2 && y <= y1 + 2;
}

function fill(words) {
  const head = make("div", { class: "card-head" }, make("b", {}, words.title),
    make("span", { class: "soft" }, words.site));
  if (words.type >= 0) head.prepend(swatch(css(page.kinds.rgb[page.kinds.of[words.type]])));
  const rows = words.sides.map((it) => make("div", { class: it.isHeld ? "card-side" : "card-side soft" },
    make("span", {}, it.side), make("code", {}, it.glue), make("span", { class: "soft" }, it.bond)));
  card.replaceChildren(head, ...(words.more ? [make("div", { class: "soft" }, words.more)] : []), ...rows);
  if (words.sum) card.append(make("div", { class: words.types?.length ? "card-sum comes" : "card-sum" }, words.sum));
}

// ---- the keyboard

const MOVES = { ArrowUp: [0, 1], ArrowRight: [1, 0], ArrowDown: [0, -1], ArrowLeft: [-1, 0] };

function moveCursor([a, b], many) {
  const seed = page.system.seeds[0], from = page.cursor ?? { x: seed.x, y: seed.y };
  page.cursor = page.cursor ? { x: from.x + a * many, y: from.y + b * many } : from;
  showSite(page.cursor);
  showCursor();
}

function showCursor() {
  const [x, y] = cornerOf(page.cursor.x, page.cursor.y);
  show(page.cursor, { x: x + view.scale / 2, y: y + view.scale / 2 });
  announce(sentenceOf(page.cursor));
}

function pressed(event) {
  if (!page.system || event.ctrlKey || event.metaKey || event.altKey) return;
  const move = MOVES[event.key];
  if (move) moveCursor(move, event.shiftKey ? 10 : 1);
  else if (event.key === "Enter" && page.cursor) {
    const [x, y] = cornerOf(page.cursor.x, page.cursor.y);
    tell("clicked", page.cursor, { x: x + view.scale / 2, y: y + view.scale / 2 });
  } else if (event.key === "+" || event.key === "=") zoomMiddle(1.5);
  else if (event.key === "-") zoomMiddle(1 / 1.5);
  else if (event.key === "0") showAll();
  else if (event.key === "Escape" && page.cursor) {
    page.cursor = null;
    show(null);
  } else return;
  event.preventDefault();
  event.stopPropagation();
  redraw();
}

export function beginPointer() {
  on("pointed", show);
  on("shown", () => {
    if (page.cursor && document.activeElement === canvas) showCursor();
    else if (last && page.system) show(last.site, last.at);
    else card.hidden = true;
  });
  on("forgotten", () => { page.cursor = null; show(null); });
  canvas.addEventListener("keydown", pressed);
  canvas.addEventListener("blur", () => { page.cursor = null; card.hidden = true; redraw(); });
}
