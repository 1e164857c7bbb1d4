// The board: the canvas, what hands do on it, and when it is drawn anew.
import { $ } from "./dom.js";
import { draw, themeOf } from "./drawing.js";
import { on, page, tell } from "./state.js";
import { fit, fitBox, lookAt, pan, siteAt, view, zoomAt } from "./view.js";

const canvas = $("canvas"), pen = canvas.getContext("2d");
let isWanted = false, theme = null, held = null;
const touches = new Map();

export function redraw() {
  if (isWanted) return;
  isWanted = true;
  requestAnimationFrame(() => { isWanted = false; drawNow(); });
}

export function drawNow() {
  const ratio = window.devicePixelRatio || 1, { clientWidth, clientHeight } = canvas;
  const [width, height] = [Math.round(clientWidth * ratio), Math.round(clientHeight * ratio)];
  if (canvas.width !== width || canvas.height !== height) Object.assign(canvas, { width, height });
  pen.setTransform(ratio, 0, 0, ratio, 0, 0);
  theme ??= themeOf(canvas);
  draw(pen, theme);
  tell("drawn");
}

export const theTheme = () => (theme ??= themeOf(canvas));

// The view takes the room that the canvas has now; what was in its middle stays there.
function resized() {
  const { clientWidth, clientHeight } = canvas;
  if (view.width) pan((clientWidth - view.width) / 2, (clientHeight - view.height) / 2);
  Object.assign(view, { width: clientWidth, height: clientHeight });
  if (page.system && view.isFit) fit();
  redraw();
}

export function measure() {
  Object.assign(view, { width: canvas.clientWidth, height: canvas.clientHeight });
}

// ---- where it is looked at

const seen = (action) => (...given) => {
  if (!page.system) return;
  action(...given);
  redraw();
};

export const zoomMiddle = seen((factor) => { view.isFit = false; zoomAt(factor, view.width / 2, view.height / 2); });
export const showAll = seen(() => { view.isFit = true; fit(); });
export const showBox = seen(() => { view.isFit = false; fitBox(); });
export const showSite = seen((site) => { view.isFit = false; lookAt(site); });

// ---- the pointer

function down(event) {
  touches.set(event.pointerId, { x: event.offsetX, y: event.offsetY });
  held = { x: event.offsetX, y: event.offsetY, moved: 0 };
  canvas.setPointerCapture(event.pointerId);
}

function moved(event) {
  if (!page.system) return;
  const before = touches.get(event.pointerId), now = { x: event.offsetX, y: event.offsetY };
  if (!before) return tell("pointed", siteAt(now.x, now.y), now);
  if (touches.size === 2) pinch(event.pointerId, before, now);
  else {
    held.moved += Math.abs(now.x - before.x) + Math.abs(now.y - before.y);
    if (held.moved < 5) return;
    canvas.classList.add("dragged");
    view.isFit = false;
    pan(now.x - before.x, now.y - before.y);
    tell("pointed", null);
  }
  touches.set(event.pointerId, now);
  redraw();
}

// Two fingers: what is between them stays there.
function pinch(id, before, now) {
  const [other] = [...touches].filter(([key]) => key !== id).map(([, it]) => it);
  const far = (it) => Math.hypot(it.x - other.x, it.y - other.y);
  held.moved = 100;
  view.isFit = false;
  zoomAt(far(now) / Math.max(1, far(before)), (now.x + other.x) / 2, (now.y + other.y) / 2);
}

function up(event) {
  const isClick = held && held.moved < 5 && touches.size === 1 && event.type === "pointerup";
  touches.delete(event.pointerId);
  canvas.classList.remove("dragged");
  if (isClick && page.system) {
    const at = { x: event.offsetX, y: event.offsetY };
    tell("pointed", siteAt(at.x, at.y), at);
    tell("clicked", siteAt(at.x, at.y), at);
  }
}

export function beginBoard() {
  canvas.addEventListener("pointerdown", down);
  canvas.addEventListener("pointermove", moved);
  canvas.addEventListener("pointerup", up);
  canvas.addEventListener("pointercancel", up);
  canvas.addEventListener("pointerleave", () => tell("pointed", null));
  canvas.addEventListener("wheel", (event) => {
    event.preventDefault();
    if (!page.system) return;
    view.isFit = false;
    zoomAt(Math.exp(-event.deltaY / 400), event.offsetX, event.offsetY);
    redraw();
  }, { passive: false });
  new ResizeObserver(resized).observe(canvas);
  matchMedia("(prefers-color-scheme: dark)").addEventListener("change", () => { theme = null; redraw(); });
  $("larger").addEventListener("click", () => zoomMiddle(1.5));
  $("smaller").addEventListener("click", () => zoomMiddle(1 / 1.5));
  $("fit").addEventListener("click", showAll);
  $("fit-box").addEventListener("click", showBox);
  on("shown chosen marked", redraw);
}
