// Draws what is in view: the box, the tiles, the open sites, the marks of the answers, the coordinates.
import { drawInputs, drawTile, fontOf, strokeTwice } from "./tile_drawing.js";
import { eachOpen } from "./open_sites.js";
import { image } from "./picture.js";
import { page } from "./state.js";
import { cornerOf, inView, view } from "./view.js";

// how many sites are gone over at most for those that are open
const MOST_OPEN = 150000;

// The colours of the page around the tiles, as its style says.
export function themeOf(element) {
  const style = getComputedStyle(element), read = (name) => style.getPropertyValue(`--${name}`).trim();
  return { ground: read("board"), paper: read("paper"), edge: read("edge"), soft: read("soft"), accent: read("accent"),
    no: read("no"), within: read("within"), rim: read("rim"), veil: read("veil") };
}

export function draw(pen, theme) {
  const { system, growth } = page, { scale, left, top, width, height } = view;
  pen.clearRect(0, 0, width, height);
  if (!system || !growth) return;
  pen.fillStyle = theme.paper;
  pen.fillRect(left, top, system.wide * scale, system.high * scale);
  pen.imageSmoothingEnabled = scale < 1;
  pen.drawImage(image, left, top, system.wide * scale, system.high * scale);
  pen.strokeStyle = theme.edge;
  pen.lineWidth = 1;
  pen.strokeRect(left - 0.5, top - 0.5, system.wide * scale + 1, system.high * scale + 1);
  const seen = inView();
  if (scale >= 8 || page.chosen >= 0 || page.found) drawTiles(pen, theme, seen);
  drawOpen(pen, theme, seen);
  drawSeeds(pen);
  drawRow(pen, theme);
  for (const it of page.meanings) if (it.site) drawMark(pen, theme, it);
  if (page.mark) drawFrame(pen, page.mark, theme.no, theme, []);
  if (page.cursor) drawFrame(pen, page.cursor, theme.accent, theme, [2, 2]);
  drawAxes(pen, theme);
}

function drawTiles(pen, theme, { firstColumn, lastColumn, firstRow, lastRow }) {
  const { system, growth, kinds, shown, chosen } = page, { scale, left, top } = view;
  const isLit = page.found ?? (chosen >= 0 && !page.isHint ? (kind) => kind === chosen : null);
  for (let row = firstRow; row <= lastRow; row++) {
    for (let column = firstColumn; column <= lastColumn; column++) {
      const n = growth.placeAt[row * system.wide + column];
      if (n < 0 || n >= shown) continue;
      const at = [left + column * scale, top + row * scale, scale], type = growth.types[n], kind = kinds.of[type];
      const isPale = isLit !== null && !isLit(kind, type);
      if (isPale) {
        pen.fillStyle = theme.veil;
        pen.fillRect(at[0], at[1], scale, scale);
      }
      if (scale >= 8) drawTile(pen, system, type, kinds.rgb[kind], at, isPale);
      if (page.isHint && kind === chosen) outline(pen, theme, at);
      if (growth.sides && scale >= 14) drawInputs(pen, growth.sides[n], at, theme);
    }
  }
}

// A tile of the type whose line the caret is on.
function outline(pen, theme, [x, y, scale]) {
  const inset = Math.max(0.5, scale * 0.07);
  pen.beginPath();
  pen.rect(x + inset, y + inset, scale - 2 * inset, scale - 2 * inset);
  strokeTwice(pen, Math.max(1, scale / 16), theme.accent, scale >= 16 && theme.rim);
}

// The sites where a type attaches to what is shown: a dot, larger where one is to be clicked.
function drawOpen(pen, theme, seen) {
  const { scale, left, top } = view,
    sites = (seen.lastColumn - seen.firstColumn + 1) * (seen.lastRow - seen.firstRow + 1);
  if (sites > MOST_OPEN || scale < 1) return;
  const isHand = page.mode === "hand", size = Math.max(1, scale * (isHand ? 0.62 : 0.3)), inset = (scale - size) / 2;
  pen.fillStyle = theme.accent;
  pen.strokeStyle = theme.accent;
  pen.lineWidth = 1.5;
  eachOpen(seen, (column, row, types) => {
    const x = left + column * scale + inset, y = top + row * scale + inset;
    if (scale < 6) return pen.fillRect(x, y, size, size);
    pen.beginPath();
    if (isHand) pen.roundRect(x, y, size, size, Math.min(6, size / 5));
    else pen.arc(x + size / 2, y + size / 2, size / 2, 0, 2 * Math.PI);
    // (two or more types attach: the site is full)
    if (types.length > 1) pen.fill();
    pen.stroke();
    return undefined;
  });
}

// Corners at the site of each seed, between which its glues can be read; a ring where that is small.
function drawSeeds(pen) {
  const { scale } = view;
  if (scale < 6) return;
  pen.strokeStyle = "#000000a0";
  pen.lineWidth = Math.max(1, scale / 24);
  for (const seed of page.system.seeds) {
    const [x, y] = cornerOf(seed.x, seed.y), inset = scale * 0.12, side = scale - 2 * inset;
    pen.setLineDash(scale < 20 ? [] : [side * 0.22, side * 0.56, side * 0.22, 0]);
    pen.strokeRect(x + inset, y + inset, side, side);
  }
  pen.setLineDash([]);
}

// The row whose meaning is told beside the picture.
function drawRow(pen, theme) {
  if (page.row === null || page.row === undefined) return;
  const [x, y] = cornerOf(page.system.box[0], page.row), { scale } = view;
  pen.beginPath();
  pen.rect(x - 1, y - 1, page.system.wide * scale + 2, scale + 2);
  strokeTwice(pen, 2, theme.accent, theme.rim);
}

// The site that an answer speaks of.
function drawMark(pen, theme, { words, site }) {
  drawFrame(pen, site, page.verdict?.tone === "no" ? theme.no : theme.within, theme,
    words[0] === "closed" ? [4, 3] : []);
}

function drawFrame(pen, site, colour, theme, dash) {
  const [x, y] = cornerOf(site.x, site.y), { scale } = view, size = Math.max(scale, 9);
  pen.beginPath();
  pen.rect(x + scale / 2 - size / 2, y + scale / 2 - size / 2, size, size);
  pen.setLineDash(dash);
  strokeTwice(pen, 2.5, colour, theme.rim);
  pen.setLineDash([]);
}

// Coordinates along the lower and the left edge, as many as have room.
function drawAxes(pen, theme) {
  const { scale, left, top, width, height } = view, [x0, y0, x1, y1] = page.system.box;
  const step = [1, 2, 5, 10, 20, 50, 100, 200, 500, 1000].find((it) => it * scale >= 44) ?? 1000;
  const wide = 7 * Math.max(String(y0).length, String(y1).length);
  const bottom = Math.min(height - 9, top + page.system.high * scale + 12), isBeside = left - 8 >= wide;
  Object.assign(pen, { font: fontOf(11), fillStyle: theme.soft, textBaseline: "middle", textAlign: "center" });
  for (let x = Math.ceil(x0 / step) * step; x <= x1; x += step) {
    const at = left + (x - x0 + 0.5) * scale;
    if (at > 20 && at < width - 10) drawNumber(pen, theme, x, at, bottom);
  }
  pen.textAlign = isBeside ? "right" : "left";
  for (let y = Math.ceil(y0 / step) * step; y <= y1; y += step) {
    const at = top + (y1 - y + 0.5) * scale;
    if (at > 8 && at < height - 18) drawNumber(pen, theme, y, isBeside ? left - 8 : 4, at);
  }
}

// A coordinate, with a rim where it stands on tiles.
function drawNumber(pen, theme, number, x, y) {
  pen.strokeStyle = theme.rim;
  pen.lineWidth = 3;
  pen.strokeText(String(number), x, y);
  pen.fillText(String(number), x, y);
}
