// What part of the plane is in view: pixels a site, and where the box's upper left corner is.
import { page } from "./state.js";

export const view = { scale: 1, left: 0, top: 0, width: 0, height: 0 };
const LEAST = 0.25, MOST = 160;
// room for coordinates in the west and the south, and for the buttons in the east
const WEST = 40, EAST = 50, NORTH = 14, SOUTH = 30;

export const columnAt = (px) => Math.floor((px - view.left) / view.scale);
export const siteAt = (px, py) => {
  const [x0, , , y1] = page.system.box;
  return { x: x0 + columnAt(px), y: y1 - Math.floor((py - view.top) / view.scale) };
};

// The upper left corner of a site in the view.
export const cornerOf = (x, y) =>
  [view.left + (x - page.system.box[0]) * view.scale, view.top + (page.system.box[3] - y) * view.scale];

export function zoomAt(factor, px, py) {
  const next = Math.max(LEAST, Math.min(MOST, view.scale * factor));
  view.left = px - ((px - view.left) * next) / view.scale;
  view.top = py - ((py - view.top) * next) / view.scale;
  view.scale = next;
}

export function pan(dx, dy) {
  view.left += dx;
  view.top += dy;
}

// Brings columns and rows, counted from the upper left, into view.
function frame(column, row, columns, rows) {
  const { width, height } = view;
  const [wide, high] = [width - WEST - EAST, height - NORTH - SOUTH],
    fits = Math.min(wide / (columns + 0.3), high / (rows + 0.3));
  view.scale = Math.max(LEAST, Math.min(64, fits));
  if (view.scale > 1) view.scale = Math.floor(view.scale);
  view.left = Math.round(WEST + (wide - columns * view.scale) / 2 - column * view.scale);
  view.top = Math.round(NORTH + (high - rows * view.scale) / 2 - row * view.scale);
}

export const fitBox = () => frame(0, 0, page.system.wide, page.system.high);

// The columns and rows, counted from the upper left, that tiles stand in: [first, first, last, last].
function standing({ cells, count }, wide) {
  let [left, top, right, bottom] = [Infinity, Infinity, -Infinity, -Infinity];
  for (let n = 0; n < count; n++) {
    const row = Math.floor(cells[n] / wide), column = cells[n] - row * wide;
    if (column < left) left = column;
    if (column > right) right = column;
    if (row < top) top = row;
    if (row > bottom) bottom = row;
  }
  return [left, top, right, bottom];
}

// What stands, with the sites beside it that an answer speaks of, comes into view; the seeds where nothing stands.
export function fit() {
  const { system, growth, meanings } = page, [x0, , , y1] = system.box;
  let [left, top, right, bottom] = standing(growth, system.wide);
  const take = (x, y) => {
    left = Math.min(left, x - x0);
    right = Math.max(right, x - x0);
    top = Math.min(top, y1 - y);
    bottom = Math.max(bottom, y1 - y);
  };
  const isNear = ({ x, y }) => x - x0 >= left - 2 && x - x0 <= right + 2 && y1 - y >= top - 2 && y1 - y <= bottom + 2;
  if (!growth.count) for (const it of system.seeds) take(it.x, it.y);
  for (const { site } of meanings) if (site && isNear(site)) take(site.x, site.y);
  frame(left, top, right - left + 1, bottom - top + 1);
}

// Brings a site into view, where it is not; near enough that it can be read.
export function lookAt({ x, y }) {
  if (view.scale < 12) {
    view.scale = 24;
    view.left = view.width / 2 - (x - page.system.box[0] + 0.5) * view.scale;
    view.top = view.height / 2 - (page.system.box[3] - y + 0.5) * view.scale;
  }
  const [px, py] = cornerOf(x, y), { width, height, scale } = view;
  const inside = Math.min(60, width / 4, height / 4);
  if (px < inside || px + scale > width - inside) view.left += width / 2 - px - scale / 2;
  if (py < inside || py + scale > height - inside) view.top += height / 2 - py - scale / 2;
}

// The columns and rows of the box that are in view.
export function inView() {
  const { scale, left, top, width, height } = view, { wide, high } = page.system;
  return {
    firstColumn: Math.max(0, Math.floor(-left / scale)),
      lastColumn: Math.min(wide - 1, Math.floor((width - left) / scale)),
    firstRow: Math.max(0, Math.floor(-top / scale)), lastRow: Math.min(high - 1, Math.floor((height - top) / scale)),
  };
}
