// The assembly as an image of one pixel a site, and how many tiles of each kind are shown.
import { page } from "./state.js";

const board = { image: document.createElement("canvas"), pen: null, pixels: null, words: null,
  counts: new Int32Array(0) };
board.pen = board.image.getContext("2d");

export const image = board.image;
export const countOf = (kind) => board.counts[kind] ?? 0;

// Begins an empty picture of a system's box.
export function beginPicture() {
  const { wide, high } = page.system;
  if (image.width !== wide || image.height !== high || !board.pixels) {
    Object.assign(image, { width: wide, height: high });
    board.pixels = board.pen.createImageData(wide, high);
    board.words = new Uint32Array(board.pixels.data.buffer);
  } else board.words.fill(0);
  board.counts = new Int32Array(page.kinds.count);
  page.shown = 0;
}

// Shows the first places, as many as are told.
export function showPlaces(many) {
  const { growth, kinds } = page, { cells, types, placeAt } = growth, { words, counts } = board;
  const to = Math.max(0, Math.min(growth.count, many));
  for (let n = page.shown; n < to; n++) {
    // (where a site is placed twice, the first tile stays)
    if (placeAt[cells[n]] !== n) continue;
    const kind = kinds.of[types[n]];
    words[cells[n]] = kinds.pixels[kind];
    counts[kind]++;
  }
  for (let n = page.shown - 1; n >= to; n--) {
    if (placeAt[cells[n]] !== n) continue;
    words[cells[n]] = 0;
    counts[kinds.of[types[n]]]--;
  }
  page.shown = to;
  board.pen.putImageData(board.pixels, 0, 0);
}

export const isShown = (n) => n >= 0 && n < page.shown;
