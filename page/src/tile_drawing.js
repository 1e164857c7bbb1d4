// Draws one tile: its bars, its name, the names of its glues, and the arrows of a certificate.
import { STEPS } from "./system.js";
import { inkOn } from "./colours.js";

const MONO = "ui-monospace, 'Cascadia Mono', Menlo, Consolas, monospace";
export const fontOf = (size) => `${size}px ${MONO}`;
const glueSize = (scale) => Math.min(11, scale / 6.5);

// A tile of a system at the corner (x, y), `scale` pixels wide; `ink` is what is written in.
export function drawTile(pen, system, type, rgb, [x, y, scale], isPale = false) {
  const ink = isPale ? "#17202a" : inkOn(rgb);
  pen.strokeStyle = "#0000002e";
  pen.lineWidth = 1;
  pen.strokeRect(x + 0.5, y + 0.5, scale - 1, scale - 1);
  if (scale >= 20) drawBars(pen, system, type, ink, [x, y, scale]);
  if (scale < 28) return;
  pen.fillStyle = ink;
  pen.textAlign = "center";
  pen.textBaseline = "middle";
  const showsGlues = scale >= 56;
  // (the name stays between the glues in the east and the west, or between their bars)
  const [east, west] = [1, 3].map((side) =>
    (system.side(type, side) < 0 ? scale * 0.05 : showsGlues ? 1.1 * glueSize(scale) + 8 : 6));
  label(pen, system.nameOf(type), [x + (west + scale - east) / 2, y + scale / 2], scale - east - west,
    Math.min(16, scale / 3.2));
  if (showsGlues) drawGlues(pen, system, type, [x, y, scale]);
}

// A bar on each side with a glue that interacts: two where it alone can hold a tile, one where it is weaker.
function drawBars(pen, system, type, ink, [x, y, scale]) {
  pen.strokeStyle = `${ink}b0`;
  pen.lineWidth = 1.5;
  pen.beginPath();
  for (let side = 0; side < 4; side++) {
    const strength = system.strongest(system.side(type, side));
    const bars = strength === 0 ? 0 : strength >= system.tau ? 2 : 1, half = scale * (bars === 2 ? 0.2 : 0.12);
    for (let bar = 0; bar < bars; bar++) {
      const [a, b] = STEPS[side], far = scale / 2 - 2 - bar * 3,
        [cx, cy] = [x + scale / 2 + a * far, y + scale / 2 - b * far];
      pen.moveTo(cx - b * half, cy - a * half);
      pen.lineTo(cx + b * half, cy + a * half);
    }
  }
  pen.stroke();
}

function drawGlues(pen, system, type, [x, y, scale]) {
  const small = glueSize(scale), half = scale / 2, far = half - small * 0.55 - 7;
  STEPS.forEach(([a, b], side) => {
    const glue = system.side(type, side);
    if (glue < 0) return;
    pen.save();
    pen.translate(x + half + a * far, y + half - b * far);
    if (a) pen.rotate((a * Math.PI) / 2);
    label(pen, system.glueName(glue), [0, 0], scale * 0.7, small);
    pen.restore();
  });
}

// A text that is too long for its room is written smaller, and cut where that is not enough.
export function label(pen, text, [x, y], room, largest) {
  const size = Math.max(Math.min(largest, 7), Math.min(largest, room / (text.length * 0.62)));
  const fits = Math.max(1, Math.floor(room / (size * 0.62) + 0.01));
  pen.font = fontOf(size);
  pen.fillText(text.length > fits ? `${text.slice(0, Math.max(1, fits - 1))}\u2026` : text, x, y);
}

// An arrow into the tile at each side that a certificate states, beside the glue's name.
export function drawInputs(pen, mask, [x, y, scale], theme) {
  const middle = scale / 2, head = scale * 0.1;
  STEPS.forEach(([a, b], side) => {
    if (!(mask & (1 << side))) return;
    const beside = [b * scale * 0.3, a * scale * 0.3];
    const [from, to] = [1.35, 0.62].map((far) =>
      [x + middle + a * middle * far + beside[0], y + middle - b * middle * far + beside[1]]);
    pen.beginPath();
    pen.moveTo(...from);
    pen.lineTo(...to);
    for (const turn of [1, -1]) {
      pen.moveTo(to[0] + a * head - b * head * turn, to[1] - b * head - a * head * turn);
      pen.lineTo(...to);
    }
    strokeTwice(pen, Math.max(1.5, scale / 22), theme.accent, scale >= 20 && theme.rim);
  });
}

// A line with a rim, so that it shows on tiles of all colours.
export function strokeTwice(pen, width, colour, rim) {
  if (rim) {
    pen.strokeStyle = rim;
    pen.lineWidth = width + 3;
    pen.stroke();
  }
  pen.strokeStyle = colour;
  pen.lineWidth = width;
  pen.stroke();
}
