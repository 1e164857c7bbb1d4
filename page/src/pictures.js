// The picture of what is shown, as SVG and as PNG.
import { css } from "./colours.js";
import { image } from "./picture.js";
import { page } from "./state.js";
import { drawTile } from "./tile_drawing.js";

const MOST_RUNS = 120000, MOST_NAMED = 2500, LONGEST_SIDE = 4096;
const escaped = (text) => text.replace(/[&"']|[<>]/g, (it) => `&#${it.charCodeAt(0)};`);

// Runs of one colour along the rows: a path for each kind.
function pathsOf() {
  const { system, growth, kinds, shown } = page, paths = new Map();
  let runs = 0;
  for (let row = 0; row < system.high; row++) {
    for (let column = 0; column < system.wide;) {
      const kind = kindAt(row * system.wide + column), from = column;
      while (column < system.wide && kindAt(row * system.wide + column) === kind) column++;
      if (kind < 0) continue;
      if (++runs > MOST_RUNS) return null;
      if (!paths.has(kind)) paths.set(kind, []);
      paths.get(kind).push(`M${from} ${row}h${column - from}v1h-${column - from}z`);
    }
  }
  return paths;
  function kindAt(cell) {
    const n = growth.placeAt[cell];
    return n < 0 || n >= shown ? -1 : kinds.of[growth.types[n]];
  }
}

// An element of SVG: its name, what it is given, and what stands in it.
function tag(name, given, ...within) {
  const words = Object.entries(given).map(([key, value]) => ` ${key}="${escaped(String(value))}"`).join("");
  return within.length ? `<${name}${words}>${within.join("")}</${name}>\n` : `<${name}${words}/>\n`;
}

// The text of an SVG picture. (Of a very large assembly it holds an image of one pixel a site.)
export function svgText() {
  const { wide, high } = page.system, scale = Math.max(1, Math.min(32, Math.floor(1024 / Math.max(wide, high))));
  const size = { width: wide * scale, height: high * scale, viewBox: `0 0 ${wide} ${high}` };
  const paths = pathsOf(), box = { width: wide, height: high };
  const drawn = paths ? [...paths].map(pathTag)
    : [tag("image", { ...box, style: "image-rendering:pixelated", href: image.toDataURL() })];
  return tag("svg", { xmlns: "http://www.w3.org/2000/svg", ...size, "shape-rendering": "crispEdges" }, "\n",
    tag("rect", { ...box, fill: "#ffffff" }), ...drawn, ...namesOfTiles());
}

function pathTag([kind, runs]) {
  const { kinds } = page;
  return tag("path", { fill: css(kinds.rgb[kind]), d: runs.join("") },
    tag("title", {}, escaped(kinds.name(kind))).trim());
}

// The name of each tile, where they are few enough to be read.
function namesOfTiles() {
  const { system, growth, shown } = page, names = [];
  if (shown > MOST_NAMED) return names;
  for (let n = 0; n < shown; n++) {
    if (growth.placeAt[growth.cells[n]] !== n) continue;
    const column = growth.cells[n] % system.wide, row = Math.floor(growth.cells[n] / system.wide);
    const name = system.nameOf(growth.types[n]), size = Math.min(0.36, 1.3 / name.length).toFixed(3);
    names.push(tag("text", { x: column + 0.5, y: row + 0.5, "font-size": size }, escaped(name)));
  }
  const looks = { "font-family": "ui-monospace,monospace", "text-anchor": "middle", "dominant-baseline": "central" };
  return [tag("g", { ...looks, fill: "#000000b0", "shape-rendering": "auto" }, "\n", ...names)];
}

// A PNG picture of the whole box, as a blob.
export function pngBlob() {
  const { system, growth, kinds, shown } = page, { wide, high } = system, canvas = document.createElement("canvas");
  const scale = Math.max(1, Math.min(48, Math.floor(LONGEST_SIDE / Math.max(wide, high))));
  Object.assign(canvas, { width: wide * scale, height: high * scale });
  const pen = canvas.getContext("2d");
  pen.fillStyle = "#ffffff";
  pen.fillRect(0, 0, canvas.width, canvas.height);
  pen.imageSmoothingEnabled = false;
  pen.drawImage(image, 0, 0, canvas.width, canvas.height);
  for (let n = 0; n < shown && scale >= 8 && shown <= 60000; n++) {
    const cell = growth.cells[n], type = growth.types[n];
    if (growth.placeAt[cell] !== n) continue;
    drawTile(pen, system, type, kinds.rgb[kinds.of[type]],
      [(cell % wide) * scale, Math.floor(cell / wide) * scale, scale]);
  }
  return new Promise((done) => { canvas.toBlob(done, "image/png"); });
}
