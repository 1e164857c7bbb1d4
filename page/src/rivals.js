// Looks for rivals: grows the system by the choices 0 to 63, and tells how many different assemblies came.
import { $, button, make, many } from "./dom.js";
import { showSite, redraw } from "./board.js";
import { hashOf } from "./bytes.js";
import { readGrowth } from "./growth.js";
import { css, Kinds } from "./colours.js";
import { growNow } from "./loading.js";
import { ask, lack, searching, Unanswered } from "./program.js";
import { on, page } from "./state.js";
import { drawTile } from "./tile_drawing.js";

const CHOICES = 64;
let search = null;

// An assembly as a type for each site of the box (0 for none), whatever order it came in.
function assemblyOf(growth) {
  const sites = new Uint16Array(growth.placeAt.length);
  for (let n = 0; n < growth.count; n++) sites[growth.cells[n]] = growth.types[n] + 1;
  return sites;
}

// The least site at which two assemblies have different types, by rows from the lowest; null where there is none.
export function partsAt(system, one, other) {
  for (let row = system.high - 1; row >= 0; row--) {
    for (let cell = row * system.wide; cell < (row + 1) * system.wide; cell++) {
      if (one[cell] && other[cell] && one[cell] !== other[cell]) {
        const [x, y] = system.siteOf(cell);
        return { x, y, types: [one[cell] - 1, other[cell] - 1] };
      }
    }
  }
  return null;
}

class Search {
  constructor() {
    Object.assign(this, { system: page.system, bytes: page.systemBytes, isYes: page.verdict?.tone === "yes", tried: 0,
      found: [], isEnded: false });
  }

  take(out, choice) {
    const sites = assemblyOf(readGrowth(this.system, out, 0, 0)), raw = new Uint8Array(sites.buffer);
    const hash = hashOf(raw, 0, raw.length);
    const known = this.found.find((it) => it.hash === hash
      && (!it.sites || it.sites.every((type, at) => type === sites[at])));
    // (of the first ones the sites are kept, to be compared one by one)
    if (known) known.choices.push(choice);
    else this.found.push({ hash, choices: [choice], sites: this.found.length < 4 ? sites : null });
    this.tried++;
  }

  async run() {
    for (let choice = 0; choice < CHOICES && !this.isEnded; choice++) {
      const { out } = await ask(searching, ["grow", "--choice", String(choice)], this.bytes);
      if (this.isEnded) return;
      this.take(out, choice);
      tellSearch(this);
    }
  }
}

function sentenceFor({ tried, found, isYes, isEnded }) {
  const done = tried === CHOICES || isEnded,
    came = found.length === 1 ? "one assembly came" : `${found.length} different assemblies came`;
  const head = done ? `Of ${many(tried, "choice")} ${came}.` : `Choice ${tried} of ${CHOICES} \u2026 so far ${came}.`;
  if (!done) return head;
  if (found.length > 1) return `${head} So more than one assembly can grow: this refutes uniqueness.`;
  if (isYes) return `${head} That is no surprise: the verdict says that nothing else can grow.`;
  return `${head} Nothing follows from that: another choice may bring another one.`;
}

function tellSearch(it) {
  $("rivals-told").textContent = sentenceFor(it);
  $("rivals-bar").value = it.tried;
  const isDone = it.tried === CHOICES || it.isEnded;
  $("rivals-run").textContent = isDone ? "Look again" : "Stop";
  const parting = it.found.length > 1 ? partsAt(it.system, it.found[0].sites, it.found[1].sites) : null;
  const where = parting ? [make("p", {}, partingWords(it.system, parting)), make("div", { class: "close-ups" },
    ...[0, 1].map((at) => closeUp(it.system, it.found[at].sites, parting)))] : [];
  $("rivals-found").replaceChildren(...where, ...it.found.slice(0, 12).map((one, at) => outcome(one, at, parting)));
  if (it.found.length > 12) $("rivals-found").append(make("p", { class: "soft" }, `and ${it.found.length - 12} more`));
}

function partingWords(system, { x, y, types }) {
  const [one, other] = types.map((type) => system.nameOf(type));
  return `They part first at (${x}, ${y}): ${one} in the first, ${other} in the second.`;
}

// What stands around the site where two assemblies part, in one of them.
function closeUp(system, sites, { x, y }) {
  const scale = 44, reach = 1, ratio = window.devicePixelRatio || 1, side = (2 * reach + 1) * scale;
  const canvas = make("canvas",
    { role: "img", "aria-label": `Around (${x}, ${y})`, width: side * ratio, height: side * ratio });
  const pen = canvas.getContext("2d"), colours = new Kinds(system, "type").rgb;
  pen.scale(ratio, ratio);
  for (let row = 0; row <= 2 * reach; row++) {
    for (let column = 0; column <= 2 * reach; column++) {
      const cell = system.cellAt(x + column - reach, y + reach - row), type = cell < 0 ? -1 : sites[cell] - 1;
      if (type < 0) continue;
      pen.fillStyle = css(colours[type]);
      pen.fillRect(column * scale, row * scale, scale, scale);
      drawTile(pen, system, type, colours[type], [column * scale, row * scale, scale]);
    }
  }
  return canvas;
}

// An assembly that came: how often, and a button that shows it.
function outcome(it, at, parting) {
  const choices = `${it.choices.slice(0, 8).join(", ")}${it.choices.length > 8 ? " \u2026" : ""}`;
  return button(`Show number ${at + 1}: ${many(it.choices.length, "choice")} (${choices})`, async () => {
    await growNow({ words: ["--choice", String(it.choices[0])] });
    page.mark = parting && { x: parting.x, y: parting.y };
    if (parting) showSite(page.mark);
    redraw();
  });
}

async function begin() {
  if (search && !search.isEnded && search.tried < CHOICES) return end();
  if (!page.system || page.isStale || lack) {
    $("rivals-told").textContent = lack || "The text does not grow: mend it first.";
    return undefined;
  }
  const mine = (search = new Search());
  $("rivals-run").textContent = "Stop";
  try {
    await mine.run();
  } catch (why) {
    if (!(why instanceof Unanswered)) throw why;
    mine.isEnded = true;
    if (!why.isEnded && mine === search) $("rivals-told").textContent = why.message;
  }
  return undefined;
}

function end() {
  if (!search) return;
  const { tried } = search;
  search.isEnded = true;
  searching.stop();
  if (tried) tellSearch(search);
}

export const theSearch = () => search && { tried: search.tried, found: search.found.length };

export function beginRivals() {
  $("rivals-run").addEventListener("click", begin);
  on("opened-rivals", () => { if (!search || search.bytes !== page.systemBytes) begin(); });
  on("closed-rivals", end);
  // (of another text nothing is told)
  on("forgotten", () => {
    if (!search || search.tried === CHOICES) return;
    end();
  });
  on("typed", () => {
    end();
    search = null;
    $("rivals-told").textContent = "The text has changed.";
    $("rivals-found").replaceChildren();
    $("rivals-bar").value = 0;
    $("rivals-run").textContent = "Look for rivals";
  });
}
