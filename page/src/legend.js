// The legend: each kind of tile with its colour and how many are shown; those that never came are grey.
import { $, button, make, paused, swatch } from "./dom.js";
import { css } from "./colours.js";
import { nowhereOf } from "./verdict.js";
import { countOf } from "./picture.js";
import { on, page, tell } from "./state.js";

const MOST = 300;
let chips = new Map(), placed = new Uint8Array(0), order = [];
const later = paused(() => counts());

// Makes the chips of a growth anew.
function build() {
  const { system, growth, kinds } = page, none = new Set(nowhereOf(system, growth));
  placed = new Uint8Array(kinds.count);
  for (let type = 0; type < kinds.of.length; type++) if (!none.has(type)) placed[kinds.of[type]] = 1;
  // (only kinds that some type has are told)
  const borne = new Set(kinds.of), sought = $("search").value.trim();
  const found = [...borne].filter((kind) => isSought(kind, sought)).sort((a, b) => placed[b] - placed[a] || a - b);
  order = found.slice(0, MOST);
  chips = new Map(order.map((kind) => [kind, chipOf(kind)]));
  const more = found.length > MOST
    ? [make("span", { class: "soft" }, `and ${found.length - MOST} more: search a name`)] : [];
  $("legend").replaceChildren(...chips.values(), ...more);
  $("legend").classList.toggle("is-none", !found.length);
  counts();
}

// The name of a type or of one of its glues is searched.
function isSought(kind, sought) {
  if (!sought) return true;
  const { kinds, system } = page;
  if (kinds.name(kind).includes(sought)) return true;
  return kinds.isType && [0, 1, 2, 3].some((side) => system.glueName(system.side(kind, side)) === sought);
}

function chipOf(kind) {
  const { kinds, chosen } = page, never = page.growth.count > 0 && !placed[kind];
  const chip = button("", () => tell("choose", kind),
    { class: never ? "chip never" : "chip", "aria-pressed": String(kind === chosen) });
  chip.append(swatch(css(kinds.rgb[kind])), make("span", { class: "chip-name" }, kinds.name(kind)),
    make("span", { class: "chip-count" }));
  if (never) chip.title = kinds.isType ? "placed nowhere" : "on no tile that stands";
  return chip;
}

// The counts of what is shown.
function counts() {
  for (const [kind, chip] of chips) {
    const text = placed[kind] ? countOf(kind).toLocaleString("en") : "none";
    if (chip.lastChild.textContent !== text) chip.lastChild.textContent = text;
    chip.setAttribute("aria-pressed", String(kind === page.chosen));
  }
}

function search() {
  const sought = $("search").value.trim();
  page.found = sought ? (kind) => isSought(kind, sought) : null;
  if (page.system) build();
  tell("chosen");
}

export function beginLegend() {
  $("search").addEventListener("input", search);
  $("search").addEventListener("keydown", (event) => {
    if (event.key !== "Escape" || !event.target.value) return;
    event.target.value = "";
    search();
  });
  $("by").addEventListener("change", (event) => tell("recolour", event.target.value));
  on("loaded recoloured", () => { search(); });
  on("shown", () => later(30));
  on("chosen", counts);
  on("forgotten", () => { chips = new Map(); $("legend").replaceChildren(); });
}
