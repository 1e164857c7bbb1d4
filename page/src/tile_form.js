// The form for a tile: its name, the glue and the strength on each side, its colour. What it does stands in the text.
import { $, button, make } from "./dom.js";
import { css } from "./colours.js";
import { freeName, withColour, withGlue, withoutTile, withTile } from "./edits.js";
import { replaceLines, text } from "./editor.js";
import { page } from "./state.js";
import { SIDES, System } from "./system.js";
import { drawTile } from "./tile_drawing.js";

const NAME = /^[A-Za-z0-9_:.]{1,40}$/, NEW = "\u0000new";
const dialog = $("tile-form");
let edited = null;

// Opens the form on a type, or on a new one where none is given.
export function openTileForm(type = -1) {
  const { system } = page, isNew = type < 0;
  const name = isNew ? freeName(system.types.all(), "T") : system.nameOf(type);
  edited = { before: isNew ? null : name, colour: system.colours.find((it) => it.name === name)?.rgb ?? null,
    isColoured: false };
  $("tile-form-title").textContent = isNew ? "A new tile" : `Tile ${name}`;
  $("tile-name").value = name;
  $("tile-colour").value = css(isNew ? 0xb8c0c8 : page.kinds.isType ? page.kinds.rgb[type] : edited.colour ?? 0xb8c0c8);
  SIDES.forEach((side, at) => fillSide(side, isNew ? -1 : system.side(type, at)));
  $("tile-delete").hidden = $("tile-copy").hidden = isNew;
  $("tile-fault").textContent = "";
  if (!dialog.open) dialog.showModal();
  preview();
}

function fillSide(side, glue) {
  const { system } = page, menu = $(`glue-${side}`),
    options = [["-", "no glue"], ...system.glues.all().map((it) => [it, it]), [NEW, "a new glue \u2026"]];
  menu.replaceChildren(...options.map(([value, shown]) => make("option", { value }, shown)));
  menu.value = system.glueName(glue);
  $(`strength-${side}`).value = glue < 0 ? "" : system.strengths[glue];
  $(`new-${side}`).value = "";
  chosen(side);
}

// Another glue was chosen on a side: its strength is shown, or a name is asked for.
function chosen(side) {
  const { value } = $(`glue-${side}`), { system } = page, strength = $(`strength-${side}`);
  $(`new-${side}`).hidden = value !== NEW;
  strength.disabled = value === "-";
  if (value === "-") strength.value = "";
  else if (value === NEW) strength.value ||= "1";
  else strength.value = system.strengths[system.glues.numberOf(value)];
  preview();
}

// A glue has one strength, on whichever sides it stands.
function strengthTyped(side) {
  const { value } = $(`glue-${side}`);
  for (const other of SIDES) {
    if (value !== NEW && $(`glue-${other}`).value === value) $(`strength-${other}`).value = $(`strength-${side}`).value;
  }
  preview();
}

const glueOn = (side) => {
  const { value } = $(`glue-${side}`);
  return value === NEW ? $(`new-${side}`).value.trim() : value;
};

// What is wrong with what the form has, or nothing.
function fault() {
  const name = $("tile-name").value.trim(), { system } = page;
  if (!NAME.test(name)) return "A name is 1 to 40 letters, digits, or the signs _ : .";
  if (name !== edited.before && system.types.numberOf(name) >= 0) return `There is a tile ${name} already.`;
  for (const side of SIDES) {
    const glue = glueOn(side), strength = $(`strength-${side}`).value;
    if (glue !== "-" && !NAME.test(glue)) return `The glue in the ${side} wants a name.`;
    if (glue !== "-" && !/^(?:[0-9]|[1-9][0-9]|1[0-9]{2}|2[0-4][0-9]|250)$/.test(strength)) {
      return `The strength in the ${side} is to be 0 to 250.`;
    }
  }
  return "";
}

function save(event) {
  event.preventDefault();
  $("tile-fault").textContent = fault();
  if (fault()) return;
  const name = $("tile-name").value.trim(), sides = SIDES.map(glueOn);
  let lines = text().split("\n");
  SIDES.forEach((side, at) => {
    if (sides[at] !== "-") lines = withGlue(lines, sides[at], Number($(`strength-${side}`).value));
  });
  lines = withTile(lines, edited.before, name, sides);
  if (edited.isColoured) lines = withColour(lines, name, $("tile-colour").value);
  put(lines);
}

function put(lines) {
  dialog.close();
  replaceLines(1, text().split("\n").length, lines);
}

// The tile as it is to be.
function preview() {
  const canvas = $("tile-preview"), pen = canvas.getContext("2d"), size = canvas.width, system = new System();
  system.tau = page.system.tau;
  const encoder = new TextEncoder(), add = (names, name) => { const it = encoder.encode(name || "?");
    return names.add(it, 0, it.length); };
  add(system.types, $("tile-name").value.trim());
  SIDES.forEach((side, at) => {
    const glue = glueOn(side), n = glue === "-" ? -1 : add(system.glues, glue);
    system.sides[at] = n;
    if (n >= 0) system.strengths[n] = Number($(`strength-${side}`).value) || 0;
  });
  const colour = parseInt($("tile-colour").value.slice(1), 16);
  pen.fillStyle = css(colour);
  pen.fillRect(0, 0, size, size);
  drawTile(pen, system, 0, colour, [0, 0, size]);
}

export function beginTileForm() {
  $("tile-form-body").addEventListener("submit", save);
  for (const side of SIDES) {
    $(`glue-${side}`).addEventListener("change", () => chosen(side));
    $(`strength-${side}`).addEventListener("input", () => strengthTyped(side));
    $(`new-${side}`).addEventListener("input", preview);
  }
  $("tile-name").addEventListener("input", preview);
  $("tile-colour").addEventListener("input", () => { edited.isColoured = true; preview(); });
  $("tile-cancel").addEventListener("click", () => dialog.close());
  $("tile-delete").addEventListener("click", () => put(withoutTile(text().split("\n"), edited.before)));
  $("tile-copy").addEventListener("click", () => {
    edited = { ...edited, before: null };
    $("tile-name").value = freeName(page.system.types.all(), $("tile-name").value);
    $("tile-form-title").textContent = "A new tile";
    $("tile-delete").hidden = $("tile-copy").hidden = true;
    preview();
  });
  void button;
}
