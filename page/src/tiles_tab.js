// The types as cards beside the text: four sides, their strengths, the colour. A click opens the form.
import { $, button, make, paused } from "./dom.js";
import { css } from "./colours.js";
import { openTileForm } from "./tile_form.js";
import { on, page } from "./state.js";
import { SIDES } from "./system.js";
import { drawTile } from "./tile_drawing.js";
import { isPart } from "./editor.js";

const SIZE = 76, MOST = 240;
const later = paused(() => fill());

function cardOf(type, isEdited) {
  const { system, kinds } = page, ratio = window.devicePixelRatio || 1,
    canvas = make("canvas", { "aria-hidden": "true" });
  Object.assign(canvas, { width: SIZE * ratio, height: SIZE * ratio });
  const pen = canvas.getContext("2d"), rgb = kinds.rgb[kinds.of[type]];
  pen.scale(ratio, ratio);
  pen.fillStyle = css(rgb);
  pen.fillRect(0, 0, SIZE, SIZE);
  drawTile(pen, system, type, rgb, [0, 0, SIZE]);
  const sides = SIDES.map((side, at) => [side, system.side(type, at)]).filter((it) => it[1] >= 0);
  const words = sides.map(([side, glue]) =>
    `${side} ${system.glueName(glue)} of strength ${system.strengths[glue]}`).join(", ");
  const card = button("", () => isEdited && openTileForm(type),
    { class: "tile-card", "aria-label": `Tile ${system.nameOf(type)}: ${words || "no glues"}` });
  card.append(canvas, make("span", {}, system.nameOf(type)));
  return card;
}

function fill() {
  if ($("tiles").hidden) return;
  const { system, kind } = page, isEdited = kind === "system" && !isPart() && !page.isStale;
  $("tiles-note").textContent = !system ? "The text has no tiles yet." : isEdited ? "" : page.isStale
    ? "The text is refused: mend it first."
    : "These tiles are compiled, or come with a growth: they are not edited here.";
  $("tile-new").disabled = !isEdited || !system;
  const many = system ? Math.min(MOST, system.types.count) : 0;
  const more = system && system.types.count > many
    ? [make("p", { class: "soft" }, `and ${system.types.count - many} more`)] : [];
  $("tile-cards").replaceChildren(...Array.from({ length: many }, (_, type) => cardOf(type, isEdited)), ...more);
}

function choose(tab) {
  const isText = tab === "text";
  $("editor").hidden = !isText;
  $("tiles").hidden = isText;
  for (const it of ["text", "tiles"]) {
    $(`tab-${it}`).setAttribute("aria-selected", String(it === tab));
    $(`tab-${it}`).tabIndex = it === tab ? 0 : -1;
  }
  fill();
}

export function beginTiles() {
  for (const it of ["text", "tiles"]) {
    $(`tab-${it}`).addEventListener("click", () => choose(it));
    $(`tab-${it}`).addEventListener("keydown", (event) => {
      if (event.key !== "ArrowLeft" && event.key !== "ArrowRight") return;
      const other = it === "text" ? "tiles" : "text";
      choose(other);
      $(`tab-${other}`).focus();
    });
  }
  $("tile-new").addEventListener("click", () => openTileForm());
  on("loaded verdict recoloured", () => later(60));
  on("showText", () => choose("text"));
}
