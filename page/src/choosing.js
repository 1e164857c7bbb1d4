// A type that is chosen: by a click on a tile or in the legend, or by the caret on its line. From a tile to its line
// and back.
import { Kinds } from "./colours.js";
import { goTo, lineAt, mark } from "./editor.js";
import { beginPicture } from "./picture.js";
import { show } from "./player.js";
import { on, page, tell } from "./state.js";
import { lineOf } from "./verdict_card.js";

// Chooses a kind, or none (-1), and goes to the line of its type.
function choose(kind) {
  page.chosen = kind;
  page.isHint = false;
  const line = lineOf(kind >= 0 && page.kinds.isType ? kind : -1);
  mark({ chosen: line });
  if (line) goTo(line, false);
  tell("chosen");
}

// A click on a tile chooses its type; another one takes the mark away.
function clicked({ x, y }) {
  if (page.mode === "hand") return;
  const n = page.growth.numberAt(x, y), isThere = n >= 0 && n < page.shown;
  if (isThere) chosenAgain(page.growth.types[n]);
  else choose(-1);
}

function chosenAgain(type) {
  const kind = page.kinds.of[type], isSame = kind === page.chosen && !page.isHint;
  choose(isSame ? -1 : kind);
  if (isSame || page.kinds.isType) return;
  // (where tiles are told apart by a glue the line is that of the tile that was clicked)
  mark({ chosen: lineOf(type) });
  goTo(lineOf(type), false);
}

// The caret on the line of a tile outlines the tiles of its type.
function caret(line) {
  if (!page.system || page.kind !== "system" || page.isStale) return;
  const words = lineAt(line).split(" ").filter(Boolean);
  const type = words[0] === "tile" ? page.system.types.numberOf(words[1] ?? "") : -1;
  if (type < 0 && !page.isHint) return;
  mark({ chosen: type < 0 ? 0 : line });
  Object.assign(page, { chosen: type < 0 ? -1 : page.kinds.of[type], isHint: type >= 0 });
  tell("chosen");
}

// The mark stays on the line of the type that is chosen, wherever that line is now.
function keepMark() {
  mark({ chosen: lineOf(page.chosen >= 0 && page.kinds.isType ? page.chosen : -1) });
}

function recolour(by) {
  page.by = by;
  if (!page.system) return;
  const { shown } = page;
  page.kinds = new Kinds(page.system, by);
  page.chosen = -1;
  beginPicture();
  show(shown);
  tell("recoloured");
}

export function beginChoosing() {
  on("choose", (kind) => choose(kind === page.chosen && !page.isHint ? -1 : kind));
  on("clicked", clicked);
  on("caret", caret);
  on("recolour", recolour);
  on("loaded recoloured", keepMark);
}
