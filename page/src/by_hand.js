// Growing by hand: a click on an open site places a type that attaches there, and the program judges the sequence.
import { joined } from "./bytes.js";
import { $, announce, button, make, many, paused, swatch } from "./dom.js";
import { measure, redraw, showSite } from "./board.js";
import { css } from "./colours.js";
import { opened, openDrawer } from "./drawer.js";
import { linesOf } from "./growing.js";
import { Growth, placesBytes } from "./growth.js";
import { growNow, setAnswers, settled } from "./loading.js";
import { openSites } from "./open_sites.js";
import { beginPicture, showPlaces } from "./picture.js";
import { show } from "./player.js";
import { asking, ask, lack, Unanswered } from "./program.js";
import { namesOf, pullAt } from "./site_words.js";
import { on, page, tell } from "./state.js";
import { fitBox, view } from "./view.js";

const MOST_LISTED = 40;
const judge = paused(() => judged());

// Begins with the seeds, or with what is shown of the growth.
function begin() {
  const { system, growth, shown } = page;
  if (!system || page.isStale) {
    $("hand-told").textContent = "The text does not grow: mend it first.";
    $("hand-sites").replaceChildren();
    return;
  }
  const from = shown > system.seeds.length && shown < growth.count ? shown : 0;
  const hand = new Growth(system, 64);
  if (from) for (let n = 0; n < from; n++) hand.add(growth.cells[n], growth.types[n]);
  else for (const it of system.seeds) if (system.isInside(it.x, it.y)) hand.add(system.cellAt(it.x, it.y), it.type);
  Object.assign(page, { growth: hand, mode: "hand", meanings: [], mark: null });
  $("took").textContent = "";
  beginPicture();
  lookAtBox();
  changed();
}

// A small box is looked at as a whole, so that there is room for what is to come.
function lookAtBox() {
  if (Math.max(page.system.wide, page.system.high) > 40) return;
  measure();
  fitBox();
  view.isFit = false;
}

function changed() {
  page.meanings = [];
  show(page.growth.count);
  tell("loaded");
  list();
  judge(60);
  redraw();
}

// The open sites as a list, for the keyboard, and what can be taken back.
function list() {
  const sites = openSites(500), { growth, system } = page;
  const words = sites.slice(0, MOST_LISTED).map((site) =>
    button(`(${site.x}, ${site.y}): ${namesOf(site.types, 3)}`, () => pick(site)));
  const more = sites.length > MOST_LISTED
    ? [make("span", { class: "soft" }, `and ${sites.length - MOST_LISTED} more in the picture`)] : [];
  $("hand-sites").replaceChildren(...words, ...more);
  const open = sites.length ? `${many(sites.length, "site")} open.` : "Nothing attaches in the box any more.";
  $("hand-told").textContent = `${many(growth.count, "tile")} placed. ${open}`;
  $("hand-back").disabled = growth.count <= system.seeds.length;
}

function place(site, type) {
  const { system, growth } = page;
  showPlaces(growth.count);
  growth.add(system.cellAt(site.x, site.y), type);
  $("hand-menu").hidden = true;
  announce(`${system.nameOf(type)} at (${site.x}, ${site.y})`);
  changed();
}

function back() {
  const { growth, system } = page;
  if (growth.count <= system.seeds.length) return;
  showPlaces(growth.count - 1);
  growth.drop();
  changed();
}

// Places the one type that attaches at a site, or asks which of them.
function pick(site, at = null) {
  const { system, growth, attaching } = page;
  if (page.mode !== "hand" || !system.isInside(site.x, site.y) || growth.numberAt(site.x, site.y) >= 0) return;
  const isFree = $("hand-any").checked,
    types = isFree ? Array.from({ length: system.types.count }, (_, type) => type)
    : attaching.at(growth, site.x, site.y, () => true);
  if (types.length === 1) return place(site, types[0]);
  return types.length ? menu(site, types, at) : tell("pointed", site, at ?? { x: 0, y: 0 });
}

// The types to choose from, beside the site.
function menu(site, types, at) {
  const { kinds, system } = page, box = $("hand-menu");
  const choices = types.slice(0, 200).map((type) => {
    const it = button("", () => place(site, type), { class: "menu-item" });
    it.append(swatch(css(kinds.rgb[kinds.of[type]])), system.nameOf(type),
      make("span", { class: "soft" }, ` held by ${pullAt(site.x, site.y, type)} of ${system.tau}`));
    return it;
  });
  box.replaceChildren(make("div", { class: "soft" }, `At (${site.x}, ${site.y}):`), ...choices,
    button("Nothing", () => { box.hidden = true; }, { class: "menu-item" }));
  box.hidden = false;
  $("card").hidden = true;
  const board = $("board"), where = at ?? { x: board.clientWidth / 3, y: board.clientHeight / 4 };
  box.style.left = `${Math.max(4, Math.min(where.x + 12, board.clientWidth - box.clientWidth - 4))}px`;
  box.style.top = `${Math.max(4, Math.min(where.y + 12, board.clientHeight - box.clientHeight - 4))}px`;
  choices[0].focus();
  if (!at) showSite(site);
}

// What the program says of the sequence.
async function judged() {
  if (page.mode !== "hand") return;
  if (lack) {
    unjudged(lack);
    return;
  }
  const { growth } = page, input = joined([page.systemBytes, placesBytes(growth)]);
  try {
    const { out } = await ask(asking, ["check"], input);
    if (page.growth === growth) setAnswers({ kind: "growth", growth, answer: {} }, linesOf(out));
  } catch (why) {
    if (why instanceof Unanswered && !why.isEnded) unjudged(why.message);
  }
}

function unjudged(text) {
  page.verdict = { tone: "plain", head: "Not judged", text, site: null };
  tell("verdict");
}

function leave() {
  $("hand-menu").hidden = true;
  if (page.mode !== "hand") return;
  page.mode = "look";
  growNow({ isNew: true });
}

export function beginByHand() {
  on("opened-hand", async () => {
    await settled();
    if (opened() === "hand") begin();
  });
  on("closed-hand", leave);
  on("clicked", (site, at) => { if (page.mode === "hand") pick(site, at); });
  on("growing", () => { if (page.mode === "hand") { page.mode = "look"; openDrawer(""); } });
  $("hand-back").addEventListener("click", back);
  $("hand-again").addEventListener("click", () => { show(0); begin(); });
  $("board").addEventListener("keydown", (event) => {
    if (page.mode !== "hand") return;
    if (event.key === "Backspace") back();
    else if (event.key === "Escape" && !$("hand-menu").hidden) { $("hand-menu").hidden = true; $("canvas").focus(); }
  });
}
