// The page: begins its parts, and ties them together.
import { STATE } from "../generated.js";
import { beginBoard, drawNow, redraw, showAll, showSite, zoomMiddle } from "./board.js";
import { beginByHand } from "./by_hand.js";
import { beginCertificate } from "./certificate.js";
import { beginChoosing } from "./choosing.js";
import { beginCommand } from "./command.js";
import { beginCounterForm } from "./counter_form.js";
import { $, paused } from "./dom.js";
import { beginDrawer, openDrawer } from "./drawer.js";
import { beginEditor, mark, put, text } from "./editor.js";
import { beginFiles, notice } from "./files.js";
import { exampleText, FIRST } from "./gallery.js";
import { beginLegend } from "./legend.js";
import { beginLive, isLive } from "./live.js";
import { growNow, grownLater, isIdle, kindNamed, timings } from "./loading.js";
import { beginMenus, closeMenus } from "./menus.js";
import { beginPlayer, move, show, toggle } from "./player.js";
import { beginPointer } from "./pointer.js";
import { lack } from "./program.js";
import { reasons } from "./refusals.js";
import { beginRivals, theSearch } from "./rivals.js";
import { textOfHash } from "./share.js";
import { on, page, tell } from "./state.js";
import { keepText, keptText } from "./storage.js";
import { beginTape, theTape } from "./tape_panel.js";
import { beginTileForm } from "./tile_form.js";
import { beginTiles } from "./tiles_tab.js";
import { beginVerdict } from "./verdict_card.js";
import { view } from "./view.js";

// ---- a text is opened, or typed on

function opened(given, name = "") {
  notice("");
  openDrawer("");
  put(given, name);
  $("search").value = "";
  page.found = null;
  page.chosen = -1;
  mark({ chosen: 0 });
  keepText("text", text());
  tell("showText");
  growNow({ isNew: true });
}

const keeping = paused(() => keepText("text", text()));

function typed(isAtOnce) {
  keeping(300);
  grownLater(isAtOnce);
}

function keepNow() {
  if (keeping.isDue()) keepText("text", text());
}

// ---- keys

const FIELDS = ["TEXTAREA", "SELECT", "INPUT", "BUTTON"];

function pressed(event) {
  if (event.ctrlKey || event.metaKey || event.altKey || FIELDS.includes(event.target.tagName)
    || document.querySelector("dialog[open]")) {
    return;
  }
  const keys = {
    ArrowLeft: () => move(event.shiftKey ? -10 : -1), ArrowRight: () => move(event.shiftKey ? 10 : 1), " ": toggle,
    Home: () => show(page.system?.seeds.length ?? 0), End: () => show(page.growth?.count ?? 0),
    "+": () => zoomMiddle(1.5), "-": () => zoomMiddle(1 / 1.5), 0: showAll, "?": () => $("help-form").showModal(),
      Escape: closeMenus,
    "/": () => $("search").focus(), e: () => $("examples").click(),
  };
  if (!keys[event.key]) return;
  event.preventDefault();
  keys[event.key]();
}

function beginDialogs() {
  for (const it of ["help", "about"]) {
    $(`open-${it}`).addEventListener("click", () => $(`${it}-form`).showModal());
    $(`close-${it}`).addEventListener("click", () => $(`${it}-form`).close());
  }
  $("state").textContent = STATE.crates ? `Made from the sources ${STATE.crates.slice(0, 12)}` : "";
  $("state-crates").textContent = STATE.crates;
  $("state-module").textContent = STATE.module ? `${STATE.module}, ${STATE.bytes.toLocaleString("en")} bytes`
    : "none in this page";
}

// ---- what is there at the beginning

// The text of a link, the one that was there before, or the first example.
async function begin() {
  if (isLive) return;
  const kept = keptText("text"), linked = await textOfHash(location.hash);
  if (linked?.bytes) {
    if (kept) put(kept);
    opened(linked.bytes);
    return;
  }
  opened(kept || exampleText(FIRST), kept ? "" : FIRST);
  if (linked) notice(linked.why);
  if (lack) notice(lack);
}

async function hashChanged() {
  const linked = await textOfHash(location.hash);
  if (linked?.bytes) opened(linked.bytes);
  else if (linked) notice(linked.why);
}

for (const part of [beginEditor, beginBoard, beginPointer, beginPlayer, beginLegend, beginVerdict, beginChoosing,
  beginDrawer,
  beginTape, beginByHand, beginRivals,
  beginCertificate, beginCommand, beginTileForm, beginTiles, beginCounterForm, beginFiles, beginMenus, beginDialogs,
    beginLive]) part();
on("opened", opened);
on("typed", typed);
on("openTool", openDrawer);
window.addEventListener("keydown", pressed);
window.addEventListener("hashchange", hashChanged);
window.addEventListener("pagehide", keepNow);
// what the checks of the page look at
Object.assign((window.tilebench ??= {}),
  { page: { state: page, view, timings, isIdle, search: theSearch, tape: theTape, showSite, redraw, drawNow, kindNamed,
  reasons } });
begin();
