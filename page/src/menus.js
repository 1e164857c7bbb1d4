// Menus that open below a button: the examples, and what can be saved.
import { $, button, make } from "./dom.js";
import { openCounterForm } from "./counter_form.js";
import { offerSaves } from "./files.js";
import { examples, exampleText, NEW_SET } from "./gallery.js";
import { tell } from "./state.js";

const MENUS = [["examples", "examples-menu"], ["save", "save-menu"]];

function toggle(opener, menu, isOpen) {
  $(menu).hidden = !isOpen;
  $(opener).setAttribute("aria-expanded", String(isOpen));
  if (isOpen) $(menu).querySelector("button:not([disabled]):not([hidden])")?.focus();
}

export function closeMenus() {
  for (const [opener, menu] of MENUS) toggle(opener, menu, false);
}

// Arrows go from item to item.
function pressed(event, opener, menu) {
  const items = [...$(menu).querySelectorAll("button:not([disabled]):not([hidden])")],
    at = items.indexOf(document.activeElement);
  const to = { ArrowDown: at + 1, ArrowUp: at - 1, Home: 0, End: items.length - 1 }[event.key];
  if (event.key === "Escape") {
    toggle(opener, menu, false);
    $(opener).focus();
  } else if (to !== undefined) items[(to + items.length) % items.length].focus();
  else return;
  event.preventDefault();
}

// An item of the list: a name, a line, and what it does.
function item(name, line, action, given = {}) {
  const it = button("", () => { closeMenus(); action(); }, { class: "menu-item example", role: "menuitem", ...given });
  it.append(make("b", {}, name), make("span", { class: "soft" }, line));
  return it;
}

const exampleItem = ({ name, line }) =>
  item(name, line, () => tell("opened", exampleText(name), name), { "data-name": name });

function fillExamples() {
  const groups = examples().map(([heading, list]) =>
    make("section", {}, make("h3", {}, heading), ...list.map(exampleItem)));
  const begun = item("a new set \u2026", "Two types to begin with", () => tell("opened", NEW_SET), { id: "open-new" });
  const counter = item("a counter \u2026", "A binary counter of your bits and start", openCounterForm,
    { id: "open-counter" });
  groups[0].append(begun);
  groups[2].append(counter);
  $("examples-menu").replaceChildren(...groups);
}

export function beginMenus() {
  fillExamples();
  for (const [opener, menu] of MENUS) {
    $(opener).addEventListener("click", () => {
      const isOpen = $(menu).hidden;
      closeMenus();
      if (menu === "save-menu") offerSaves();
      toggle(opener, menu, isOpen);
    });
    $(menu).addEventListener("keydown", (event) => pressed(event, opener, menu));
  }
  $("save-menu").addEventListener("click", closeMenus);
  document.addEventListener("pointerdown", (event) => {
    if (!event.target.closest?.(".menu-part")) closeMenus();
  });
}
