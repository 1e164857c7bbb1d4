// The drawer beside the picture: one tool at a time, opened by its button.
import { $ } from "./dom.js";
import { tell } from "./state.js";

const TOOLS = ["tape", "hand", "rivals", "certificate", "command"];
let openTool = "";

export const opened = () => openTool;

// Opens a tool, or closes the drawer where none is named.
export function openDrawer(tool = "") {
  if (tool === openTool) return;
  const before = openTool;
  openTool = tool;
  $("drawer").hidden = !tool;
  for (const it of TOOLS) {
    $(`tool-${it}`).hidden = it !== tool;
    $(`open-${it}`).setAttribute("aria-expanded", String(it === tool));
  }
  if (before) tell(`closed-${before}`);
  if (tool) tell(`opened-${tool}`);
}

export function beginDrawer() {
  for (const it of TOOLS) {
    $(`open-${it}`).addEventListener("click", () => openDrawer(it === openTool ? "" : it));
    $(`close-${it}`).addEventListener("click", () => {
      openDrawer("");
      $(`open-${it}`).focus();
    });
  }
}
