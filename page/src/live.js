// Behind tools/live the text is a file on disk: read whenever it changes, and saved from here.
import { liveFile } from "../engine/file.js";
import { $ } from "./dom.js";
import { bytes } from "./editor.js";
import { on, tell } from "./state.js";

const file = liveFile();
export const isLive = file !== null;
let stamp = "", isEdited = false;

const say = (text) => { $("saved").textContent = text; };

async function look() {
  try {
    const found = await file.read(stamp);
    if (found.stamp !== stamp) {
      stamp = found.stamp;
      if (isEdited) say("not saved, and the file was changed elsewhere");
      else if (found.text !== undefined) {
        tell("opened", found.text, file.name);
        isEdited = false;
        say("");
      }
    }
  } catch (why) {
    stamp = why.kind === "gone" ? stamp : "";
    say(why.kind === "gone" ? "tools/live has ended" : `the file can't be read: ${why.message}`);
  }
  setTimeout(look, 500);
}

async function save() {
  try {
    stamp = (await file.write(bytes())).stamp;
    isEdited = false;
    say("saved");
  } catch (why) {
    say(`not saved: ${why.message}`);
  }
}

export function beginLive() {
  if (!isLive) return;
  document.body.classList.add("live");
  $("path").textContent = file.name;
  $("save-file").hidden = false;
  $("save-file").addEventListener("click", save);
  document.addEventListener("keydown", (event) => {
    if (!(event.ctrlKey || event.metaKey) || event.key !== "s") return;
    event.preventDefault();
    save();
  });
  on("typed", () => { isEdited = true; say("not saved"); });
  look();
}
