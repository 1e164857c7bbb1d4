// Opening and saving: files, dropped or picked; system, growth, certificate and pictures to be saved; the link to
// share.
import { $ } from "./dom.js";
import { Lines, joined, encode } from "./bytes.js";
import { theCertificate } from "./certificate.js";
import { bytes as editedBytes } from "./editor.js";
import { placesBytes } from "./growth.js";
import { assembled, KINDS } from "./kinds.js";
import { pngBlob, svgText } from "./pictures.js";
import { bytesOfFile, download } from "./saving.js";
import { hashOfText } from "./share.js";
import { page, tell } from "./state.js";

export function notice(text) {
  $("notice-text").textContent = text;
  $("notice").hidden = !text;
}

// ---- opening

async function open(files) {
  try {
    const pieces = await Promise.all([...files].map(bytesOfFile));
    if (pieces.length) tell("opened", withSystem(assembled(pieces)), files[0].name);
  } catch (why) {
    notice(`Not opened: ${why.message}.`);
  }
}

// A growth or a certificate that comes alone stands behind the system that is there.
function withSystem(bytes) {
  const lines = new Lines(bytes);
  const isBehind = lines.next()
    && ["place", "mark", "frame", "closed", "look", "claim", "split"].includes(lines.word(0));
  return isBehind && page.system ? joined([page.systemBytes, bytes]) : bytes;
}

function beginDrop() {
  const over = (is) => document.body.classList.toggle("dropping", is);
  window.addEventListener("dragover", (event) => { event.preventDefault(); over(true); });
  window.addEventListener("dragleave", (event) => { if (!event.relatedTarget) over(false); });
  window.addEventListener("drop", (event) => {
    event.preventDefault();
    over(false);
    if (event.dataTransfer.files.length) open(event.dataTransfer.files);
  });
}

// ---- saving

const SAVED = {
  "save-system": () => download(KINDS[page.kind].file, editedBytes()),
  "save-compiled": () => download("system.tiles", page.systemBytes),
  "save-growth": () => download("growth.grown",
    joined([placesBytes(page.growth),
    encode(page.meanings.filter((it) => ["closed", "unique"].includes(it.words[0])).map((it) =>
    `${it.words.join(" ")}\n`).join(""))])),
  "save-certificate": () => download("assembly.certificate", theCertificate()),
  "save-svg": () => download("assembly.svg", svgText(), "image/svg+xml"),
  "save-png": async () => download("assembly.png", await pngBlob()),
};

// What can be saved now.
export function offerSaves() {
  $("save-growth").disabled = $("save-svg").disabled = $("save-png").disabled = !page.growth?.count;
  $("save-certificate").disabled = !theCertificate();
  $("save-compiled").hidden = page.kind !== "machine" && page.kind !== "rule";
}

// ---- sharing

async function share() {
  const hash = await hashOfText(editedBytes());
  if (!hash) return notice("The text is too long for a link: save it, and send the file.");
  $("link").value = location.href.split("#")[0] + hash;
  $("link-length").textContent = `${$("link").value.length.toLocaleString("en")} signs. `
    + (location.protocol === "file:"
      ? "This page is on your disk: put what stands behind the # behind any other address of the page."
      : "The text is in the link itself: nothing is stored anywhere.");
  $("link-copied").textContent = "";
  $("share-form").showModal();
  $("link").select();
  return undefined;
}

async function copy() {
  $("link").select();
  try {
    await navigator.clipboard.writeText($("link").value);
    $("link-copied").textContent = "Copied.";
  } catch {
    $("link-copied").textContent = document.execCommand("copy") ? "Copied." : "Copy it by hand.";
  }
}

export function beginFiles() {
  $("files").addEventListener("change", (event) => {
    open(event.target.files);
    event.target.value = "";
  });
  $("open").addEventListener("click", () => $("files").click());
  for (const [id, save] of Object.entries(SAVED)) $(id).addEventListener("click", save);
  $("share").addEventListener("click", share);
  $("link-copy").addEventListener("click", copy);
  $("link-close").addEventListener("click", () => $("share-form").close());
  $("notice-close").addEventListener("click", () => notice(""));
  beginDrop();
}
