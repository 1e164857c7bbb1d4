// The verdict in short: a word in large, one sentence, its tone, and the site or the line that it speaks of.
import { many } from "./dom.js";
import { where } from "./meanings.js";
import { reasons, refusalIn } from "./refusals.js";

// Tones: "yes" green, "within" amber, "no" red, "plain" grey.

// The verdict on what grew. `meanings` are those of its lines.
export function verdictOf(shown, meanings) {
  if (shown.kind === "schedule") return scheduleVerdict(shown);
  if (shown.kind === "batch") return batchVerdict(shown);
  const line = (word) => meanings.find((it) => it.words[0] === word);
  const bad = meanings.find((it) => it.words[0] === "legal" && it.words[1] === "no");
  if (bad) return { tone: "no", head: "Not a legal growth", text: bad.text, site: bad.site };
  if (line("verified")) return certificateVerdict(line("verified"), shown);
  if (line("stuck")) {
    return { tone: "no", head: "Can't have grown", text: line("stuck").text, site: line("stuck").site };
  }
  const unique = line("unique");
  if (!unique) {
    return { tone: "plain", head: "Not judged",
      text: tilesStand(shown, "is drawn as the text says.", "are drawn as the text says."), site: null };
  }
  return unique.words[1] === "yes" ? yesVerdict(shown) : noVerdict(shown, unique, line("closed"));
}

const tilesStand = (shown, one, several) =>
  `${many(shown.growth.count, "tile")} ${shown.growth.count === 1 ? one : several}`;

function yesVerdict(shown) {
  const tiles = shown.growth.count === 1 ? "this one tile" : `these ${many(shown.growth.count, "tile")}`;
  const text = `Nothing else can grow than ${tiles}, in whatever order they come.`;
  return { tone: "yes", head: "Unique", text, site: null };
}

function noVerdict(shown, unique, closed) {
  const [, , code, , , name] = unique.words, site = unique.site;
  if (code === "3" && closed?.words[1] === "clipped") {
    const text = `Growing within the box, nothing else can grow; ${name} still attaches at ${where(site)}, outside.`;
    return { tone: "within", head: "Unique within the box", text, site };
  }
  if (code === "3") {
    const text = `Each tile could attach when its turn came; ${name} still attaches at ${where(site)}.`;
    return { tone: "within", head: "Not finished", text, site };
  }
  const stands = shown.growth.nameAt(site.x, site.y);
  const text = code === "1"
    ? `${stands} at ${where(site)} is held by more than it needs, so it may come in more than one way.`
    : `${name} could come at ${where(site)} in place of ${stands}.`;
  return { tone: "no", head: "Not shown to be unique", text: `${text} That refutes nothing: look for rivals.`, site };
}

function certificateVerdict(line, shown) {
  if (line.words[1] === "yes") {
    return { tone: "yes", head: "Verified",
      text: `The certificate is good: nothing else can grow than its ${many(shown.growth.count, "tile")}.`,
      site: null };
  }
  return { tone: "no", head: "Not verified", text: line.text, site: line.site };
}

function scheduleVerdict({ steps, growth, events }) {
  const refused = steps.filter((it) => it[0] === "refused").length;
  const told = refused ? `${refused} of them refused` : "none refused";
  const text = `${many(steps.length, "step")} of scouts, ${told}; ${many(growth.count, "tile")} stand.`;
  if (!refused) return { tone: "plain", head: "All steps were taken", text, site: null };
  const { line, words } = events[steps.findIndex((it) => it[0] === "refused")];
  return { tone: "no", head: "A step was refused", text, site: null, line, shown: words.join(" ") };
}

function batchVerdict({ jobs }) {
  const yes = jobs.filter((it) => it.told.some((words) => words[0] === "unique" && words[1] === "yes")).length;
  const text = `${many(jobs.length, "job")}: ${yes} with the verdict yes. Open one to see it.`;
  return { tone: yes === jobs.length ? "yes" : "plain", head: "A batch", text, site: null };
}

// The verdict on a text that the program refuses, or that can't be read.
export function refusedVerdict(said, bytes, command) {
  const found = refusalIn(said);
  if (!found) return { tone: "plain", head: "Refused", text: said, site: null, line: 0, details: [] };
  const [first, shown, ...more] = reasons(bytes, found.line, found.cause, command);
  const text = sentence(first.replace(/^line \d+: \w+: /, ""));
  return { tone: "plain", head: "Refused", text, site: null, line: found.line, cause: found.cause, said,
    shown: shown.trim(), details: more.map((it) => it.slice(4)) };
}

const sentence = (text) => `${text[0].toUpperCase()}${text.slice(1)}${/[.?!]$/.test(text) ? "" : "."}`;

// The types of which no tile stands.
export function nowhereOf(system, growth) {
  const stands = new Uint8Array(system.types.count);
  for (let n = 0; n < growth.count; n++) stands[growth.types[n]] = 1;
  const none = [];
  for (let type = 0; type < stands.length; type++) if (!stands[type]) none.push(type);
  return none;
}
