// The card with the verdict: a word in large, a sentence, what else there is to know, and where to go.
import { $, announce, button, make, many } from "./dom.js";
import { showSite } from "./board.js";
import { leadOf } from "./leads.js";
import { goTo, lineAt, replaceLines, takeReturnsAway } from "./editor.js";
import { widened } from "./edits.js";
import { nowhereOf } from "./verdict.js";
import { on, page, tell } from "./state.js";
import { theTape } from "./tape_panel.js";
import { namesOf } from "./site_words.js";

// The line of the text that says a type, or 0 where the text has none.
export function lineOf(type) {
  if (type < 0 || !page.system) return 0;
  if (page.kind === "machine" || page.kind === "rule") return theTape()?.lineOf(type) ?? 0;
  return page.system.typeLines[type] ?? 0;
}

function buttonsOf(verdict) {
  const list = [];
  if (verdict.site) list.push(button(`Show (${verdict.site.x}, ${verdict.site.y})`, () => showSite(verdict.site)));
  if (verdict.line) list.push(button(`Go to line ${verdict.line}`, () => goTo(verdict.line)));
  if (verdict.site && page.kind === "system" && !page.isStale) list.push(...widening(verdict.site));
  if (verdict.shown?.endsWith("\\r")) list.push(button("Take all carriage returns away", takeReturnsAway));
  for (const it of gluesOf()) {
    list.push(button(`Glue ${it.name}, line ${it.line}`, () => goTo(it.line),
      { title: `The glue that holds the site: go to its line` }));
  }
  if (verdict.tone === "no" && page.kind === "system") {
    list.push(button("Look for rivals", () => tell("openTool", "rivals")));
  }
  if (page.kind === "batch") list.push(...jobButtons());
  return list;
}

// Where the box cuts the growth off, a larger one.
function widening(site) {
  const { system } = page, box = system.isInside(site.x, site.y) ? null : widened(system.box, site);
  if (!box || page.mode === "hand") return [];
  const wide = box[2] - box[0] + 1, high = box[3] - box[1] + 1;
  return [button(`Box of ${wide} by ${high}`, () => replaceLines(system.boxLine, 1, [`box ${box.join(" ")}`]),
    { title: "Widen the box towards that site" })];
}

// The glues to look at: those that hold the site of a no, strongest first.
function gluesOf() {
  const { verdict, system, kind } = page;
  const line = page.meanings.find((it) => it.words[0] === "unique" && it.words[1] === "no");
  if (!verdict?.site || !line || kind === "machine" || kind === "rule") return [];
  const found = /: (.*?), and the temperature|\((.*?), and the temperature/.exec(line.text);
  const names = new Set([...(found?.[1] ?? found?.[2] ?? "").matchAll(/(?:north|east|south|west) (\S+)/g)].map((it) =>
    it[1]));
  return [...names].slice(0, 3).map((name) =>
    ({ name, line: system.glueLines[system.glues.numberOf(name)] })).filter((it) => it.line);
}

function jobButtons() {
  return page.jobs.slice(0, 60).map((job) =>
    button(`Job ${job.number}: ${job.told.map((it) => it.slice(0, 3).join(" ")).pop() ?? ""}`,
    () => tell("opened", job.bytes)));
}

// What the program printed, each line with what it means.
function printed() {
  const lines = page.meanings.flatMap((it) => [make("dt", {}, it.words.join(" ")), make("dd", {}, it.text)]);
  const steps = (page.steps ?? []).slice(0, 400).flatMap((words, at) => {
    const event = page.events[at];
    return [make("dt", {}, `${event ? event.words.join(" ") : ""}`), make("dd", {}, stepWords(words))];
  });
  return [...lines, ...steps];
}

const STEPS = {
  saw: (it) => (it[1] === "-" ? "saw an empty site" : `saw ${it[1]}`),
  won: () => "won: the tile was placed",
  held: (it) => `${it[1]} already stands there`,
  split: (it) => `a new scout, ${it[1]}`,
  joined: (it) => `joined; scout ${it[1]} is left`,
  refused: (it) => ({
    1: "refused: there is no such scout",
      2: `refused: what the scout has seen pulls with ${it[2]}, less than the temperature`,
    3: "refused: the site is outside the box", 4: "refused: the scout has one number only",
  })[it[1]] ?? it.join(" "),
};
const stepWords = (words) => STEPS[words[0]]?.(words) ?? words.join(" ");

function lookThere(site) {
  page.mark = site;
  showSite(site);
}

// The types of which no tile stands: a yes does not speak of them.
function nowhere() {
  if (!page.system || !page.growth?.count || page.isStale || page.mode === "hand"
    || !["system", "growth", "certificate"].includes(page.kind)) {
    return null;
  }
  const none = nowhereOf(page.system, page.growth);
  if (!none.length) return null;
  const lead = leadOf(page, none), told = `${many(none.length, "type")} placed nowhere: ${namesOf(none, 12)}.`;
  const where = lead ? [` ${lead.text} `, button("Look there", () => lookThere(lead.site), { class: "link" })] : [];
  return make("p", { class: "nowhere" }, told, ...where);
}

export function showVerdict() {
  const { verdict } = page, card = $("verdict");
  card.dataset.tone = verdict?.tone ?? "plain";
  $("verdict-word").textContent = verdict?.head ?? "";
  $("verdict-text").textContent = verdict?.text ?? "";
  const said = verdict?.line ? [
    make("pre", { class: "verdict-line" }, `${verdict.line}  ${verdict.shown || lineAt(verdict.line)}`)] : [];
  const more = (verdict?.details ?? []).map((it) => make("li", {}, it));
  const handed = page.handed?.length
    ? [make("p", { class: "soft" }, `The text itself says: ${page.handed.map((it) => it.join(" ")).join("; ")}.`)] : [];
  $("verdict-more").replaceChildren(...said, ...(more.length ? [make("ul", {}, ...more)] : []), ...handed,
    ...[nowhere()].filter(Boolean));
  $("verdict-buttons").replaceChildren(...(verdict ? buttonsOf(verdict) : []));
  const lines = verdict?.said ? [make("dt", {}, verdict.said)] : printed();
  $("printed").replaceChildren(...lines);
  $("printed-part").hidden = !lines.length;
  if (verdict) announce(`${verdict.head}. ${verdict.text}`);
}

export function beginVerdict() {
  on("verdict", showVerdict);
}
