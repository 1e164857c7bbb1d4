// What is to be said of one site: its tile and what holds it, or what an empty site is offered and which types come.
import { bondsAt, facingAt, nearest, sumOf } from "./bonds.js";
import { SIDES } from "./system.js";
import { isShown } from "./picture.js";
import { page } from "./state.js";

// A site in words: a title, one line for each side, and a line for the sum.
export function wordsOfSite({ x, y }) {
  const { growth } = page, n = growth.numberAt(x, y);
  return isShown(n) ? tileWords(x, y, n) : emptyWords(x, y);
}

const strengthOf = (glue) => `${page.system.glueName(glue)} (${page.system.strengths[glue]})`;

function tileWords(x, y, n) {
  const { system, growth } = page, type = growth.types[n], mark = growth.mark(n);
  const sides = bondsAt(growth, x, y, type, isShown).filter((it) => it.own >= 0).map((it) => {
    const other = it.own === it.facing ? "" : ` with ${system.glueName(it.facing)}`;
    const bond = it.strength ? `bond ${it.strength}${other}` : it.facing >= 0
      ? `no bond with ${system.glueName(it.facing)}` : "";
    return { side: SIDES[it.side], glue: strengthOf(it.own), bond, isHeld: it.strength > 0 };
  });
  const isSeed = system.seeds.some((it) => it.x === x && it.y === y);
  const more = [`tile ${(n + 1).toLocaleString("en")}`, isSeed ? "a seed" : "",
    mark ? `sides ${mark.sides}, rank ${mark.rank}` : ""];
  return { title: system.nameOf(type), type, site: `(${x}, ${y})`, more: more.filter(Boolean).join(", "), sides,
    sum: "" };
}

function emptyWords(x, y) {
  const { system, growth, attaching } = page, facing = facingAt(growth, x, y, isShown);
  const offered = facing.map((glue, side) => ({ glue, side, strength: system.strongest(glue) })).filter((it) =>
    it.glue >= 0);
  const sides = offered.map((it) =>
    ({ side: SIDES[it.side], glue: strengthOf(it.glue), bond: "is offered", isHeld: it.strength > 0 }));
  const far = system.beyond(x, y), seed = system.seeds.some((it) => it.x === x && it.y === y);
  const types = attaching.between(facing),
    more = [far ? `outside the box, to the ${far}` : "", seed ? "the site of a seed" : ""];
  return { title: "empty", type: -1, site: `(${x}, ${y})`, more: more.filter(Boolean).join(", "), sides, types,
    sum: sumWords(offered, facing, types) };
}

// The sum of what is offered against the temperature, and who comes.
function sumWords(offered, facing, types) {
  const { system } = page, strong = offered.filter((it) => it.strength > 0);
  if (!offered.length) return "nothing is offered here";
  const sum = strong.reduce((all, it) => all + it.strength, 0);
  const parts = strong.map((it) => it.strength).join(" + ") || "0";
  const told = `${parts}${strong.length > 1 ? ` = ${sum}` : ""} of ${system.tau} wanted`;
  if (types.length) return `${told}: ${namesOf(types)} ${types.length === 1 ? "comes" : "come"}`;
  if (sum < system.tau) return `${told}: too little`;
  const all = strong.length === 1 ? "no type takes it" : strong.length === 2 ? "no type takes both"
    : "no type takes enough of them";
  const near = nearest(system, facing).map((it) => `${system.nameOf(it.type)} takes ${it.pull}`);
  return `${told}, and ${all}${near.length ? ` (${near.join(", ")})` : ""}`;
}

export function namesOf(types, most = 6) {
  const more = types.length > most ? ` and ${types.length - most} more` : "";
  return types.slice(0, most).map((it) => page.system.nameOf(it)).join(", ") + more;
}

// The same as one sentence, for a screen reader.
export function sentenceOf(site) {
  const it = wordsOfSite(site), sides = it.sides.map((side) => `${side.side} ${side.glue} ${side.bond}`).join("; ");
  return [`${it.site} ${it.title}`, it.more, sides, it.sum].filter(Boolean).join(", ");
}

// The bonds of a type that would come at a site.
export const pullAt = (x, y, type) => sumOf(bondsAt(page.growth, x, y, type, isShown));
