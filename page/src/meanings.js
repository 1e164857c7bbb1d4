// What the lines of an answer mean, in words, with the site that each of them speaks of.
import { bondWords, bondsAt, bondsWith, facingAt } from "./bonds.js";
import { LETTERS, SIDES, STEPS, opposite } from "./system.js";

const all = () => true;
export const where = (site) => `(${site.x}, ${site.y})`;

// What a line says: words, the site (or null), the type that it names (or -1).
export function meaningOf(growth, words) {
  const key = words[0] === "stuck" ? "stuck" : `${words[0]} ${words[1]}`;
  const told = MEANINGS[key]?.(growth, words) ?? null;
  return { words, text: "", site: null, type: -1, ...told };
}

const siteIn = (words, from) => ({ x: Number(words[from]), y: Number(words[from + 1]) });
const typeNamed = (growth, name) => growth.system.types.numberOf(name);
const heat = (growth) => `the temperature is ${growth.system.tau}`;

// The bonds of a named type at a site with all that stands, and the temperature.
function heldBy(growth, name, site, isAway = () => false) {
  const type = typeNamed(growth, name);
  if (type < 0) return heat(growth);
  const facing = facingAt(growth, site.x, site.y, all).map((it, side) => (isAway(side) ? -1 : it));
  return `${bondWords(growth.system, bondsWith(growth.system, type, facing))}, and ${heat(growth)}`;
}

const MEANINGS = {
  "closed terminal": () => ({ text: "Nothing attaches any more, inside the box or outside." }),
  "closed clipped": (growth, words) => {
    const site = siteIn(words, 2), far = growth.system.beyond(site.x, site.y), name = words[4];
    const held = heldBy(growth, name, site);
    const text = `The box cuts the growth off: ${name} would attach at ${where(site)}, outside it (${held}). `
      + `Widen the box to the ${far} or more, or add tiles that end the growth there.`;
    return { site, type: typeNamed(growth, name), text };
  },
  "unique yes": () => ({
    text: "Nothing else can grow: every tile came by bonds that were just enough, no other type could have come in its "
      + "place, and nothing more can come.",
  }),
  "unique no": (growth, words) => NOES[words[2]]?.(growth, words, siteIn(words, 3)),
  "legal yes": () => ({ text: "Each tile could attach when its turn came." }),
  "legal no": illegal,
  "verified yes": () => ({ text: "The certificate is good: nothing else can grow than the tiles that it lists." }),
  "verified no": (growth, words) => {
    const site = siteIn(words, 3);
    return { site, type: typeNamed(growth, words[5] ?? ""), text: certificateWords(growth, words, site) };
  },
  stuck: (growth, words) => {
    const site = siteIn(words, 2), name = growth.nameAt(site.x, site.y);
    const text = words[1] === "seed" ? `The seed at ${where(site)} is missing.`
      : `${words[1]} tiles can't be reached from the seeds; ${name} at ${where(site)} is the first of them.`;
    return { site, text };
  },
};

const NOES = {
  1: (growth, words, site) => {
    const n = growth.numberAt(site.x, site.y), type = n < 0 ? -1 : growth.types[n];
    const bonds = n < 0 ? "" : `: ${bondWords(growth.system, bondsAt(growth, site.x, site.y, type, (m) => m < n))}`;
    const text = `${growth.nameAt(site.x, site.y)} at ${where(site)} is held by ${words[5]} as it attaches${bonds}, `
      + `and ${heat(growth)}: it has more bonds than it needs, and may come in more than one way.`;
    return { site, type, text };
  },
  2: (growth, words, site) => {
    const n = growth.numberAt(site.x, site.y);
    // (neighbours that came later and bond with the tile rest on it, and go with it)
    const rests = n < 0 ? [] : bondsAt(growth, site.x, site.y, growth.types[n],
      (m) => m > n).map((it) => it.strength > 0);
    const held = heldBy(growth, words[5], site, (side) => rests[side]);
    const text = `${words[5]} could come at ${where(site)} in place of ${growth.nameAt(site.x, site.y)}, once that and `
      + `the neighbours that rest on it are away: ${held}. So the two may race for the site.`;
    return { site, type: typeNamed(growth, words[5]), text };
  },
  3: (growth, words, site) => {
    const outside = growth.system.beyond(site.x, site.y), held = heldBy(growth, words[5], site);
    const text = outside
      ? `${words[5]} still attaches at ${where(site)}, outside the box, to the ${outside} (${held}). `
        + "All tiles that stand meet the other two conditions."
      : `${words[5]} still attaches at ${where(site)} (${held}), so the assembly is not finished.`;
    return { site, type: typeNamed(growth, words[5]), text };
  },
};

function illegal(growth, words) {
  const seed = growth.system.seeds[0], n = Number(words[3]);
  if (words[2] === "1") {
    return { site: { x: seed.x, y: seed.y },
      text: "The sequence does not begin with the seeds, in the order of their lines." };
  }
  if (!(n < growth.count)) return null;
  const [x, y] = growth.siteOf(n), type = growth.types[n], name = growth.system.nameOf(type);
  const why = words[2] === "2" ? "at a site that an earlier one has"
    : `held by ${bondWords(growth.system, bondsAt(growth, x, y, type, (m) => m < n))}, and ${heat(growth)}`;
  return { site: { x, y }, type, index: n, text: `Tile ${n + 1}, ${name} at ${where({ x, y })}, comes ${why}.` };
}

// ---- certificates

const CODES = {
  1: (it) => `The seed at ${it.at} has no mark with its type${it.mark ? `; the mark there has ${it.name}` : ""}.`,
  2: (it) => `${it.name} at ${it.at} is a seed, which comes by no side, and its mark states ${it.mark?.sides}.`,
  3: (it) => `${it.name} at ${it.at} states a side at which no tile of lesser rank holds it: `
    + `${it.stated.map((bond) => sideWords(it, bond)).join(", ")}. Its own rank is ${it.mark?.rank}.`,
  4: (it) => `The bonds at the sides that ${it.name} at ${it.at} states add up to ${it.words[5]}, and `
    + `${heat(it.growth)} (${bondWords(it.growth.system, it.stated)}).`,
  5: (it) => {
    const side = LETTERS.indexOf(it.words[5]);
    return `${it.name} at ${it.at} has a bond of ${it.bonds[side]?.strength} on its ${SIDES[side]} side, which neither `
      + "it states nor its neighbour there.";
  },
  6: (it) => `${it.words[5]} could come at ${it.at} in place of ${it.name}, once that and the neighbours that rest on `
    + `it are away: ${heldBy(it.growth, it.words[5], it.site, (side) => restsOn(it, side))}.`,
  7: (it) => {
    const outside = it.growth.system.beyond(it.site.x, it.site.y);
    return `${it.words[5]} attaches at ${it.at}, which has no mark (${heldBy(it.growth, it.words[5], it.site)})`
      + `${outside ? `; that is outside the box, to the ${outside}` : ""}.`;
  },
};

function certificateWords(growth, words, site) {
  const n = growth.numberAt(site.x, site.y), mark = n < 0 ? null : growth.mark(n);
  const bonds = n < 0 ? [] : bondsAt(growth, site.x, site.y, growth.types[n], all);
  const stated = bonds.filter((it) => mark?.sides.includes(LETTERS[it.side]));
  return CODES[words[2]]?.({ growth, words, site, mark, bonds, stated, at: where(site),
    name: growth.nameAt(site.x, site.y) });
}

// Neighbours that state their side towards the tile rest on it.
function restsOn({ growth, site }, side) {
  const n = growth.numberAt(site.x + STEPS[side][0], site.y + STEPS[side][1]);
  return n >= 0 && growth.mark(n).sides.includes(LETTERS[opposite(side)]);
}

// A side that a mark states: its bond, and the rank of the tile there.
function sideWords({ growth, site }, bond) {
  const n = growth.numberAt(site.x + STEPS[bond.side][0], site.y + STEPS[bond.side][1]);
  const held = bond.strength ? `bond ${bond.strength}` : "no bond";
  return `${SIDES[bond.side]} ${n < 0 ? "no tile" : `${held}, rank ${growth.mark(n)?.rank}`}`;
}
