// What holds a tile, and what attaches at a site.
import { SIDES, STEPS, opposite } from "./system.js";

// The glues that face a site, by side, or -1; of the tiles for whose number `stands` is true.
export function facingAt(growth, x, y, stands) {
  return STEPS.map(([a, b], side) => {
    const n = growth.numberAt(x + a, y + b);
    return n >= 0 && stands(n) ? growth.system.side(growth.types[n], opposite(side)) : -1;
  });
}

// The bonds of a type with glues that face it: for each side its own glue, the facing one, the strength.
export function bondsWith(system, type, facing) {
  return facing.map((it, side) => {
    const own = system.side(type, side);
    return { side, own, facing: it, strength: system.between(own, it) };
  });
}

export const bondsAt = (growth, x, y, type, stands) => bondsWith(growth.system, type, facingAt(growth, x, y, stands));

export const sumOf = (bonds) => bonds.reduce((all, it) => all + it.strength, 0);

export function bondWords(system, bonds) {
  const told = bonds.filter((it) => it.strength > 0).map((it) => {
    const beside = it.own === it.facing ? "" : ` with ${system.glueName(it.facing)}`;
    return `${SIDES[it.side]} ${system.glueName(it.own)}${beside} ${it.strength}`;
  });
  return told.length ? `${told.join(" + ")} = ${sumOf(bonds)}` : "no bond";
}

const MOST_KEPT = 200000;

// Answers which types attach between glues; what was asked once is kept.
export class Attaching {
  constructor(system) {
    Object.assign(this, { system, kept: new Map(), bearers: null, pulls: new Float64Array(system.types.count) });
  }

  // For each side, by glue, the types that interact with it there, and how strongly.
  listed() {
    if (this.bearers) return this.bearers;
    const { system } = this, borne = new Map();
    for (let type = 0; type < system.types.count; type++) {
      for (let side = 0; side < 4; side++) {
        const own = system.side(type, side);
        if (own < 0) continue;
        for (const glue of [own, ...(system.partners.get(own) ?? [])]) {
          const strength = system.between(own, glue), key = glue * 4 + side;
          if (!strength) continue;
          if (!borne.has(key)) borne.set(key, []);
          borne.get(key).push(type, strength);
        }
      }
    }
    return (this.bearers = borne);
  }

  // The types that glues hold, in the system's order.
  between(facing) {
    const many = this.system.glues.count + 1;
    const key = facing.reduce((all, it) => all * many + it + 1, 0);
    let found = this.kept.get(key);
    if (!found) {
      if (this.kept.size > MOST_KEPT) this.kept.clear();
      this.kept.set(key, (found = this.found(facing)));
    }
    return found;
  }

  found(facing) {
    const touched = [], { pulls } = this, bearers = this.listed();
    facing.forEach((glue, side) => {
      const list = glue < 0 ? [] : bearers.get(glue * 4 + side) ?? [];
      for (let n = 0; n < list.length; n += 2) {
        if (!pulls[list[n]]) touched.push(list[n]);
        pulls[list[n]] += list[n + 1];
      }
    });
    const found = touched.filter((it) => pulls[it] >= this.system.tau).sort((a, b) => a - b);
    for (const it of touched) pulls[it] = 0;
    return found;
  }

  // The types that attach at a site where no tile stands.
  at(growth, x, y, stands) {
    const n = growth.numberAt(x, y);
    return n >= 0 && stands(n) ? [] : this.between(facingAt(growth, x, y, stands));
  }
}

// The types that take most of what glues offer, with their pulls; at most a few.
export function nearest(system, facing, most = 3) {
  const found = [];
  for (let type = 0; type < system.types.count; type++) {
    const pull = sumOf(bondsWith(system, type, facing));
    if (pull > 0) found.push({ type, pull });
  }
  return found.sort((a, b) => b.pull - a.pull || a.type - b.type).slice(0, most);
}
