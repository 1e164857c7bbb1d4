// Where to look when types were placed nowhere: the first site at which enough is offered and no type takes it, or else
// the site at which one of those types was nearest to being held.
import { bondWords, bondsWith, facingAt, sumOf } from "./bonds.js";
import { opposite } from "./system.js";
import { where } from "./meanings.js";

const MOST_SITES = 400000, MOST_TRIED = 3e6;
const all = () => true;

// Each empty site of the box beside a tile, by rows from the lowest, with the glues that face it.
function* emptySites({ system, growth }) {
  const { wide, high, sides } = system, { placeAt, types } = growth;
  const glue = (cell, side) => (placeAt[cell] < 0 ? -1 : sides[4 * types[placeAt[cell]] + opposite(side)]);
  let many = 0;
  for (let row = high - 1; row >= 0; row--) {
    for (let column = 0; column < wide; column++) {
      const cell = row * wide + column;
      if (placeAt[cell] >= 0) continue;
      const facing = [row > 0 ? glue(cell - wide, 0) : -1, column + 1 < wide ? glue(cell + 1, 1) : -1,
        row + 1 < high ? glue(cell + wide, 2) : -1, column > 0 ? glue(cell - 1, 3) : -1];
      if (facing.every((it) => it < 0)) continue;
      if (++many > MOST_SITES) return;
      yield { cell, facing };
    }
  }
}

const offered = (system, facing) => facing.reduce((sum, glue) => sum + system.strongest(glue), 0);

// A site and a sentence, or null. `none` are the types that were placed nowhere.
export function leadOf(shown, none) {
  const { system } = shown;
  let tried = 0, best = null;
  for (const { cell, facing } of emptySites(shown)) {
    if (offered(system, facing) >= system.tau) return gap(shown, cell, facing);
    for (const type of none) {
      if (++tried > MOST_TRIED) return best && near(shown, best);
      const pull = sumOf(bondsWith(system, type, facing));
      if (pull > (best?.pull ?? 0)) best = { cell, type, pull };
    }
  }
  return best && near(shown, best);
}

// Enough is offered here, and nothing attached.
function gap({ system }, cell, facing) {
  const [x, y] = system.siteOf(cell),
    sides = facing.flatMap((glue, side) =>
    (system.strongest(glue) ? [{ side, own: glue, facing: glue, strength: system.strongest(glue) }] : []));
  const who = sides.length === 1 ? "no type takes it" : sides.length === 2 ? "no type takes both"
    : "no type takes enough of them";
  const sum = `${bondWords(system, sides)} of ${system.tau}`;
  return { site: { x, y }, text: `At ${where({ x, y })} enough is offered (${sum}), and ${who}.` };
}

function near({ system, growth }, { cell, type }) {
  const [x, y] = system.siteOf(cell), bonds = bondsWith(system, type, facingAt(growth, x, y, all));
  const sum = `${bondWords(system, bonds)} of ${system.tau}`;
  return { site: { x, y }, text: `${system.nameOf(type)} is nearest to coming at ${where({ x, y })}: ${sum}.` };
}
