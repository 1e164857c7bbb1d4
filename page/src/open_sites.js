// The sites at which a type attaches to what is shown.
import { opposite } from "./system.js";
import { page } from "./state.js";

// Calls with each open site of the columns and rows, and with the types that attach there.
export function eachOpen({ firstColumn, lastColumn, firstRow, lastRow }, call) {
  const { system, growth, shown, attaching } = page, { wide, high } = system, { placeAt, types } = growth;
  const facing = [-1, -1, -1, -1];
  const stands = (cell) => placeAt[cell] >= 0 && placeAt[cell] < shown;
  const glue = (cell, side) => (stands(cell) ? system.sides[4 * types[placeAt[cell]] + opposite(side)] : -1);
  for (let row = firstRow; row <= lastRow; row++) {
    for (let column = firstColumn; column <= lastColumn; column++) {
      const cell = row * wide + column;
      if (stands(cell)) continue;
      facing[0] = row > 0 ? glue(cell - wide, 0) : -1;
      facing[1] = column + 1 < wide ? glue(cell + 1, 1) : -1;
      facing[2] = row + 1 < high ? glue(cell + wide, 2) : -1;
      facing[3] = column > 0 ? glue(cell - 1, 3) : -1;
      if (facing[0] < 0 && facing[1] < 0 && facing[2] < 0 && facing[3] < 0) continue;
      const found = attaching.between(facing);
      if (found.length) call(column, row, found);
    }
  }
}

// All open sites of the box, by rows from the top; at most so many.
export function openSites(most = 5000) {
  const found = [], { wide, high } = page.system;
  for (let row = 0; row < high && found.length < most; row++) {
    eachOpen({ firstColumn: 0, lastColumn: wide - 1, firstRow: row, lastRow: row }, (column, at, types) => {
      found.push({ x: page.system.box[0] + column, y: page.system.box[3] - at, types });
    });
  }
  return found;
}
