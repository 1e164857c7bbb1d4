"""The tiles of an assembly by their sites, in flat arrays that have one empty row and column around the box."""
from __future__ import annotations

import sys
from array import array
from collections.abc import Iterator

from tilebench.lanes import PIECE, lanes_for, packed
from tilebench.system import STEPS, Site, System

# which of the two bytes of an index tells whether a tile stands, and what it is turned into
HIGH = 1 if sys.byteorder == "little" else 0
STANDS = bytes([ord("1")] * 128 + [ord("0")] * 128)
# the bits that no row and no column of a grid has
BEYOND = 0xFFFFF800


class Grid:
    """What stands where: `cells` has the index of the type at each site, row by row from the south, -1 for none;
    `steps` how far away the cell on each side is; `sequence` the cells of the tiles as they came."""

    def __init__(self, system: System, xs: array[int], ys: array[int], kinds: array[int]):
        x0, y0, x1, y1 = system.box
        self.system, self.west, self.south = system, x0 - 1, y0 - 1
        self.wide, self.high = x1 - x0 + 3, y1 - y0 + 3
        self.steps = [a + b * self.wide for a, b in STEPS]
        self.sequence, cells = array("I"), [-1] * (self.wide * self.high)
        for at in range(0, len(xs), PIECE // 4):
            part = slice(at, at + PIECE // 4)
            many = len(xs[part])
            lanes = lanes_for(many)
            rows, columns = lanes.of(ys[part], self.south), lanes.of(xs[part], self.west)
            if (rows | columns) & lanes.ones * BEYOND:
                raise IndexError("a place outside the box")
            self.sequence += lanes.items(rows * self.wide + columns, 0, many)
        # (an item of a list is put in less time than one of an array)
        for number, kind in zip(self.sequence, kinds):
            cells[number] = kind
        self.cells = packed("h", len(cells), cells)

    def number(self, site: Site) -> int:
        """The number of a site's cell, or -1 for a site that has none."""
        column, row = site[0] - self.west, site[1] - self.south
        return row * self.wide + column if 0 <= column < self.wide and 0 <= row < self.high else -1

    def site(self, number: int) -> Site:
        """The site of a cell."""
        return number % self.wide + self.west, number // self.wide + self.south

    def at(self, site: Site) -> int:
        """The index of the type that stands at a site, or -1."""
        number = self.number(site)
        return self.cells[number] if number >= 0 else -1

    def around(self, site: Site) -> tuple[int, int, int, int]:
        """The types around a site, by index and side, -1 for none."""
        north, east, south, west = (self.at((site[0] + a, site[1] + b)) for a, b in STEPS)
        return north, east, south, west

    def row(self, y: int) -> array[int]:
        """The indices in a row of the box, from the west."""
        start = (y - self.south) * self.wide + 1
        return self.cells[start : start + self.wide - 2]

    def mask(self, row: int) -> int:
        """The tiles of a row as bits, the west the lowest."""
        part = self.cells[row * self.wide : (row + 1) * self.wide].tobytes()
        return int(part[HIGH::2].translate(STANDS)[::-1], 2)

    def open_sites(self) -> Iterator[Site]:
        """The empty sites beside tiles, by y, then x; those just outside the box too."""
        masks = [0, *map(self.mask, range(self.high)), 0]
        for row in range(self.high):
            south, mask, north = masks[row : row + 3]
            near = (mask << 1 | mask >> 1 | south | north) & ~mask
            while near:
                low = near & -near
                near ^= low
                yield low.bit_length() - 1 + self.west, row + self.south

    def order(self) -> array[int]:
        """For each cell the number in the sequence of the tile there, -1 where none stands."""
        found = array("i", [-1]) * len(self.cells)
        for at, number in enumerate(self.sequence):
            found[number] = at
        return found
