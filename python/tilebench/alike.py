"""Cells of a grid that are alike: the same type stands there, the same ones around, and the same of these came earlier.

A million cells are mostly of a few hundred kinds, so what is asked of each is worked out once for all that are alike.
"""
from __future__ import annotations

from array import array
from collections import Counter
from collections.abc import Iterable, Iterator
from itertools import compress, islice
from typing import Any

from tilebench.grid import Grid
from tilebench.lanes import CODES, PIECE, lanes_for


class Numbered(dict[Any, int]):
    """Numbers from 0 on, in the order in which they are first asked for."""

    def __missing__(self, key: Any) -> int:
        self[key] = number = len(self)
        return number


class Alike:
    """The cells of a grid in groups of those that are alike, as a growth's order has it or without one.

    `keys` has a number for each cell, which those of its group share; cells that are left `apart` have one of their
    own. `firsts` has the first cell of each group by its number, and `counts` how many cells it has."""

    def __init__(self, grid: Grid, order: array[int] | None = None, apart: Iterable[int] = ()):
        bits = len(grid.system.types).bit_length()
        width = next(it for it in (32, 64, 128) if 5 * bits + 4 < it)
        self.keys, self.numbered = array(CODES.get(width // 8, "I")), Numbered()
        self.firsts, self.counts = dict[int, int](), Counter[int]()
        rows = max(1, 8 * PIECE // width // grid.wide)
        for row in range(0, grid.high, rows):
            self.take(self.keys_of(grid, order, bits, width, range(row, min(row + rows, grid.high))))
        for cell in apart:
            self.counts[self.keys[cell]] -= 1
            self.keys[cell] = (1 << 8 * self.keys.itemsize) - 1

    def take(self, keys: array[int]) -> None:
        """Takes the keys of the next cells."""
        known, at = len(self.counts), 0
        self.counts.update(keys)
        # (what is counted stands in the order in which it came)
        for key in islice(self.counts, known, None):
            at = keys.index(key, at)
            self.firsts[key] = len(self.keys) + at
        self.keys += keys

    def keys_of(self, grid: Grid, order: array[int] | None, bits: int, width: int, rows: range) -> array[int]:
        """For each cell of some rows what stands there and around, each in so many bits, and which of the latter came
        earlier, as one number."""
        low = max(rows.start - 1, 0)
        part = slice(low * grid.wide, (rows.stop + 1) * grid.wide)
        lanes = lanes_for(len(grid.cells[part]), width)
        own = lanes.of(grid.cells[part], -1)
        keys = own
        for side, step in enumerate(grid.steps, 1):
            keys |= lanes.beside(own, step) << side * bits
        if order is not None:
            turns = lanes.turns(order[part])
            # (which of two neighbours came earlier is seen from the one, and kept for both)
            for at, step in enumerate(grid.steps[:2]):
                earlier = lanes.less(lanes.beside(turns, step), turns)
                keys |= (earlier | lanes.beside(earlier, -step) << 2) << 5 * bits + at
        first, end = (rows.start - low) * grid.wide, (rows.stop - low) * grid.wide
        if width <= 64:
            return lanes.items(keys, first, end)
        return array("I", map(self.numbered.__getitem__, lanes.keys(keys, first, end)))


class Cells:
    """The cells of some groups, in their order."""

    def __init__(self, alike: Alike, groups: set[int]):
        self.alike, self.groups = alike, groups
        self.many = sum(alike.counts[it] for it in groups)

    def __len__(self) -> int:
        return self.many

    def __iter__(self) -> Iterator[int]:
        first = min((self.alike.firsts[it] for it in self.groups), default=0)
        rest = self.alike.keys[first:]
        return compress(range(first, first + len(rest)), map(self.groups.__contains__, rest))
