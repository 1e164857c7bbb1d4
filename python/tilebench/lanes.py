"""Arrays as whole numbers that have an item in each lane of their bits: one operation of Python's is then on all items.

Of large arrays it is best done in pieces of PIECE bytes or so, which stay in a processor's cache."""
from __future__ import annotations

import functools
import struct
import sys
from array import array
from collections.abc import Iterable
from typing import Any

PIECE = 1 << 15
# the codes of arrays that have an item of so many bytes
CODES = {4: "I", 8: "Q"}


class Lanes:
    """Numbers of `many` lanes of `width` bits, 32, 64 or 128, the first item in the lowest ones."""

    def __init__(self, many: int, width: int = 32):
        self.many, self.size = many, width // 8
        self.ones = int.from_bytes((1).to_bytes(self.size, "little") * many, "little")
        # the highest bit of each lane, and all the others
        self.tops = self.ones << width - 1
        self.rest = self.tops - self.ones

    def spread(self, items: array[int]) -> int:
        """The bits of items that have as many as a lane or fewer, without a sign."""
        own, size, raw = items.tobytes(), items.itemsize, bytearray(self.many * self.size)
        for at in range(size):
            raw[at if sys.byteorder == "little" else size - 1 - at :: self.size] = own[at::size]
        return int.from_bytes(raw, "little")

    def of(self, items: array[int], least: int) -> int:
        """Items with a sign, from a least one on, each as what it has above that."""
        sign = 1 << 8 * items.itemsize - 1
        return (self.spread(items) ^ self.ones * sign) - self.ones * (sign + least)

    def turns(self, items: array[int]) -> int:
        """Items of 32 bits from 0 on, and -1 as more than all others."""
        return self.spread(items) & self.ones * 0x7FFFFFFF

    def beside(self, lanes: int, step: int) -> int:
        """What is so many lanes further on."""
        bits = step * self.size * 8
        return lanes >> bits if bits >= 0 else lanes << -bits

    def less(self, one: int, other: int) -> int:
        """1 in each lane in which one number has less than the other, neither with a lane's highest bit."""
        return (other + self.rest - one & self.tops) >> self.size * 8 - 1

    def items(self, lanes: int, first: int, end: int) -> array[int]:
        """What is in some lanes of 32 or 64 bits, of a number that may have up to twice as many."""
        found = array(CODES[self.size], self.raw(lanes, first, end))
        if sys.byteorder == "big":
            found.byteswap()
        return found

    def keys(self, lanes: int, first: int, end: int) -> Iterable[tuple[Any, ...]]:
        """The same of any width, to be looked up."""
        return struct.iter_unpack(f"{self.size}s", self.raw(lanes, first, end))

    def raw(self, lanes: int, first: int, end: int) -> bytes:
        return lanes.to_bytes(2 * self.many * self.size, "little")[first * self.size : end * self.size]


@functools.lru_cache(8)
def lanes_for(many: int, width: int = 32) -> Lanes:
    """The lanes for so many items, which most pieces of an array share."""
    return Lanes(many, width)


def packed(code: str, many: int, items: Iterable[int]) -> array[int]:
    """An array of so many items, in less time than `array` takes them one by one."""
    return array(code, struct.pack(f"{many}{code}", *items))
