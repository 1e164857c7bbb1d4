"""What grew: the places of an assembly in their order, what was said of it, and certificates."""
from __future__ import annotations

import re
import struct
from array import array
from collections.abc import Iterable, Iterator
from dataclasses import dataclass
from functools import cached_property
from typing import Any

from tilebench import lines
from tilebench.faults import Refused
from tilebench.grid import Grid
from tilebench.lanes import packed
from tilebench.system import Site, System

# how many bytes of a growth are read at a time
PIECE = 1 << 14
NUMBER = re.compile("-?[0-9]+")


@dataclass(frozen=True)
class Closed:
    """Whether anything can attach outside the box: the line's `words`, and where it can the site and the type."""

    words: str
    site: Site | None = None
    name: str | None = None

    @property
    def is_terminal(self) -> bool:
        """Whether nothing attaches anywhere."""
        return self.site is None

    @classmethod
    def of(cls, words: list[str]) -> Closed:
        """What a `closed` line says, by its words."""
        is_clipped = words[1] == "clipped" and len(words) == 5
        return cls(" ".join(words), (int(words[2]), int(words[3])), words[4]) if is_clipped else cls(" ".join(words))


@dataclass(frozen=True)
class Verdict:
    """The verdict on local determinism. It is true where it is a yes.

    A no has the `condition` that fails, 1 to 3, the `site`, and the cause: for 1 the `pull` with which the tile is
    held, for 2 and 3 the `name` of the type that attaches there.
    """

    words: str
    condition: int | None = None
    site: Site | None = None
    name: str | None = None
    pull: int | None = None

    def __bool__(self) -> bool:
        return self.condition is None

    @property
    def is_yes(self) -> bool:
        """Whether nothing else can grow, in this box or in any."""
        return self.condition is None

    @property
    def is_one_within(self) -> bool:
        """Whether nothing else can grow within the box: at a yes, and where the third condition alone fails."""
        return self.condition in (None, 3)

    @classmethod
    def of(cls, words: list[str]) -> Verdict:
        """What a `unique` line says, by its words."""
        if words[1] != "no" or len(words) != 6:
            return cls(" ".join(words))
        condition, site = int(words[2]), (int(words[3]), int(words[4]))
        if condition == 1:
            return cls(" ".join(words), condition, site, pull=int(words[5]))
        return cls(" ".join(words), condition, site, words[5])


class Numbers(dict[str, int]):
    """The numbers that words are, each worked out once."""

    def __missing__(self, word: str) -> int:
        if not NUMBER.fullmatch(word):
            raise ValueError(word)
        self[word] = number = int(word)
        return number


class Growth:
    """An assembly as a sequence of places. `growth[x, y]` is the name of the type at a site, None at an empty one; a
    loop over a growth has ((x, y), name) of each tile, in the order of attachment.

    `xs`, `ys` and `kinds` are arrays of whole numbers, one entry for each tile in the order of its attachment: the
    site, and the index of its type in `system.names`. `closed` and `verdict` are what the program said, None where it
    said nothing; `frames` how many of the places of `seen` each frame has, where the growth was watched.
    """

    def __init__(self, system: System):
        self.system = system
        self.xs, self.ys, self.kinds = array("i"), array("i"), array("i")
        self.closed: Closed | None = None
        self.verdict: Verdict | None = None
        self.frames: list[int] = []
        self.seen: Growth | None = None

    @classmethod
    def of(cls, system: System, places: Iterable[tuple[Site, str]]) -> Growth:
        """A growth of places that are handed in, as (site, type); nothing is said of it."""
        growth = cls(system)
        for (x, y), name in places:
            growth.add(x, y, system.index[name])
        return growth

    @classmethod
    def read(cls, system: System, text: str | bytes, first: int = 1) -> Growth:
        """The growth that a text behind its system says, or the `Refused` line; `first` is the number of its first
        line."""
        return Reader(system, first).read(text.encode() if isinstance(text, str) else text)

    @classmethod
    def read_both(cls, text: str | bytes) -> Growth:
        """The growth of a text that has its system in front."""
        text = text if isinstance(text, bytes) else text.encode()
        system, number = System.read_with_rest(text)
        return cls.read(system, text.split(b"\n", number)[-1], number + 1)

    def add(self, x: int, y: int, kind: int) -> None:
        """Puts a tile behind the sequence."""
        for it in ("grid", "order", "_present"):
            self.__dict__.pop(it, None)
        self.xs.append(x)
        self.ys.append(y)
        self.kinds.append(kind)

    def __len__(self) -> int:
        return len(self.xs)

    def __iter__(self) -> Iterator[tuple[Site, str]]:
        names = self.system.names
        return (((x, y), names[kind]) for x, y, kind in zip(self.xs, self.ys, self.kinds))

    def __getitem__(self, site: Site) -> str | None:
        """The name of the type at a site, or None."""
        kind = self.grid.at(site)
        return self.system.names[kind] if kind >= 0 else None

    def __contains__(self, site: Site) -> bool:
        return self.grid.at(site) >= 0

    def __repr__(self) -> str:
        said = [it.words for it in (self.closed, self.verdict) if it is not None]
        return f"<Growth: {len(self)} tiles{', ' if said else ''}{', '.join(said)}>"

    @cached_property
    def grid(self) -> Grid:
        """The tiles by their sites; of a sequence with two tiles for one site, the later one."""
        return Grid(self.system, self.xs, self.ys, self.kinds)

    @cached_property
    def order(self) -> array[int]:
        """For each cell of the grid the number in the sequence of the tile there, or -1."""
        return self.grid.order()

    def turn(self, site: Site) -> int:
        """The number in the sequence of the tile at a site, or -1."""
        number = self.grid.number(site)
        return self.order[number] if number >= 0 else -1

    @property
    def tiles(self) -> dict[Site, str]:
        """The name of the type at each site. (Of a million tiles this takes a second, and 200 MB.)"""
        return dict(self)

    @cached_property
    def _present(self) -> set[int]:
        """The indices of the types of which a tile stands."""
        return {*self.kinds}

    @property
    def placed(self) -> list[str]:
        """The types of which a tile stands, in the system's order."""
        return [name for at, name in enumerate(self.system.names) if at in self._present]

    @property
    def unplaced(self) -> list[str]:
        """The types of which no tile stands, in the system's order."""
        return [name for at, name in enumerate(self.system.names) if at not in self._present]

    @property
    def text(self) -> str:
        """The `place` lines, and the `closed` and `unique` lines where there are such."""
        told = ["place %d %d %s\n" % (x, y, name) for (x, y), name in self]
        return "".join(told + [f"{it.words}\n" for it in (self.closed, self.verdict) if it is not None])

    def frame(self, number: int) -> Growth:
        """What stood in a frame, from 1 on, of a growth that was watched."""
        if not 1 <= number <= len(self.frames):
            raise IndexError(f"there is no frame {number}")
        found, seen, many = Growth(self.system), self.seen or self, self.frames[number - 1]
        found.xs, found.ys, found.kinds = seen.xs[:many], seen.ys[:many], seen.kinds[:many]
        return found

    # ---- what is shown of it, by the modules that do

    def explain(self) -> str:
        """What was said of the growth, in words: where a condition fails, what holds the tile there, and what is
        missing."""
        from tilebench.explain import growth_told

        return "\n".join(growth_told(self))

    def svg(self, cell: int | None = None, by: str | None = None) -> str:
        """A picture, with `cell` pixels to a tile; `by` a side tells tiles apart by the glue there. See
        `drawing.svg`."""
        from tilebench.drawing import svg

        return svg(self, cell=cell, by=by)

    def _repr_svg_(self) -> str:
        """What a notebook shows."""
        return self.svg()

    def to_numpy(self) -> Any:
        """The indices of the types as an array of numpy, row by row of the box from the south, -1 for empty sites."""
        import numpy

        high, wide = self.grid.high, self.grid.wide
        return numpy.array(self.grid.cells, dtype=numpy.int16).reshape(high, wide)[1:-1, 1:-1]

    def plot(self, axes: Any = None) -> Any:
        """Draws the growth by matplotlib, on new axes where none are handed in, and answers these."""
        from tilebench.drawing import plot

        return plot(self, axes)


class Certificate(Growth):
    """A growth with what a certificate states of each tile: `sides`, the letters of NESW by which it came, and its
    `ranks`."""

    def __init__(self, system: System):
        super().__init__(system)
        self.sides: list[str] = []
        self.ranks = array("q")

    def mark(self, x: int, y: int, name: str, sides: str, rank: int) -> None:
        """Puts a mark behind the others."""
        self.add(x, y, self.system.index[name])
        self.sides.append(sides)
        self.ranks.append(rank)

    @property
    def text(self) -> str:
        """The `mark` lines."""
        told = zip(self, self.sides, self.ranks)
        return "".join(
            "mark %d %d %s %s %d\n" % (x, y, name, sides or "-", rank) for ((x, y), name), sides, rank in told
        )


class Reader:
    """Reads a growth text: pieces that have nothing but places at once, and the others line by line."""

    def __init__(self, system: System, first: int):
        self.system, self.number, self.growth = system, first, Growth(system)
        # the columns and the rows that were met, by their words, and the types by their names and what stands behind
        self.columns, self.rows = Numbers(), Numbers()
        self.kinds = {f"{name}\nplace": at for at, name in enumerate(system.names)}

    def read(self, text: bytes) -> Growth:
        at, size = 0, len(text)
        while at < size:
            end = text.find(b"\n", min(size - 1, at + PIECE)) + 1 or size
            piece = text[at:end]
            if not self.take_places(piece):
                for number, words in lines.rows(piece.decode(errors="replace"), self.number):
                    self.take(number, words)
            self.number += piece.count(b"\n")
            at = end
        self.look_at_sites()
        return self.growth

    def take_places(self, piece: bytes) -> bool:
        """Takes a piece of the text if each of its lines is a place in its plainest spelling, and answers whether it
        did."""
        growth = self.growth
        if isinstance(growth, Certificate) or not piece.startswith(b"place "):
            return False
        try:
            # (a name with the end of its line and the next line's keyword is one word, which is looked up at once)
            words = f"{piece.decode()}place".split(" ")
            many = len(words) // 3
            kinds = packed("i", many, map(self.kinds.__getitem__, words[3::3]))
            xs = packed("i", many, map(self.columns.__getitem__, words[1::3]))
            ys = packed("i", many, map(self.rows.__getitem__, words[2::3]))
        except (KeyError, ValueError, struct.error):
            return False
        growth.xs += xs
        growth.ys += ys
        growth.kinds += kinds
        return True

    def take(self, number: int, words: list[str]) -> None:
        """Takes a line."""
        try:
            if not self.is_taken(words):
                raise Refused("BadLine", number, f"{' '.join(words)[:40]} is no line of a growth text")
        except KeyError as why:
            raise Refused("UnknownName", number, f"no type {why.args[0]}") from None
        except (ValueError, OverflowError):
            raise Refused("BadNumber", number, f"{' '.join(words[1:3])} is no site") from None

    def is_taken(self, words: list[str]) -> bool:
        """Takes a line, if it is one of a growth text."""
        growth, keyword, many = self.growth, words[0], len(words)
        if keyword == "place" and many == 4:
            growth.add(*self.site(words), self.system.index[words[3]])
        elif keyword == "closed" and many > 1:
            growth.closed = Closed.of(words)
        elif keyword == "unique" and many > 1:
            growth.verdict = Verdict.of(words)
        elif keyword == "mark" and many == 6:
            if not isinstance(growth, Certificate):
                growth = self.growth = Certificate(self.system)
            growth.mark(*self.site(words), words[3], words[4].replace("-", ""), int(words[5]))
        elif keyword == "frame" and many == 3 and growth.seen is None:
            growth.frames.append(int(words[2]))
        elif words == ["grown"] and growth.frames and growth.seen is None:
            # (the growth behind the frames lists all places anew)
            self.growth = Growth(self.system)
            self.growth.frames, self.growth.seen = growth.frames, growth
        else:
            return False
        return True

    def site(self, words: list[str]) -> Site:
        """The site of a line."""
        return self.columns[words[1]], self.rows[words[2]]

    def look_at_sites(self) -> None:
        """Refuses a place outside the box: the grid has no room for it."""
        x0, y0, x1, y1 = self.system.box
        if all(x0 <= it <= x1 for it in self.columns.values()) and all(y0 <= it <= y1 for it in self.rows.values()):
            return
        for growth in (self.growth.seen, self.growth):
            for at, (site, _) in enumerate(growth or ()):
                if not self.system.in_box(site):
                    raise Refused(
                        "OutsideBox",
                        None,
                        f"place {at} is at {site}, and the corners of the box are {x0, y0} and {x1, y1}",
                    )
