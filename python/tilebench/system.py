"""A tile system: glues, pairs of unlike glues, tile types, a box and seeds, made by calls or read from a text.

A site is (x, y), and north is up. A type has four sides, in the order north, east, south, west, each the name of a glue
or None. Strengths and the temperature have no unit. docs/FORMATS.md has the text of a system, docs/MODEL.md what it
means.
"""
from __future__ import annotations

import os
import re
from collections.abc import Iterable
from typing import Optional

from tilebench import lines
from tilebench.faults import Refused

SIDES = ("north", "east", "south", "west")
STEPS = ((0, 1), (1, 0), (0, -1), (-1, 0))
Site = tuple[int, int]
Glue = Optional[str]
Sides = tuple[Glue, Glue, Glue, Glue]
NAME = re.compile(r"[A-Za-z0-9_:.]{1,40}")
FARTHEST, LONGEST_SIDE = 1000000, 1024


def opposite(side: int) -> int:
    """The number of the side that faces a side."""
    return (side + 2) % 4


def neighbour(site: Site, side: int) -> Site:
    """The site beside a site."""
    return site[0] + STEPS[side][0], site[1] + STEPS[side][1]


def by_rows(site: Site) -> Site:
    """The order of sites: by y, then x."""
    return site[1], site[0]


def new_name(name: str, known: Iterable[str], what: str) -> str:
    """A name that is declared, or the refusal."""
    if not isinstance(name, str) or not NAME.fullmatch(name):
        raise Refused("BadName", why=f"{name!r} is no name: 1 to 40 of the letters A-Z a-z 0-9 _ : .")
    if name in known:
        raise Refused("DoubleName", why=f"{what} {name} is declared already")
    return name


def old_name(name: str, known: Iterable[str], what: str) -> str:
    """A name that is referred to, or the refusal."""
    if not isinstance(name, str) or not NAME.fullmatch(name):
        raise Refused("BadName", why=f"{name!r} is no name")
    if name not in known:
        raise Refused("UnknownName", why=f"no {what} is named {name}")
    return name


def number_in(value: int | str, least: int, most: int, what: str) -> int:
    """A number within its range, or the refusal."""
    if isinstance(value, str) and not re.fullmatch("-?[0-9]{1,10}", value) or not isinstance(value, (int, str)):
        raise Refused("BadNumber", why=f"{value!r} is no number: {what} is wanted here")
    if not least <= int(value) <= most:
        raise Refused("OutOfRange", why=f"{what} is {least} to {most}, and this one {value}")
    return int(value)


class System:
    """A tile system.

    `tau` is the temperature; `glues` has the strength of each glue, `pairs` that of each pair of unlike glues, and
    `types` the four sides of each tile type, all by name and in the order in which they were declared; `seeds` has
    (site, type); `box` is (x0, y0, x1, y1), both corners inside; `colours` the colours that are wished for names;
    `lines` the number of the line of each glue, type, pair and seed, where the system was read from a text.
    """

    def __init__(self, tau: int = 2, box: tuple[int, int, int, int] | None = None):
        """An empty system of a temperature from 1 to 1000. Without a box it gets the smallest one that has all
        seeds."""
        self.tau = number_in(tau, 1, 1000, "a temperature")
        self.glues: dict[str, int] = {}
        self.pairs: dict[tuple[str, str], int] = {}
        self.types: dict[str, Sides] = {}
        self.seeds: list[tuple[Site, str]] = []
        self.colours: dict[str, str] = {}
        self.lines: dict[tuple[str, object], int] = {}
        self._box: tuple[int, int, int, int] | None = None
        self._text: str | None = None
        self._partners: dict[str, list[str]] = {}
        self._seeded: set[Site] = set()
        self._forget()
        if box is not None:
            self.box = box

    def _forget(self) -> None:
        """What was worked out of the system, and the text that it was read from, hold no longer."""
        self._text = None
        self._names: list[str] = []
        self._index: dict[str, int] = {}
        self._holders: dict[tuple[int, str], list[tuple[str, int]]] | None = None
        self._held: dict[Sides, list[str]] = {}
        self._around: dict[tuple[int, int, int, int], list[int]] = {}

    # ---- made by calls

    def glue(self, name: str, strength: int = 1) -> str:
        """Declares a glue with a strength from 0 to 250, and answers its name."""
        new_name(name, self.glues, "glue")
        self.glues[name] = number_in(strength, 0, 250, "a strength")
        self._forget()
        return name

    def pair(self, one: str, other: str, strength: int = 1) -> None:
        """Lets two unlike glues interact with a strength from 0 to 250."""
        old_name(one, self.glues, "glue")
        old_name(other, self.glues, "glue")
        strength = number_in(strength, 0, 250, "a strength")
        if one == other or (one, other) in self.pairs or (other, one) in self.pairs:
            raise Refused("DoubleName", why=f"{one} and {other} are one glue, or paired already")
        self.pairs[one, other] = strength
        for a, b in ((one, other), (other, one)):
            self._partners.setdefault(a, []).append(b)
        self._forget()

    def tile(self, name: str, north: Glue = None, east: Glue = None, south: Glue = None, west: Glue = None) -> str:
        """Declares a tile type by the glues on its sides, None or "-" for none, and answers its name."""
        new_name(name, self.types, "type")
        sides = [
            None if it is None or it == "-" else old_name(it, self.glues, "glue") for it in (north, east, south, west)
        ]
        self.types[name] = (sides[0], sides[1], sides[2], sides[3])
        self._forget()
        return name

    def seed(self, x: int, y: int, name: str) -> None:
        """Puts a seed, a tile of a declared type, at a site."""
        site = number_in(x, -FARTHEST, FARTHEST, "x"), number_in(y, -FARTHEST, FARTHEST, "y")
        old_name(name, self.types, "type")
        if self._box is not None and not self.in_box(site):
            raise Refused("SeedOutside", why=f"the corners of the box are {self.box[:2]} and {self.box[2:]}")
        if site in self._seeded:
            raise Refused("DoubleSite", why=f"a seed stands at {site} already")
        self.seeds.append((site, name))
        self._seeded.add(site)
        self._forget()

    @property
    def box(self) -> tuple[int, int, int, int]:
        """The corners (x0, y0, x1, y1), both inside; at most 1024 sites on a side."""
        if self._box is not None:
            return self._box
        if not self.seeds:
            raise Refused("NoEnd", why="the system has neither a box nor a seed")
        xs, ys = [site[0] for site, _ in self.seeds], [site[1] for site, _ in self.seeds]
        return min(xs), min(ys), max(xs), max(ys)

    @box.setter
    def box(self, box: tuple[int, int, int, int]) -> None:
        x0, y0, x1, y1 = (number_in(it, -FARTHEST, FARTHEST, "a coordinate") for it in box)
        if not (0 <= x1 - x0 < LONGEST_SIDE and 0 <= y1 - y0 < LONGEST_SIDE):
            raise Refused(
                "OutOfRange", why=f"the lower left corner comes first, and a side has at most 1024 sites: {box}"
            )
        self._box = (x0, y0, x1, y1)
        self._text = None

    # ---- texts

    @classmethod
    def read(cls, text: str | bytes) -> System:
        """The system that a text begins with. A text that can't be read is `Refused`; whether one is in order in all is
        the program's to say, which reads it more strictly."""
        return cls.read_with_rest(text)[0]

    @classmethod
    def open(cls, path: str | os.PathLike[str]) -> System:
        """The system of a file."""
        with open(path, "rb") as it:
            return cls.read(it.read())

    @classmethod
    def read_with_rest(cls, text: str | bytes) -> tuple[System, int]:
        """The system that a text begins with, and the number of its last line."""
        text = lines.as_text(text)
        system, rest, version = cls(), lines.rows(text), ""
        number, words = next(rest, (1, []))
        if words not in (["tiles", "1"], ["tiles", "2"]):
            raise Refused("NoHeader", number, text=text)
        version = words[1]
        for number, words in rest:
            try:
                if system._take(number, words, version):
                    break
            except Refused as why:
                raise Refused(why.cause, number, why.why, text=text) from None
        else:
            raise Refused("NoEnd", text.count("\n") + 1, text=text)
        system._text = "\n".join(text.split("\n", number)[:number]) + "\n"
        system.colours = lines.colours(system._text)
        return system, number

    def _take(self, number: int, words: list[str], version: str) -> bool:
        """Takes a line of a text, and answers whether it is the last one."""
        keyword, *fields = words
        many = {
            "tau": 1,
            "glue": 2,
            "tile": 5,
            "box": 4,
            "seed": 3,
            "end": 0,
            **({"pair": 3} if version == "2" else {}),
        }
        if len(fields) != many.get(keyword, -1):
            raise Refused("BadLine", why=f"{' '.join(words)[:40]} is no line of a system")
        if keyword == "end":
            if self._box is None or not self.seeds:
                raise Refused("OutOfOrder", why="the system has no box or no seed")
            return True
        if keyword == "tau":
            self.tau = number_in(fields[0], 1, 1000, "a temperature")
        elif keyword == "box":
            x0, y0, x1, y1 = (number_in(it, -FARTHEST, FARTHEST, "a coordinate") for it in fields)
            self.box = x0, y0, x1, y1
        else:
            getattr(self, keyword)(*fields)
            of: object = {"pair": tuple(fields[:2]), "seed": self.seeds[-1][0] if self.seeds else None}.get(
                keyword, fields[0]
            )
            self.lines[keyword, of] = number
        return False

    @property
    def text(self) -> str:
        """The text: as it was read, where nothing was changed since, else its plainest spelling."""
        if self._text is not None:
            return self._text
        version = 1 if len(self.seeds) == 1 and not self.pairs else 2
        told = [
            f"tiles {version}",
            *(f"# colour {name} {colour}" for name, colour in self.colours.items()),
            f"tau {self.tau}",
        ]
        told += [f"glue {name} {strength}" for name, strength in self.glues.items()]
        told += [f"pair {one} {other} {strength}" for (one, other), strength in self.pairs.items()]
        told += [f"tile {name} {' '.join(it or '-' for it in sides)}" for name, sides in self.types.items()]
        told += [
            "box {} {} {} {}".format(*self.box),
            *(f"seed {x} {y} {name}" for (x, y), name in self.seeds),
            "end",
            "",
        ]
        return "\n".join(told)

    def __str__(self) -> str:
        return self.text

    def __repr__(self) -> str:
        return f"<System: {len(self.types)} types, {len(self.glues)} glues, temperature {self.tau}>"

    def copy(self) -> System:
        """The same system, to be changed on its own."""
        return System.read(self.text)

    # ---- what bonds with what

    @property
    def names(self) -> list[str]:
        """The names of the types, by index."""
        if len(self._names) != len(self.types):
            self._names = list(self.types)
        return self._names

    @property
    def index(self) -> dict[str, int]:
        """The index of each type, from 0 in the order of their lines."""
        if len(self._index) != len(self.types):
            self._index = {name: at for at, name in enumerate(self.types)}
        return self._index

    def in_box(self, site: Site) -> bool:
        x0, y0, x1, y1 = self.box
        return x0 <= site[0] <= x1 and y0 <= site[1] <= y1

    def partners(self, glue: str) -> list[str]:
        """The glue itself, and those that it is paired with."""
        return [glue, *self._partners.get(glue, ())]

    def bond(self, one: Glue, other: Glue) -> int:
        """The strength with which two sides that face each other interact."""
        if one is None or other is None:
            return 0
        return self.glues[one] if one == other else self.pairs.get((one, other), self.pairs.get((other, one), 0))

    def strongest(self, glue: str) -> int:
        """The greatest strength with which a glue interacts."""
        return max(self.bond(glue, it) for it in self.partners(glue))

    def bonds(self, name: str, facing: Sides) -> list[int]:
        """The strength with which each side of a type is held by the glues around it."""
        return [self.bond(one, other) for one, other in zip(self.types[name], facing)]

    def facing_of(self, around: tuple[int, int, int, int]) -> Sides:
        """The glues that face a site with these types around it, by index and side, -1 for none."""
        north, east, south, west = (
            (None if it < 0 else self.types[self.names[it]][opposite(side)]) for side, it in enumerate(around)
        )
        return north, east, south, west

    def holders(self) -> dict[tuple[int, str], list[tuple[str, int]]]:
        """For each side and glue the types that interact with that glue on this side, each with the strength."""
        if self._holders is None:
            borne: dict[tuple[int, str], list[str]] = {}
            for name, sides in self.types.items():
                for side, glue in enumerate(sides):
                    if glue is not None:
                        borne.setdefault((side, glue), []).append(name)
            self._holders = {}
            for (side, other), names in borne.items():
                for one in self.partners(other):
                    strength = self.bond(one, other)
                    if strength:
                        self._holders.setdefault((side, one), []).extend((it, strength) for it in names)
        return self._holders

    def held_by(self, facing: Sides) -> list[str]:
        """The types that glues around an empty site hold, in the system's order."""
        if facing not in self._held:
            pulls: dict[str, int] = {}
            for side, glue in enumerate(facing):
                for name, strength in self.holders().get((side, glue), ()) if glue is not None else ():
                    pulls[name] = pulls.get(name, 0) + strength
            found = {it for it, pull in pulls.items() if pull >= self.tau}
            self._held[facing] = [it for it in self.names if it in found] if found else []
        return self._held[facing]

    def attaching(self, around: tuple[int, int, int, int]) -> list[int]:
        """The types, by index, that attach at an empty site with these types around it, by index and side, -1 for
        none."""
        if around not in self._around:
            self._around[around] = [self.index[it] for it in self.held_by(self.facing_of(around))]
        return self._around[around]
