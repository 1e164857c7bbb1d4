"""Whether a system has more than one outcome in its box: a search that is exact where it comes to its end.

Take one growth that is closed in the box. Another sequence first differs from it where it places another type at some
site, over tiles of this growth that came without that site's tile. What can come without it is the more the better,
since a tile never weakens a bond: so it is enough to look, for each site, at all of the growth that can stand while the
site is empty, and whether another type attaches there then. If none does at any site, no sequence ever differs, and the
growth is the one outcome in the box. If one does, two legal sequences have different tiles at one site, and no assembly
has both.
"""
from __future__ import annotations

import sys
import threading
import time
from array import array
from collections.abc import Iterator
from dataclasses import dataclass, field

from tilebench import calls
from tilebench.alike import Alike, Cells
from tilebench.conditions import facing_alone
from tilebench.growth import Growth
from tilebench.system import Site, System, neighbour, opposite

# up to how many sites a box may have for a sequence to be gone on with until it is closed
MOST_EXTENDED = 1 << 16


class Progress:
    """Tells once a second, on standard error, what is being done; it ends with its block."""

    def __init__(self, name: str, is_told: bool = True):
        self.name, self.stage, self.begun = name, "begins", time.monotonic()
        self.is_told, self.ended = is_told, threading.Event()
        self.thread = threading.Thread(target=self.tell, daemon=True)

    def __enter__(self) -> Progress:
        if self.is_told:
            self.thread.start()
        return self

    def __exit__(self, *_: object) -> None:
        self.ended.set()

    def seconds(self) -> float:
        return time.monotonic() - self.begun

    def tell(self) -> None:
        while not self.ended.wait(1):
            print(f"{self.name}: {self.seconds():.0f} s: {self.stage}", file=sys.stderr, flush=True)


@dataclass
class Found:
    """What a search found. `is_one` is True for one outcome in the box, False for two, None where it stays open.

    `growth` is the growth that it began with. Of two outcomes `other` is the second sequence, `site` where they differ,
    and `name` the type there in the second one. `searched` and `left` count the sites at which another type could be
    held.
    """

    growth: Growth
    is_one: bool | None = None
    other: Growth | None = None
    site: Site | None = None
    name: str = ""
    searched: int = 0
    left: int = 0
    tried: list[int] = field(default_factory=list)


class Search:
    """Looks at what can come while a site is empty."""

    def __init__(self, growth: Growth):
        self.growth, self.system, self.grid = growth, growth.system, growth.grid
        self.known: dict[tuple[int, int, int], int] = {}
        self.seeds = [self.grid.number(site) for site, _ in self.system.seeds]

    def bond(self, kind: int, side: int, other: int) -> int:
        """The strength between a tile and the one on a side of it."""
        key = kind, side, other
        if key not in self.known:
            types, names = self.system.types, self.system.names
            self.known[key] = self.system.bond(types[names[kind]][side], types[names[other]][opposite(side)])
        return self.known[key]

    def standing_without(self, hole: int) -> tuple[list[int], bytearray]:
        """The cells of all tiles that can come while a cell stays empty, in an order in which they can, and where they
        stand."""
        cells, known, tau, bond = self.grid.cells, self.known, self.system.tau, self.bond
        stands, pulls = bytearray(len(cells)), array("i", [0]) * len(cells)
        order = list(self.seeds)
        for it in order:
            stands[it] = 1
        for cell in order:
            # (the list grows while it is gone through)
            kind = cells[cell]
            for side, step in enumerate(self.grid.steps):
                beside = cell + step
                other = cells[beside]
                if other < 0 or stands[beside] or beside == hole:
                    continue
                key = kind, side, other
                strength = known[key] if key in known else bond(*key)
                if strength:
                    pulls[beside] += strength
                    if pulls[beside] >= tau:
                        stands[beside] = 1
                        order.append(beside)
        return order, stands

    def rivals(self) -> list[tuple[Site, list[int]]]:
        """Each site, but for the seeds', at which all its neighbours would hold another type too, with these types.
        First come those at which the input sides alone hold one."""
        grid, others = self.grid, dict[int, list[int]]()
        alike = Alike(grid, apart=self.seeds)
        for group, cell in alike.firsts.items():
            kinds = self.system.attaching(grid.around(grid.site(cell))) if grid.cells[cell] >= 0 else []
            others[group] = [it for it in kinds if it != grid.cells[cell]]
        held = Cells(alike, {group for group, kinds in others.items() if kinds})
        found = [(grid.site(at), others[alike.keys[at]]) for at in held]
        # (of very many the order is not worth its time)
        far = {site: not self.is_held_by_inputs(site, kinds) for site, kinds in found} if len(found) < 20000 else {}
        return sorted(found, key=lambda it: far.get(it[0], False))

    def named(self) -> list[tuple[Site, list[int]]]:
        """The site that the verdict names, with the types that its neighbours would hold too."""
        verdict = self.growth.verdict
        if verdict is None or verdict.site is None:
            return []
        own = self.grid.at(verdict.site)
        kinds = [it for it in self.system.attaching(self.grid.around(verdict.site)) if it != own]
        return [(verdict.site, kinds)] if kinds else []

    def is_held_by_inputs(self, site: Site, kinds: list[int]) -> bool:
        """Whether what came before the tile holds another type."""
        facing = facing_alone(self.growth, site)
        return any(sum(self.system.bonds(self.system.names[it], facing)) >= self.system.tau for it in kinds)

    def first_at(self, site: Site, kinds: list[int]) -> Growth | None:
        """A sequence in which another one of these types comes first at the site, or None where there is none."""
        hole = self.grid.number(site)
        order, stands = self.standing_without(hole)
        around = [self.grid.cells[hole + step] if stands[hole + step] else -1 for step in self.grid.steps]
        held = self.system.attaching((around[0], around[1], around[2], around[3]))
        kind = next((it for it in kinds if it in held), None)
        if kind is None:
            return None
        found = Growth(self.system)
        for cell in order:
            x, y = self.grid.site(cell)
            found.add(x, y, self.grid.cells[cell])
        found.add(site[0], site[1], kind)
        return extended(found) if len(self.grid.cells) <= MOST_EXTENDED else found


def extended(growth: Growth) -> Growth:
    """Goes on with a sequence until no type attaches in the box."""
    system, tiles = growth.system, growth.grid
    left = [site for site in tiles.open_sites() if system.in_box(site)]
    found = Growth(system)
    found.xs, found.ys, found.kinds = growth.xs[:], growth.ys[:], growth.kinds[:]
    while left:
        site = left.pop()
        kinds = system.attaching(tiles.around(site)) if tiles.at(site) < 0 else []
        if kinds:
            tiles.cells[tiles.number(site)] = kinds[0]
            found.xs.append(site[0])
            found.ys.append(site[1])
            found.kinds.append(kinds[0])
            left += [it for it in (neighbour(site, side) for side in range(4)) if system.in_box(it)]
    return found


def choices(growth: Growth, most: int, found: Found, progress: Progress) -> None:
    """Grows by other choices, and looks for a tile that differs."""
    for choice in range(1, most):
        progress.stage = f"grows by choice {choice}"
        other = calls.grow(growth.system, choice=choice)
        found.tried.append(choice)
        for (x, y), name in other:
            if (growth[x, y] or name) != name:
                found.is_one, found.other, found.site, found.name = False, other, (x, y), name
                return


def search(system: System, *, seconds: float = 60, most_choices: int = 16, is_told: bool = False) -> Found:
    """Looks for a second outcome in the box for some seconds; `is_told` tells once a second how far it is."""
    with Progress("outcomes", is_told) as progress:
        progress.stage = "grows by choice 0"
        found = Found(calls.grow(system))
        if found.growth.verdict is not None and found.growth.verdict.is_one_within:
            found.is_one = True
            return found
        looking = Search(found.growth)
        progress.stage = "searches the site that the verdict names"
        if not is_found(found, looking, looking.named(), progress, seconds):
            progress.stage = "looks for sites at which another type could be held"
            rivals = looking.rivals()
            if not is_found(found, looking, rivals, progress, seconds):
                found.left = len(rivals) - found.searched
                found.is_one = True if not found.left else None
        if found.left:
            choices(found.growth, most_choices, found, progress)
        return found


def is_found(
    found: Found, looking: Search, rivals: list[tuple[Site, list[int]]], progress: Progress, seconds: float
) -> bool:
    """Searches sites one after the other while there is time. Whether a second outcome was found."""
    for at, (site, kinds) in enumerate(rivals, 1):
        if progress.seconds() > seconds:
            return False
        other = looking.first_at(site, kinds)
        found.searched = at
        progress.stage = f"{at} of {len(rivals)} sites searched at which another type could be held"
        if other is not None:
            found.is_one, found.other, found.site, found.name = False, other, site, other[site] or ""
            return True
    return False


def sequences(found: Found) -> Iterator[Growth]:
    """The two sequences of two outcomes."""
    yield found.growth
    if found.other is not None:
        yield found.other
