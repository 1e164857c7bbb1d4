"""Where a growth breaks local determinism: all sites of each condition, grouped by the pair of types.

1: a tile is held by more than the temperature as it attaches. 2: another type attaches at its site once the tile and
the neighbours that rest on it are away. 3: a type attaches at a site that is empty. Beside that, the open sites that
are offered enough, and that no type takes.
"""
from __future__ import annotations

from array import array
from collections.abc import Iterator
from dataclasses import dataclass, field
from itertools import islice

from tilebench.alike import Alike, Cells
from tilebench.grid import Grid
from tilebench.growth import Growth
from tilebench.system import SIDES, Sides, Site, System


@dataclass
class Break:
    """Sites at which one condition fails for one pair of types: the `name` of the tile there (None at an empty site),
    the `other` type that attaches there (None at condition 1), the sum of the bonds, and these in words, at the first
    site. `count` is how many sites there are; `cells` has their numbers in the `grid`."""

    condition: int
    name: str | None
    other: str | None
    pull: int
    bonds: str
    grid: Grid = field(repr=False)
    cells: array[int] | Cells = field(repr=False)

    @property
    def count(self) -> int:
        return len(self.cells)

    @property
    def sites(self) -> list[Site]:
        """All sites, by y, then x."""
        return [self.grid.site(it) for it in self.cells]

    def first_sites(self, most: int) -> list[Site]:
        """The first of them."""
        return [self.grid.site(it) for it in islice(self.cells, min(most, self.count))]


@dataclass
class Untaken:
    """Open sites that glues offer the temperature or more, and at which no type attaches: what faces them, and in
    words."""

    facing: Sides
    pull: int
    offer: str
    sites: list[Site] = field(default_factory=list)

    @property
    def count(self) -> int:
        """From how many sides something is offered."""
        return sum(it is not None for it in self.facing)


def bonds_told(system: System, name: str, facing: Sides) -> str:
    """The bonds of a type with the glues around it in words, with their sum."""
    bonds, told = system.bonds(name, facing), []
    for side, strength in enumerate(bonds):
        own = system.types[name][side]
        if strength:
            told.append(f"{SIDES[side]} {own}{'' if own == facing[side] else f' with {facing[side]}'} {strength}")
    return f"{' + '.join(told)} = {sum(bonds)}" if told else "no bond"


def facing_without(growth: Growth, site: Site, away: set[int]) -> Sides:
    """The glues that face a site, without those of some sides."""
    around = [-1 if side in away else it for side, it in enumerate(growth.grid.around(site))]
    return growth.system.facing_of((around[0], around[1], around[2], around[3]))


def later_sides(growth: Growth, site: Site) -> set[int]:
    """The sides at which a tile stands that came later, or none."""
    turn, (x, y) = growth.turn(site), site
    return {
        side
        for side, (a, b) in enumerate(((0, 1), (1, 0), (0, -1), (-1, 0)))
        if not 0 <= growth.turn((x + a, y + b)) < turn
    }


def facing_before(growth: Growth, site: Site) -> Sides:
    """The glues that faced a tile as it attached."""
    return facing_without(growth, site, later_sides(growth, site))


def facing_alone(growth: Growth, site: Site) -> Sides:
    """The glues that face a tile's site once the tile and the neighbours that came later and rest on it are away."""
    facing = growth.system.facing_of(growth.grid.around(site))
    bonds = growth.system.bonds(growth[site] or "", facing)
    return facing_without(growth, site, {side for side in later_sides(growth, site) if bonds[side]})


def broken_at(growth: Growth, cell: int) -> Iterator[tuple[int, str | None, Sides]]:
    """What the tile at a cell breaks of the first two conditions: the condition, the other type that attaches there
    (None at the first one), and the glues that hold the tile, or the other type."""
    grid, system, order = growth.grid, growth.system, growth.order
    earlier = [order[cell + step] < order[cell] for step in grid.steps]
    name, facing = system.names[grid.cells[cell]], system.facing_of(grid.around(grid.site(cell)))
    bonds = system.bonds(name, facing)
    if sum(it for it, is_earlier in zip(bonds, earlier) if is_earlier) != system.tau:
        before = [it if is_earlier else None for it, is_earlier in zip(facing, earlier)]
        yield 1, None, (before[0], before[1], before[2], before[3])
    left = [it if is_earlier or not bond else None for it, is_earlier, bond in zip(facing, earlier, bonds)]
    alone = left[0], left[1], left[2], left[3]
    for other in system.held_by(alone):
        if other != name:
            yield 2, other, alone


def breaks_of_tiles(growth: Growth) -> list[Break]:
    """All tiles that break one of the first two conditions: what stands at most sites first."""
    grid, system = growth.grid, growth.system
    found: dict[tuple[int, str, str | None], tuple[Sides, set[int]]] = {}
    alike = Alike(grid, growth.order, (grid.number(site) for site, _ in system.seeds))
    for group, cell in alike.firsts.items():
        kind = grid.cells[cell]
        for condition, other, facing in broken_at(growth, cell) if kind >= 0 and alike.counts[group] else ():
            found.setdefault((condition, system.names[kind], other), (facing, set()))[1].add(group)
    told = []
    for (condition, name, other), (facing, groups) in found.items():
        held = other or name
        pull, bonds = sum(system.bonds(held, facing)), bonds_told(system, held, facing)
        told.append(Break(condition, name, other, pull, bonds, grid, Cells(alike, groups)))
    return sorted(told, key=lambda it: (it.condition, -it.count))


def attaching_sites(growth: Growth) -> Iterator[Site]:
    """The empty sites at which a type attaches, by y, then x; those just outside the box too."""
    return (site for site in growth.grid.open_sites() if growth.system.attaching(growth.grid.around(site)))


def breaks_of_sites(growth: Growth) -> list[Break]:
    """All empty sites at which a type attaches, which breaks the third condition: what attaches at most sites first."""
    system, grid = growth.system, growth.grid
    found: dict[str, tuple[Sides, array[int]]] = {}
    for site in attaching_sites(growth):
        facing = system.facing_of(grid.around(site))
        for other in system.held_by(facing):
            found.setdefault(other, (facing, array("i")))[1].append(grid.number(site))
    told = []
    for other, (facing, cells) in found.items():
        told.append(
            Break(3, None, other, sum(system.bonds(other, facing)), bonds_told(system, other, facing), grid, cells)
        )
    return sorted(told, key=lambda it: -it.count)


def breaks(growth: Growth) -> list[Break]:
    """All that breaks a condition, the first condition first."""
    return breaks_of_tiles(growth) + breaks_of_sites(growth)


def offer_of(system: System, facing: Sides) -> tuple[int, str]:
    """What glues offer an empty site at most, and in words."""
    told = [
        (SIDES[side], glue, system.strongest(glue))
        for side, glue in enumerate(facing)
        if glue is not None and system.strongest(glue)
    ]
    pull = sum(strength for _, _, strength in told)
    return pull, f"{' + '.join(f'{side} {glue} {strength}' for side, glue, strength in told)} = {pull}"


def untaken(growth: Growth) -> list[Untaken]:
    """The open sites in the box that are offered the temperature or more and that no type takes, by what they are
    offered: those that are offered it from most sides first."""
    system = growth.system
    found: dict[Sides, Untaken] = {}
    for site in growth.grid.open_sites():
        around = growth.grid.around(site)
        if not system.in_box(site) or system.attaching(around):
            continue
        facing = system.facing_of(around)
        offering = [it if it is not None and system.strongest(it) else None for it in facing]
        pull, offer = offer_of(system, facing)
        if pull >= system.tau:
            key = offering[0], offering[1], offering[2], offering[3]
            found.setdefault(key, Untaken(key, pull, offer)).sites.append(site)
    return sorted(found.values(), key=lambda it: (-it.count, it.sites[0][::-1]))


def untaken_told(it: Untaken) -> str:
    """One offer that no type takes, in words."""
    takes = {1: "takes it", 2: "takes both"}.get(it.count, f"takes all {it.count}")
    more = f" (so at {len(it.sites)} sites)" if len(it.sites) > 1 else ""
    return f"{it.sites[0]}: {it.offer}, no type {takes}{more}"
