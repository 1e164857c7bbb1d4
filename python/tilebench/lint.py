"""What a designer of a tile set rarely means: what is allowed and looks like a slip."""
from __future__ import annotations

import re
from collections.abc import Iterator

from tilebench import edits, program
from tilebench.answers import beyond
from tilebench.conditions import Untaken, bonds_told, breaks_of_tiles, facing_before, untaken, untaken_told
from tilebench.faults import TilebenchError
from tilebench.growth import Growth
from tilebench.lines import listed
from tilebench.system import SIDES, Site, System, by_rows, neighbour, opposite

# how many lines of a kind are told, and how many other strengths of glues are tried
SHOWN, TRIES = 12, 32
# how many pairs of types that take one input are told
MOST_PAIRS = 3
# the names that the compilers give to types: of a machine, of a two-input rule, of a counter
COMPILED = [
    re.compile(it)
    for it in (
        r"(?:t:\d+|[aRL]:\w+:\w+|[rl]:\w+)",
        r"(?:o|[ab]:\d+|q:\w+:\w+)",
        r"(?:t:\d+|(?:ie|cw|cm|ce):[01]|(?:im|iw):[01]{2})",
    )
]


def is_compiled(system: System) -> bool:
    """Whether a compiler made the system: it makes types and glues that a run never needs, and ends patterns on
    purpose."""
    return len(system.types) > 2 and any(all(map(it.fullmatch, system.types)) for it in COMPILED)


def bearers(system: System) -> dict[str, list[set[str]]]:
    """For each glue and side the types that bear it there."""
    found: dict[str, list[set[str]]] = {glue: [set() for _ in range(4)] for glue in system.glues}
    for name, sides in system.types.items():
        for side, glue in enumerate(sides):
            if glue is not None:
                found[glue][side].add(name)
    return found


def glues_told(system: System, is_yes: bool) -> Iterator[str]:
    """Glues that bond with nothing. (Where the verdict is a yes those on one side only mostly end a pattern on
    purpose.)"""
    borne = bearers(system)
    unborne = [it for it, sides in borne.items() if not any(sides)]
    if unborne:
        yield f"no tile bears the glue {listed(unborne)}"
    for glue, sides in borne.items() if not is_yes else ():
        for side in range(4):
            if sides[side] and not any(borne[it][opposite(side)] for it in system.partners(glue)):
                yield (
                    f"glue {glue} stands on the {SIDES[side]} side of {listed(sorted(sides[side]))}, and on no "
                    f"{SIDES[opposite(side)]} side"
                )
    none = [it for it, sides in borne.items() if any(sides) and not system.strongest(it)]
    if none:
        yield f"strength 0, so no bond: {listed(none)}"


def types_told(system: System) -> Iterator[str]:
    """Types that can't attach at all, and types with the same sides."""
    seeds = {it for _, it in system.seeds}
    most = {glue: system.strongest(glue) for glue in system.glues}
    weak = [
        it
        for it, sides in system.types.items()
        if it not in seeds and sum(most[g] for g in sides if g is not None) < system.tau
    ]
    if weak:
        yield (
            f"too weak to attach anywhere, with all four glues together below the temperature {system.tau}: "
            f"{listed(weak)}"
        )
    same: dict[tuple[str | None, ...], list[str]] = {}
    for name, sides in system.types.items():
        same.setdefault(sides, []).append(name)
    yield from (f"the same four sides: {listed(names)}" for names in same.values() if len(names) > 1)


# ---- types that did not come


class Missing:
    """The types that no growth placed, and what is open in the first growth."""

    def __init__(self, growths: list[Growth], names: list[str]):
        self.growth, self.system, self.names = growths[0], growths[0].system, names
        self.open = list(self.growth.grid.open_sites())
        self.untaken: list[Untaken] = untaken(self.growth)

    def facing(self, site: Site) -> tuple[str | None, str | None, str | None, str | None]:
        return self.system.facing_of(self.growth.grid.around(site))

    def cut(self) -> Iterator[str]:
        """The types that would attach outside the box."""
        found: dict[str, Site] = {}
        for site in self.open:
            for kind in () if self.system.in_box(site) else self.system.attaching(self.growth.grid.around(site)):
                found.setdefault(self.system.names[kind], site)
        for name in [it for it in self.names if it in found][:SHOWN]:
            x, y = found[name]
            yield (
                f"{name} would attach at {x} {y}, beyond the box to the {beyond(self.system, found[name])}: is the box "
                f"too small?"
            )

    def nearly(self) -> Iterator[str]:
        """The types that a glue which is theirs alone holds too weakly; where an input is offered that no type takes,
        that is told."""
        nearest: dict[str, tuple[int, Site]] = {}
        taken = {site for it in self.untaken for site in it.sites}
        holders = self.system.holders()
        for site in self.open:
            facing = self.facing(site)
            near = {
                name
                for side, glue in enumerate(facing)
                if glue is not None
                for name, _ in holders.get((side, glue), ())
            }
            for name in near.intersection(self.names) if site not in taken else ():
                pull = sum(self.system.bonds(name, facing))
                if nearest.get(name, (0, site))[0] < pull < self.system.tau:
                    nearest[name] = pull, site
        for name in [it for it in self.names if it in nearest][:SHOWN]:
            pull, site = nearest[name]
            bonds = self.system.bonds(name, self.facing(site))
            glues = [
                str(self.system.types[name][side])
                for side, it in enumerate(bonds)
                if it and is_link(self.system, name, side)
            ]
            if glues:
                yield (
                    f"{name} is nearly held at {site[0]} {site[1]}: "
                    f"{bonds_told(self.system, name, self.facing(site))}, and the temperature is "
                    f"{self.system.tau}; is glue {' or '.join(glues)} too weak?"
                )

    def waiting(self) -> Iterator[str]:
        """The types that can't attach anywhere, with the glue that they wait for in vain."""
        borne = {(side, glue) for sides in self.system.types.values() for side, glue in enumerate(sides)}
        found = reachable(self.system)
        for name in [it for it in self.names if it not in found][:SHOWN]:
            for side, glue in enumerate(self.system.types[name]):
                if glue is not None and not any((opposite(side), it) in borne for it in self.system.partners(glue)):
                    yield (
                        f"{name} can't attach anywhere: its {SIDES[side]} side waits for glue {glue}, and no type "
                        f"bears one that binds to "
                        f"it on its {SIDES[opposite(side)]} side"
                    )

    def without_room(self) -> Iterator[str]:
        """The types that are held nowhere since another tile stands where a link of theirs was to hold them."""
        where: dict[tuple[int, str | None], Site] = {}
        growth, system = self.growth, self.system
        for first in sorted(growth.kinds.index(system.index[name]) for name in growth.placed):
            for side, glue in enumerate(system.types[system.names[growth.kinds[first]]]):
                where.setdefault((side, glue), (growth.xs[first], growth.ys[first]))
        for name in self.names[:SHOWN]:
            for side, glue in enumerate(system.types[name]):
                beside = where.get((opposite(side), glue))
                if glue is None or beside is None or not is_link(system, name, side) or not system.bond(glue, glue):
                    continue
                x, y = neighbour(beside, opposite(side))
                if (x, y) in growth:
                    yield (
                        f"{name} finds no room: at {x} {y}, where its {SIDES[side]} side would bond with "
                        f"{growth[beside]}, stands {growth[x, y]}"
                    )
                break


def is_link(system: System, name: str, side: int) -> bool:
    """Whether the glue on this side of the type has no other bearer there and one across, so that it alone was to hold
    the two."""
    glue = system.types[name][side]
    return [sum(sides[it] == glue for sides in system.types.values()) for it in (side, opposite(side))] == [1, 1]


def reachable(system: System) -> set[str]:
    """The types that the seeds and, one after the other, the types that they hold could hold, wherever they stood."""
    # the strongest bond so far for each side and glue, and for each type all four together
    best: dict[tuple[int, str], int] = {}
    held, found = dict.fromkeys(system.types, 0), {it for _, it in system.seeds}
    borne: dict[tuple[int, str | None], list[str]] = {}
    for name, sides in system.types.items():
        for side, glue in enumerate(sides):
            borne.setdefault((side, glue), []).append(name)
    left = list(found)
    while left:
        for side, glue in enumerate(system.types[left.pop()]):
            for other in system.partners(glue) if glue is not None else ():
                across, strength = (opposite(side), other), system.bond(glue, other)
                more = strength - best.get(across, 0)
                best[across] = max(strength, best.get(across, 0))
                for name in borne.get(across, ()) if more > 0 else ():
                    held[name] += more
                    if held[name] >= system.tau and name not in found:
                        found.add(name)
                        left.append(name)
    return found


def missing_told(growths: list[Growth], names: list[str], mended: list[str]) -> Iterator[str]:
    """The types that no growth placed, and behind them what seems to keep them away: what is offered and taken by no
    type, then what a change of one word mends, and else guesses."""
    many = f" in {len(growths)} growths" if len(growths) > 1 else ""
    yield f"not placed{many}: {listed(names)}"
    missing = Missing(growths, names)
    yield from [untaken_told(it) for it in missing.untaken][:SHOWN]
    if mended:
        yield from mended
        return
    cut = list(missing.cut())
    yield from cut
    nearly = list(missing.nearly())
    yield from nearly
    yield from missing.waiting() if not cut else ()
    yield from missing.without_room() if not cut and not nearly and not missing.untaken else ()


# ---- rivals, and tiles that are held by too much


def rivals_told(growth: Growth, most: int = SHOWN) -> Iterator[str]:
    """Two types for one input, by name, with the input: up to so many pairs, and how many more there are."""
    found = [it for it in breaks_of_tiles(growth) if it.condition == 2]
    for it in found[:most]:
        x, y = it.first_sites(1)[0]
        more = {1: "", 2: " and at 1 site more"}.get(it.count, f" and at {it.count - 1} sites more")
        yield f"{it.name} and {it.other} take one input: {it.bonds} at {x} {y}{more}"
    if len(found) > most > 1:
        yield f"and so do {len(found) - most} more pairs of types"


def with_strength(text: str, names: tuple[str, ...], strength: int) -> str:
    """The system with another strength of one glue, or of a pair of two."""
    word, ways = ("glue", (names,)) if len(names) == 1 else ("pair", (names, names[::-1]))
    found = "|".join(" +".join(map(re.escape, it)) for it in ways)
    return re.sub(rf"(?m)^( *{word} +(?:{found}) +)-?[0-9]+", lambda it: f"{it[1]}{strength}", text)


def weakened(growth: Growth, site: Site) -> Iterator[str]:
    """Weaker glues and pairs of a tile and of those beside it, one at a time, with which the verdict is a yes and no
    type less is placed."""
    system, placed = growth.system, {*growth.placed}
    beside = [growth[it] for it in (site, *(neighbour(site, side) for side in range(4)))]
    near = {glue for name in beside if name is not None for glue in system.types[name] if glue is not None}
    known: list[tuple[tuple[str, ...], int]] = [
        (it, strength) for it, strength in system.pairs.items() if {*it} <= near
    ]
    known += [((glue,), strength) for glue, strength in system.glues.items() if glue in near]
    tries = [(names, less) for names, strength in known for less in range(strength - 1, 0, -1)][:TRIES]
    text = "batch 1\n" + "".join(f"job 0\n{with_strength(system.text, *it)}" for it in tries)
    try:
        out = program.answer(["batch"], text)[1] if tries else b""
    except TilebenchError:
        return
    for (names, strength), answer in zip(tries, out.split(b"job ")[1:]):
        if b"\nunique yes\n" in answer[-200:]:
            other = Growth.read(system, answer.partition(b"\n")[2].partition(b"\ndone ")[0] + b"\n")
            if placed <= {*other.placed}:
                yield (
                    f"with strength {strength} of {'the pair ' if len(names) == 2 else 'glue '}{' '.join(names)} the "
                    f"verdict is a yes"
                )


def weaker(system: System, name: str, bonds: list[int], glue: str | None) -> str | None:
    """With which strength of the glue the tile would be held by just enough, in words, if with one."""
    own = [it for side, it in enumerate(bonds) if it and system.types[name][side] == glue]
    rest = system.tau - sum(bonds) + sum(own)
    return (
        f"with strength {rest // len(own)} of glue {glue} it would be held by just enough"
        if own and rest >= 0 and rest % len(own) == 0
        else None
    )


def overbound_told(growths: list[Growth], is_mended: bool = False) -> Iterator[str]:
    """The tile that a verdict calls held by more than the temperature, with the glues that hold it; and where nothing
    is known that mends it, weaker glues that do."""
    for growth in growths:
        verdict, system = growth.verdict, growth.system
        if verdict is None or verdict.condition != 1 or verdict.site is None:
            continue
        (x, y), name = verdict.site, growth[verdict.site] or ""
        facing = facing_before(growth, verdict.site)
        bonds = system.bonds(name, facing)
        told = (
            f"{name} at {x} {y} is held by more than the temperature {system.tau}: {bonds_told(system, name, facing)}"
        )
        hints = {hint for hint in (weaker(system, name, bonds, it) for it in system.types[name]) if hint}
        exact = [] if is_mended else list(weakened(growth, verdict.site)) or sorted(hints)
        yield told + (f"; {', or '.join(exact)}" if exact else "")
        return


def slips(growths: list[Growth], is_ends: bool = False) -> list[str]:
    """What looks like a slip, in words: the most telling first. `is_ends` tells glues that end a pattern too."""
    first = growths[0]
    system, verdict = first.system, first.verdict
    is_yes = any(it.verdict for it in growths) and not is_ends
    is_one = verdict is not None and verdict.is_one_within
    if is_compiled(system):
        return [] if is_one else [*rivals_told(first, MOST_PAIRS), *overbound_told(growths)]
    placed = {name for growth in growths for name in growth.placed}
    names = [it for it in system.names if it not in placed]
    mended = edits.good_edits(first) if names or not is_one else []
    told = [*glues_told(system, is_yes), *types_told(system)]
    if names:
        told += missing_told(growths, names, mended)
    else:
        told += [untaken_told(it) for it in untaken(first) if it.count > 1 or is_ends][:SHOWN]
    if is_one:
        return told
    is_rival = verdict is not None and verdict.condition == 2
    if is_rival:
        told += rivals_told(first, 1 if mended else MOST_PAIRS)
    told += overbound_told(growths, bool(mended))
    if not mended and not is_rival:
        told += rivals_told(first, MOST_PAIRS)
    return told + (mended if not names else [])
