"""One box wider: what comes of a growth that its box cuts off, and whether it repeats itself."""
from __future__ import annotations

from tilebench import calls
from tilebench.answers import beyond
from tilebench.conditions import attaching_sites
from tilebench.faults import TilebenchError
from tilebench.growth import Growth
from tilebench.system import LONGEST_SIDE, SIDES, Site, System

Box = tuple[int, int, int, int]
# up to how many sites a box may have to be tried
MOST_SITES = 1 << 18


def cut_sides(growth: Growth) -> set[int]:
    """The sides of the box beyond which something attaches."""
    system = growth.system
    told = [beyond(system, site) for site in attaching_sites(growth) if not system.in_box(site)]
    return {side for side in range(4) if any(SIDES[side] in it for it in told)}


def widened(system: System, sides: set[int]) -> System | None:
    """The system with a box that is twice as large to these sides; None where that is too large to be tried."""
    x0, y0, x1, y1 = system.box
    wide, high = x1 - x0 + 1, y1 - y0 + 1
    box = x0 - wide * (3 in sides), y0 - high * (2 in sides), x1 + wide * (1 in sides), y1 + high * (0 in sides)
    wide, high = box[2] - box[0] + 1, box[3] - box[1] + 1
    if max(wide, high) > LONGEST_SIDE or wide * high > MOST_SITES:
        return None
    found = system.copy()
    try:
        found.box = box
    except TilebenchError:
        return None
    return found


def missing_room(box: Box, growth: Growth) -> str:
    """How far a growth goes beyond which sides of a smaller box."""
    x0, y0, x1, y1 = box
    far = max(growth.ys) - y1, max(growth.xs) - x1, y0 - min(growth.ys), x0 - min(growth.xs)
    return " and ".join(f"to the {side} by {it}" for side, it in zip(SIDES, far) if it > 0)


def wider_told(growth: Growth) -> str:
    """What is to be done where the box cuts a growth off, by what a wider box brings."""
    closed, system = growth.closed, growth.system
    if closed is None or closed.site is None:
        return ""
    sides = cut_sides(growth)
    larger = widened(system, sides)
    if larger is None:
        return f"Widen the box to the {beyond(system, closed.site)} or more, or add tiles that end the growth there"
    further = calls.grow(larger)
    if further.closed is None or further.closed.site is None:
        said = "a yes" if further.verdict else f"a no: {further.verdict.words if further.verdict is not None else ''}"
        return f"Widen the box {missing_room(system.box, further)}: then nothing is cut off, and the verdict is {said}"
    told = f"A box twice as large to the {' and '.join(SIDES[it] for it in sorted(sides))}"
    again = [site for site in attaching_sites(further) if any(SIDES[it] in beyond(larger, site) for it in sides)]
    if not again:
        return f"{told} cuts it off to the {beyond(larger, further.closed.site)} instead: widen it there too"
    told += f" cuts it off again, at {again[0]}"
    repeats = repeats_told(further, closed.site, beyond(system, closed.site))
    if repeats:
        return (
            f"{told}: {repeats}. So no box ends it. If it is to end, a tile for that is missing, or one of those that "
            f"repeat is not as it is meant"
        )
    return f"{told}: widen it further, or add tiles that end the growth"


# ---- what repeats itself


def line_along(growth: Growth, at: int, is_upward: bool) -> list[int]:
    """The indices of the types in a column from the south, or in a row from the west."""
    grid = growth.grid
    if is_upward:
        return [*grid.cells[at - grid.west :: grid.wide]][1:-1]
    return [*grid.row(at)]


def period_of(line: list[int]) -> tuple[int, int] | None:
    """The shortest period with which a line ends, three times at least and over its half, and where that begins; or
    None."""
    size = len(line)
    for period in range(1, size // 3 + 1):
        at = size - period
        while at > 0 and line[at - 1] == line[at - 1 + period]:
            at -= 1
        if at <= min(size // 2, size - 3 * period):
            return period, at
    return None


def repeats_told(growth: Growth, site: Site, beyond_side: str) -> str:
    """From which row (or column) on a growth repeats what it had, along the line of a site and on that side of it; or
    nothing."""
    side = next(it for it in range(4) if beyond_side.startswith(SIDES[it]))
    x0, y0, x1, y1 = growth.system.box
    is_upward = side % 2 == 0
    across, first, last = (site[0], x0, x1) if is_upward else (site[1], y0, y1)
    found: dict[int, tuple[int, int]] = {}
    for step in (1, -1):
        at = across if step == 1 else across - 1
        while first <= at <= last:
            line = line_along(growth, at, is_upward)
            own = period_of(line[::-1] if side in (2, 3) else line)
            if own is None or found and own[0] == 1:
                break
            found[at] = own
            at += step
        if across not in found:
            return ""
    period, start = max(it[0] for it in found.values()), max(it[1] for it in found.values())
    low, high = (y0, y1) if is_upward else (x0, x1)
    begin, sign = (high - start, -1) if side in (2, 3) else (low + start, 1)
    along, beside = ("row", "column") if is_upward else ("column", "row")
    lines = f"{beside} {min(found)}" if len(found) == 1 else f"{beside}s {min(found)} to {max(found)}"
    if period == 1:
        kind = growth.grid.at((across, begin) if is_upward else (begin, across))
        return f"from {along} {begin} on {lines} has {growth.system.names[kind]} alone"
    return (
        f"from {along} {begin} on {lines} repeat{'s' if len(found) == 1 else ''}: {along} {begin + sign * period} is "
        f"as {along} {begin}"
    )
