"""What the lines of answers mean, in words."""
from __future__ import annotations

from tilebench.conditions import attaching_sites, bonds_told, facing_alone, facing_before
from tilebench.growth import Certificate, Growth
from tilebench.system import SIDES, Site, System, neighbour, opposite


def tau_told(system: System) -> str:
    return f"the temperature is {system.tau}"


def beyond(system: System, site: Site) -> str:
    """How far beyond which sides of the box a site lies."""
    x0, y0, x1, y1 = system.box
    found = zip(SIDES, (site[1] - y1, site[0] - x1, y0 - site[1], x0 - site[0]))
    return " and ".join(f"{side} by {far}" for side, far in found if far > 0)


def held_told(growth: Growth, name: str, site: Site) -> str:
    """What a type is held by at an empty site."""
    return bonds_told(growth.system, name, growth.system.facing_of(growth.grid.around(site)))


def closed_told(growth: Growth) -> str:
    """What the `closed` line means."""
    closed, system = growth.closed, growth.system
    if closed is None or closed.site is None or closed.name is None:
        return "nothing attaches any more, inside the box or outside"
    return (
        f"the box cuts the growth off: {closed.name} would attach at {closed.site}, outside it "
        f"({held_told(growth, closed.name, closed.site)}, and {tau_told(system)})"
    )


def verdict_told(growth: Growth) -> str:
    """What the `unique` line means."""
    verdict, system = growth.verdict, growth.system
    if verdict is None or verdict.site is None:
        return "nothing else can grow"
    site, name = verdict.site, growth[verdict.site]
    if verdict.condition == 1 and name:
        bonds = bonds_told(system, name, facing_before(growth, site))
        return (
            f"{name} at {site} is held by {bonds}, and {tau_told(system)}: it has more bonds than it needs, and may "
            f"come in "
            "more than one way. That refutes nothing: tools/outcomes looks for another outcome"
        )
    if verdict.condition == 2 and name and verdict.name:
        bonds = bonds_told(system, verdict.name, facing_alone(growth, site))
        return (
            f"{verdict.name} could come at {site} in place of {name}, once that and the neighbours that rest on it "
            f"are away: "
            f"{bonds}, and {tau_told(system)}"
        )
    outside, held = beyond(system, site), f"({held_told(growth, verdict.name or '', site)}, and {tau_told(system)})"
    if outside and not any(map(system.in_box, attaching_sites(growth))):
        return (
            f"growing within the box, nothing else can grow; {verdict.name} still attaches at {site}, outside, to the "
            f"{outside} {held}"
        )
    more = (
        f"; that is outside the box, to the {outside}, and all tiles that stand meet the other two conditions"
        if outside
        else ""
    )
    return f"{verdict.name} still attaches at {site} {held}{more}"


def legal_told(growth: Growth, words: list[str]) -> str | None:
    """What a `legal` line means, of the sequence that was judged."""
    if words[1] == "yes":
        return None
    if words[2] == "1":
        return "the sequence does not begin with the seeds, in the order of their lines"
    at = int(words[3])
    site, name = (growth.xs[at], growth.ys[at]), growth.system.names[growth.kinds[at]]
    if words[2] == "2":
        return f"{name} comes at {site}, where an earlier tile stands"
    before = Growth.of(growth.system, list(growth)[:at])
    return f"{name} at {site} is held by {held_told(before, name, site)}, and {tau_told(growth.system)}"


def stuck_told(growth: Growth, words: list[str]) -> str:
    """What a `stuck` line means, of the grid that was handed in."""
    site = int(words[2]), int(words[3])
    if words[1] == "seed":
        return f"the seed at {site} is missing"
    return (
        f"{words[1]} tiles can't be reached from the seeds; {growth[site] or 'the empty site'} at {site} is the first "
        f"of them"
    )


# ---- certificates


def rank_told(marks: Certificate, site: Site, stated: list[int], bonds: list[int]) -> str:
    """Which stated sides have no bond, or a neighbour of no lesser rank."""
    told, own = [], marks.ranks[marks.turn(site)]
    for side in stated:
        turn = marks.turn(neighbour(site, side))
        if not bonds[side]:
            told.append(f"on its {SIDES[side]} side {'no bond' if turn >= 0 else 'no tile'}")
        elif marks.ranks[turn] >= own:
            told.append(f"on its {SIDES[side]} side a tile of rank {marks.ranks[turn]}, and its own is {own}")
    return "; ".join(told)


def verified_told(marks: Certificate, words: list[str]) -> str:
    """What a `verified` line means, of the certificate that was checked."""
    if words[1] == "yes":
        return "the certificate is good: nothing else can grow than the tiles that it lists"
    system, code, site = marks.system, words[2], (int(words[3]), int(words[4]))
    name, tau = marks[site], tau_told(system)
    facing = system.facing_of(marks.grid.around(site))
    bonds = system.bonds(name, facing) if name else [0] * 4
    letters = marks.sides[marks.turn(site)] if name else ""
    stated = [side for side in range(4) if SIDES[side][0].upper() in letters]
    if code == "1":
        return f"the seed at {site} has no mark with its type" + (f"; the mark there has {name}" if name else "")
    if code == "2":
        return f"{name} at {site} is a seed, which comes by no side, and its mark states {letters}"
    if code == "3":
        return f"{name} at {site} has {rank_told(marks, site, stated, bonds)}"
    if code == "4":
        told = " + ".join(f"{SIDES[side]} {bonds[side]}" for side in stated) or "no side"
        return f"the sides that {name} at {site} states bond with {told} = {words[5]}, and {tau}"
    if code == "5":
        side = "NESW".index(words[5])
        return (
            f"{name} at {site} has a bond of {bonds[side]} on its {SIDES[side]} side, which neither it states nor "
            f"{marks[neighbour(site, side)]} beside it"
        )
    return rival_told(marks, code, site, words[5])


def rival_told(marks: Certificate, code: str, site: Site, other: str) -> str:
    """What the codes 6 and 7 mean: another type, or one at a site without a mark."""
    system, tau, left = marks.system, tau_told(marks.system), list(marks.system.facing_of(marks.grid.around(site)))
    for side in range(4):
        turn = marks.turn(neighbour(site, side))
        if code == "6" and turn >= 0 and SIDES[opposite(side)][0].upper() in marks.sides[turn]:
            left[side] = None
    held = bonds_told(system, other, (left[0], left[1], left[2], left[3]))
    if code == "6":
        return (
            f"{other} could come at {site} in place of {marks[site]}, once that and the neighbours that rest on it "
            f"are away: "
            f"{held}, and {tau}"
        )
    outside = beyond(system, site)
    return f"{other} attaches at {site}, which has no mark ({held}, and {tau})" + (
        f"; that is outside the box, to the {outside}" if outside else ""
    )


def refused_told(system: System, growth: Growth, event: list[str], words: list[str]) -> str:
    """What a `refused` line of a schedule means, by its event and what stands after all of them."""
    code = words[1]
    if code == "1":
        return f"scout {event[1]} does not live" + (
            f", or scout {event[2]} does not, or the two are one" if event[0] == "join" else ""
        )
    if code == "3":
        return (
            f"{int(event[2]), int(event[3])} is outside the box: its corners are {system.box[:2]} and {system.box[2:]}"
        )
    if code == "4":
        return f"scout {event[1]} has one number alone, and none to give away"
    site = int(event[2]), int(event[3])
    return (
        f"{event[4]} at {site} would be held with {words[2]} by the tiles that scout {event[1]} has seen, and "
        f"{tau_told(system)}; "
        f"the tiles that stand there after all events hold it by {held_told(growth, event[4], site)}: let the scout "
        f"look at them first"
    )
