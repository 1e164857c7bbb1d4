"""What grows from a system and what is to be said of it, from docs/MODEL.md."""
import heapq

from judge.texts import SIGNS, STEPS, TooLarge


def full_growth(system, most):
    """Some assembly that grows from the seeds and is closed in the box."""
    tiles = dict(system.seeds)
    left = list(tiles)
    while left:
        x, y = left.pop()
        for site in ((x, y + 1), (x + 1, y), (x, y - 1), (x - 1, y)):
            if site not in tiles and system.has(site):
                found = system.attaching(system.facing(tiles, *site))
                if found:
                    tiles[site] = found[0]
                    left.append(site)
                    if len(tiles) > most:
                        raise TooLarge
    return tiles


def canonical(system, tiles):
    """The canonical sequence of tiles that hold the seeds."""
    listed, order, ready = dict(system.seeds), list(system.seeds), []
    waiting = set(tiles) - set(listed)

    def look_beside(x, y):
        for site in ((x, y + 1), (x + 1, y), (x, y - 1), (x - 1, y)):
            if site in waiting and system.pull(system.facing(listed, *site), tiles[site]) >= system.tau:
                waiting.discard(site)
                heapq.heappush(ready, (site[1], site[0]))

    for site, _ in system.seeds:
        look_beside(*site)
    while ready:
        y, x = heapq.heappop(ready)
        listed[x, y] = tiles[x, y]
        order.append(((x, y), tiles[x, y]))
        look_beside(x, y)
    return order


def least_open(system, tiles, is_outside):
    """The least site at which a type attaches (of the plane, or of what is outside the box) with the first such
    type."""
    beside = {(y + b, x + a) for x, y in tiles for a, b in STEPS}
    for y, x in sorted(beside):
        if (x, y) not in tiles and not (is_outside and system.has((x, y))):
            found = system.attaching(system.facing(tiles, x, y))
            if found:
                return (x, y), found[0]
    return None


def is_closed_in_box(system, tiles):
    beside = {(x + a, y + b) for x, y in tiles for a, b in STEPS}
    return not any(it not in tiles and system.has(it) and system.attaching(system.facing(tiles, *it)) for it in beside)


def verdict(system, sequence):
    """The line of the verdict on a legal sequence, without `unique`."""
    tiles, index = dict(sequence), {site: at for at, (site, _) in enumerate(sequence)}
    rival = None
    for at, ((x, y), kind) in enumerate(sequence):
        if at < len(system.seeds):
            continue
        facing, own, held = list(system.facing(tiles, x, y)), system.sides[kind], 0
        for side, (a, b) in enumerate(STEPS):
            bond = system.between(facing[side], own[side])
            if bond:
                if index[x + a, y + b] < at:
                    held += bond
                else:
                    # (that neighbour has an input side here: it is an output neighbour)
                    facing[side] = -1
        if held != system.tau:
            return b"no 1 %d %d %d" % (x, y, held)
        if rival is None:
            others = [it for it in system.attaching(tuple(facing)) if it != kind]
            if others:
                rival = b"no 2 %d %d %s" % (x, y, system.name(others[0]))
    if rival is not None:
        return rival
    found = least_open(system, tiles, False)
    return b"yes" if found is None else b"no 3 %d %d %s" % (*found[0], system.name(found[1]))


def places_text(system, sequence):
    return b"".join([b"place %d %d %s\n" % (x, y, system.name(kind)) for (x, y), kind in sequence])


def growth_text(system, tiles):
    """What `grow` prints of an assembly that is closed in the box, and the verdict."""
    sequence = canonical(system, tiles)
    said, found = verdict(system, sequence), least_open(system, tiles, True)
    closed = b"terminal" if found is None else b"clipped %d %d %s" % (*found[0], system.name(found[1]))
    return places_text(system, sequence) + b"closed %s\nunique %s\n" % (closed, said), said


def breach(system, sequence):
    """The first place that breaks legality, as the `legal no` line tells it, or None."""
    seeds = len(system.seeds)
    if sequence[:seeds] != system.seeds:
        return b"1"
    tiles = {}
    for at, (site, kind) in enumerate(sequence):
        if site in tiles:
            return b"2 %d" % at
        pull = system.pull(system.facing(tiles, *site), kind)
        if at >= seeds and pull < system.tau:
            return b"3 %d %d" % (at, pull)
        tiles[site] = kind
    return None


def picture_text(system, tiles):
    x0, y0, x1, y1 = system.box
    lines = [b"picture %d %d" % (system.width(), system.height())]
    lines += [b"%c %s" % (SIGNS[it], system.name(it)) for it in sorted(set(tiles.values())) if it < len(SIGNS)]
    for y in range(y1, y0 - 1, -1):
        kinds = [tiles.get((x, y)) for x in range(x0, x1 + 1)]
        lines.append(bytes(46 if it is None else SIGNS[it] if it < len(SIGNS) else 35 for it in kinds))
    return b"\n".join(lines) + b"\n"
