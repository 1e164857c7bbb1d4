"""Systems, with what attaches where, and growth texts. A site is (x, y), a glue or a type is its index, and -1 no
glue."""
from judge.texts import (
    Cause,
    declared,
    Fault,
    LONGEST_SIDE,
    MOST_GLUES,
    MOST_PAIRS,
    MOST_SEEDS,
    MOST_TYPES,
    number_in,
    read_text,
    referred,
    site_in,
)

SYSTEM = {
    b"tiles": (2, False, ()),
    b"tau": (2, False, (b"tiles",)),
    b"glue": (3, False, (b"tau", b"glue")),
    b"tile": (6, False, (b"tau", b"glue", b"pair", b"tile")),
    b"box": (5, False, (b"tile",)),
    b"seed": (4, False, (b"box",)),
    b"end": (1, False, (b"seed",)),
}
# by the number in the header: version 2 has pairs of unlike glues, and several seeds
SYSTEMS = {1: SYSTEM, 2: {**SYSTEM, b"pair": (4, False, (b"glue", b"pair")), b"seed": (4, False, (b"box", b"seed"))}}


class System:
    """A tile system, with what attaches where."""

    def __init__(self):
        self.tau, self.glues, self.strengths, self.types, self.sides = 0, {}, [], {}, []
        # the strength of each pair of unlike glues, as (the first one named, the other), and for each glue of some pair
        # those that it interacts with
        self.pairs, self.partners = {}, {}
        self.box, self.seeds, self.seeded = None, [], set()
        # for each side the types that bear a glue there, and the types that glues around a site hold
        self.bearers, self.held = None, {}

    def item(self, words):
        """Takes a line of a system text."""
        kind = words[0]
        if kind == b"tau":
            self.tau = number_in(words[1], 1, 1000)
        elif kind == b"glue":
            if len(self.strengths) == MOST_GLUES:
                raise Cause("TooMany")
            declared(words[1], self.glues)
            self.strengths.append(number_in(words[2], 0, 250))
        elif kind == b"pair":
            if len(self.pairs) == MOST_PAIRS:
                raise Cause("TooMany")
            pair = referred(words[1], self.glues), referred(words[2], self.glues)
            strength = number_in(words[3], 0, 250)
            if pair[0] == pair[1] or pair in self.pairs or pair[::-1] in self.pairs:
                raise Cause("DoubleName")
            self.pairs[pair] = strength
            for one, other in (pair, pair[::-1]):
                self.partners.setdefault(one, {})[other] = strength
        elif kind == b"tile":
            if len(self.sides) == MOST_TYPES:
                raise Cause("TooMany")
            declared(words[1], self.types)
            self.sides.append(tuple(-1 if it == b"-" else referred(it, self.glues) for it in words[2:]))
        elif kind == b"box":
            x0, y0, x1, y1 = self.box = (*site_in(words[1:3]), *site_in(words[3:5]))
            if not (0 <= x1 - x0 < LONGEST_SIDE and 0 <= y1 - y0 < LONGEST_SIDE):
                raise Cause("OutOfRange")
        elif kind == b"seed":
            if len(self.seeds) == MOST_SEEDS:
                raise Cause("TooMany")
            seed = site_in(words[1:3]), referred(words[3], self.types)
            if not self.has(seed[0]):
                raise Cause("SeedOutside")
            if seed[0] in self.seeded:
                raise Cause("DoubleSite")
            self.seeds.append(seed)
            self.seeded.add(seed[0])

    def has(self, site):
        x0, y0, x1, y1 = self.box
        return x0 <= site[0] <= x1 and y0 <= site[1] <= y1

    def width(self):
        return self.box[2] - self.box[0] + 1

    def height(self):
        return self.box[3] - self.box[1] + 1

    def name(self, kind):
        """The name of a type."""
        if len(self.names) != len(self.types):
            self.names = list(self.types)
        return self.names[kind]

    names = ()

    def facing(self, tiles, x, y):
        """The glues that face a site, by side."""
        sides, north, east = self.sides, tiles.get((x, y + 1)), tiles.get((x + 1, y))
        south, west = tiles.get((x, y - 1)), tiles.get((x - 1, y))
        return (
            -1 if north is None else sides[north][2],
            -1 if east is None else sides[east][3],
            -1 if south is None else sides[south][0],
            -1 if west is None else sides[west][1],
        )

    def between(self, one, other):
        """The strength with which two sides interact: that of their glue, or that of the pair, or none."""
        if one < 0 or other < 0:
            return 0
        return self.strengths[one] if one == other else self.partners.get(one, {}).get(other, 0)

    def pull(self, facing, kind):
        return sum(self.between(one, other) for one, other in zip(facing, self.sides[kind]))

    def attaching(self, facing):
        """The types that glues around an empty site hold, by index."""
        found = self.held.get(facing)
        if found is None:
            if self.bearers is None:
                self.bearers = [{}, {}, {}, {}]
                for kind, sides in enumerate(self.sides):
                    for bearers, glue in zip(self.bearers, sides):
                        if glue >= 0:
                            bearers.setdefault(glue, []).append(kind)
            pulls = {}
            for bearers, glue in zip(self.bearers, facing):
                for other in (glue, *self.partners.get(glue, ())):
                    for kind in bearers.get(other, ()):
                        pulls[kind] = pulls.get(kind, 0) + self.between(glue, other)
            found = self.held[facing] = sorted(kind for kind, pull in pulls.items() if pull >= self.tau)
        return found

    def spelling(self, version=None):
        """The one spelling, by the oldest version that has the system or by this one."""
        glues, none = list(self.glues), b"-"
        version = version or (1 if len(self.seeds) == 1 and not self.pairs else 2)
        lines = [b"tiles %d" % version, b"tau %d" % self.tau]
        lines += [b"glue %s %d" % it for it in zip(glues, self.strengths)]
        lines += [b"pair %s %s %d" % (glues[one], glues[other], it) for (one, other), it in self.pairs.items()]
        for kind, sides in zip(self.types, self.sides):
            lines.append(b"tile %s %s %s %s %s" % (kind, *(none if it < 0 else glues[it] for it in sides)))
        lines += [b"box %d %d %d %d" % self.box]
        lines += [b"seed %d %d %s" % (*site, self.name(kind)) for site, kind in self.seeds]
        return b"\n".join(lines + [b"end\n"])


def read_system(lines, missing="NoHeader"):
    """The system of a text of either version; where the input ends before its header the cause is the `missing` one."""
    system, header = System(), lines.next()
    if header is None:
        raise Fault(lines.number, missing)
    if header not in ([b"tiles", b"1"], [b"tiles", b"2"]):
        raise Fault(lines.number, "NoHeader")
    read_text(lines, None, SYSTEMS[int(header[1])], system.item, header[0])
    return system


GROWTH = {
    b"place": (4, False, (None, b"place")),
    b"closed": (2, True, (None, b"place")),
    b"unique": (2, True, (None, b"place", b"closed")),
}


def read_places(lines, system, is_grid):
    """The places of a growth text in their order, as (site, type)."""
    places, taken = [], set()

    def item(words):
        if words[0] != b"place":
            return
        site, kind = site_in(words[1:3]), referred(words[3], system.types)
        if not system.has(site):
            raise Cause("OutsideBox")
        if is_grid and site in taken:
            raise Cause("DoubleSite")
        taken.add(site)
        places.append((site, kind))

    read_text(lines, None, GROWTH, item)
    return places
