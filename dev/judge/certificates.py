"""What `certify` and `verify` must answer: certificates of local determinism, from docs/FORMATS.md and docs/MODEL.md.

tools/check-certificate checks them too, and shares nothing with this.
"""
from judge.model import canonical, verdict
from judge.texts import Cause, number_in, read_text, referred, site_in, STEPS, U32

CERTIFICATE = {b"mark": (6, False, (None, b"mark"))}
LETTERS = (b"N", b"E", b"S", b"W")


class Mark:
    """What a certificate states of a site: the type, the input sides, the rank."""

    def __init__(self, kind, sides, rank):
        self.kind, self.sides, self.rank = kind, sides, rank


def sides_in(word):
    """The sides that a word states: letters of NESW in this order."""
    found = {side for side, letter in enumerate(LETTERS) if letter in word}
    if word not in (b"-", sides_word(found)):
        raise Cause("BadName")
    return found


def sides_word(sides):
    return b"".join(LETTERS[it] for it in sorted(sides)) or b"-"


def read_certificate(lines, system):
    """The marks by their sites, in the order of their lines."""
    marks = {}

    def item(words):
        site, kind, sides = site_in(words[1:3]), referred(words[3], system.types), sides_in(words[4])
        rank = number_in(words[5], 0, U32)
        if not system.has(site):
            raise Cause("OutsideBox")
        if site in marks:
            raise Cause("DoubleSite")
        marks[site] = Mark(kind, sides, rank)

    read_text(lines, None, CERTIFICATE, item)
    return marks


def input_sides(system, sequence):
    """For each place of a legal sequence the sides with bonds to earlier ones."""
    tiles, found = {}, []
    for at, (site, kind) in enumerate(sequence):
        facing = system.facing(tiles, *site)
        bonds = [system.between(one, other) for one, other in zip(facing, system.sides[kind])]
        found.append({side for side, bond in enumerate(bonds) if bond} if at >= len(system.seeds) else set())
        tiles[site] = kind
    return found


def mark_line(system, site, mark):
    return b"mark %d %d %s %s %d\n" % (*site, system.name(mark.kind), sides_word(mark.sides), mark.rank)


def certified(system, tiles):
    """The answer to `certify` of tiles that hold the seeds and can grow, and whether it is a certificate."""
    sequence = canonical(system, tiles)
    said = verdict(system, sequence)
    if said != b"yes":
        return b"unique %s\n" % said, False
    rows = zip(sequence, input_sides(system, sequence))
    return (
        b"".join(mark_line(system, site, Mark(kind, sides, rank)) for rank, ((site, kind), sides) in enumerate(rows)),
        True,
    )


class Check:
    """The checks of a certificate, one by one."""

    def __init__(self, system, marks):
        self.system, self.marks, self.tiles = system, marks, {site: mark.kind for site, mark in marks.items()}

    def beside(self, site):
        """The neighbours of a site that have marks, by side."""
        places = ((side, (site[0] + a, site[1] + b)) for side, (a, b) in enumerate(STEPS))
        return {side: self.marks[it] for side, it in places if it in self.marks}

    def fault(self, site):
        """The words of the first check that the mark of a site fails, or None."""
        mark, beside, is_seed = self.marks[site], self.beside(site), site in self.system.seeded
        here = b" %d %d" % site
        if is_seed and mark.sides:
            return b"2" + here
        if not is_seed:
            found = self.of_tile(site, mark, beside)
            if found:
                return found[:1] + here + found[1:]
        return self.open_beside(site)

    def of_tile(self, site, mark, beside):
        """The same of a mark that is no seed's, for the checks 3 to 6: the code, and what is told behind the site."""
        own, facing = self.system.sides[mark.kind], list(self.system.facing(self.tiles, *site))
        bonds = [self.system.between(*it) for it in zip(own, facing)]
        stated = sum(bonds[side] for side in mark.sides)
        if not all(side in beside and bonds[side] > 0 and beside[side].rank < mark.rank for side in mark.sides):
            return b"3"
        if stated != self.system.tau:
            return b"4 %d" % stated
        resting = {side for side, other in beside.items() if (side + 2) % 4 in other.sides}
        for side in range(4):
            if side not in mark.sides and bonds[side] > 0 and side not in resting:
                return b"5 " + LETTERS[side]
        for side in resting:
            facing[side] = -1
        others = [it for it in self.system.attaching(tuple(facing)) if it != mark.kind]
        return b"6 " + self.system.name(others[0]) if others else None

    def open_beside(self, site):
        """The least site beside this one where a type attaches."""
        for b, a in sorted((b, a) for a, b in STEPS):
            x, y = site[0] + a, site[1] + b
            found = (x, y) not in self.tiles and self.system.attaching(self.system.facing(self.tiles, x, y))
            if found:
                return b"7 %d %d %s" % (x, y, self.system.name(found[0]))
        return None

    def verdict(self):
        """What is said of the certificate, without `verified`."""
        for site, kind in self.system.seeds:
            if self.tiles.get(site) != kind:
                return b"no 1 %d %d" % site
        for site in self.marks:
            found = self.fault(site)
            if found:
                return b"no " + found
        return b"yes"


def verified(system, marks):
    return Check(system, marks).verdict()
