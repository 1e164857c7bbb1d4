"""Random texts for tilebench: whole ones of every kind, the words to ask with, and edits that break them.

Everything comes from one random number generator, so the same seed makes the same texts.
"""
import judge
from judge import certificates

KEYWORDS = b"tiles tau glue pair tile box seed end place closed unique look claim split join machine state symbol rule cells rows head tape".split()
KEYWORDS += b"quadrant size bottom left frame grown mark batch job done".split()
NUMBERS = [b"%d" % it for it in (-1000001, -1000000, -1, 0, 1, 2, 15, 16, 17, 63, 64, 250, 251, 255, 512, 513, 1000, 1001, 1023, 1024, 1025)]
NUMBERS += [b"%d" % it for it in (1000000, 1000001, 2**31, 2**32 - 1, 2**32, 2**63, 2**64 - 1, 9999999999, 10000000000)]
WORDS = NUMBERS + KEYWORDS + [b"-0", b"-", b"--1", b"-01", b"007", b"0000000001", b"00000000001", b"+1", b"1.5", b"1e3", b"0x1", b"#", b"#x"]
WORDS += [b"a" * 8, b"a" * 9, b"a" * 40, b"a" * 41, b"A", b"t:0", b"a:b.c_9", b"\xc3\xa9", b"\xff", b"x\ty", b"x\r", b"x\x00", b"*", b"null", b"L", b"R", b"S"]
BYTES = b"\x00\t\r\n\n\n   #--019aZ:._\x7f\x80\xff"
FAR = judge.FARTHEST


def name(rng, most=40):
    """A name that no other need have."""
    if most == 8:
        return b"%c%d" % (rng.choice(b"qQsXaB_9"), rng.randrange(1000))
    if rng.random() < 0.01:
        return bytes(rng.choices(b"ABCXYZabcxyz0189_:.", k=rng.choice((1, 2, 39, 40))))
    return b"%c%d" % (rng.choice(b"gtABz_.:0"), rng.randrange(100000))


def names(rng, many, most=40):
    found = {}
    while len(found) < many:
        found[name(rng, most)] = None
    return list(found)


def box_around(rng, width, height):
    """The lower left corner of a box."""
    if rng.random() < 0.85:
        return rng.randrange(-9, 4), rng.randrange(-9, 4)
    return rng.choice((-FAR, FAR - width + 1)), rng.choice((-FAR, 0, FAR - height + 1))


def system_lines(tau, glues, tiles, box, seed):
    lines = [b"tiles 1", b"tau %d" % tau] + [b"glue %s %d" % it for it in glues]
    lines += [b"tile %s %s %s %s %s" % it for it in tiles]
    return lines + [b"box %d %d %d %d" % box, b"seed %d %d %s" % seed, b"end"]


# ---- systems


def system_of(rng, tau, glues, sides, kinds, lengths):
    """A system of these kinds, each with any of these sides, in a box with sides of these lengths."""
    tiles = [(it, *rng.choices(sides, k=4)) for it in kinds]
    width, height = rng.choice(lengths), rng.choice(lengths)
    x, y = box_around(rng, width, height)
    seed = rng.randrange(x, x + width), rng.randrange(y, y + height), rng.choice(kinds)
    return system_lines(tau, glues, tiles, (x, y, x + width - 1, y + height - 1), seed)


def loose_system(rng, side=9):
    """A few glues on a few tiles, without a plan: rivals, mismatches, bonds that are too strong or too weak."""
    tau = rng.choice((1, 1, 2, 2, 2, 3, 4, 7, 250, 1000)) if rng.random() < 0.5 else 2
    glues = [(it, rng.choice((0, 1, 1, 1, 2, 2, 3, tau % 251, 250))) for it in names(rng, rng.randrange(0, 6))]
    sides = [it for it, _ in glues] + [b"-"] * rng.randrange(1, 4)
    kinds = names(rng, rng.randrange(1, 9))
    return system_of(rng, tau, glues, sides, kinds, range(1, side))


def shape(rng, many, width, height):
    """Some sites of a box that hang together, each behind the first with the side on which it was come to."""
    site = rng.randrange(width), rng.randrange(height)
    found, left = {site: None}, [(site, it) for it in range(4)]
    while left and len(found) < many:
        at = rng.randrange(len(left))
        left[at], left[-1] = left[-1], left[at]
        (x, y), side = left.pop()
        a, b = judge.STEPS[side]
        new = x + a, y + b
        if new not in found and 0 <= new[0] < width and 0 <= new[1] < height:
            found[new] = side
            left += [(new, it) for it in range(4)]
    return found


def shaped_system(rng, side=9):
    """A tile for each site of a shape, held by a glue of its own; sometimes with a slip."""
    width, height = rng.randrange(1, side), rng.randrange(1, side)
    many = rng.choice((2, 4, 8, 16, 80, width * height))
    sites = shape(rng, many, width, height)
    tau = rng.choice((1, 2, 2, 3, 250))
    kinds = {site: [it, b"-", b"-", b"-", b"-"] for site, it in zip(sites, names(rng, len(sites)))}
    glues = []
    for (site, side_of), glue in zip(sites.items(), names(rng, len(sites))):
        if side_of is not None:
            a, b = judge.STEPS[side_of]
            kinds[site][1 + (side_of + 2) % 4] = kinds[site[0] - a, site[1] - b][1 + side_of] = glue
            glues.append([glue, tau])
    tiles = list(kinds.values())
    slip = rng.random()
    if slip < 0.15 and glues:
        rng.choice(glues)[1] = rng.choice((0, tau - 1, min(250, tau + 1)))
    elif slip < 0.3:
        tiles.append([b"rival", *rng.choice(tiles)[1:]])
    elif slip < 0.4 and len(tiles) > 1:
        rng.choice(tiles)[rng.randrange(1, 5)] = rng.choice(rng.choice(tiles)[1:])
    if rng.random() < 0.3:
        rng.shuffle(tiles)
    (x, y), dx, dy = next(iter(sites)), *box_around(rng, width, height)
    seed = (x + dx, y + dy, kinds[x, y][0])
    return system_lines(tau, [tuple(it) for it in glues], [tuple(it) for it in tiles], (dx, dy, dx + width - 1, dy + height - 1), seed)


XOR = b"""glue 0 1;glue 1 1;glue h 2;glue v 2;tile S v h - -;tile B 1 h - h;tile L v 1 v -
tile r00 0 0 0 0;tile r01 1 1 1 0;tile r10 1 1 0 1;tile r11 0 0 1 1""".replace(b"\n", b";").split(b";")


def exclusive_or_system(rng, side=9):
    """Tiles that are held by two sides each: the exclusive or, whose growth the box cuts off, with or without a slip."""
    lines = list(XOR)
    if rng.random() < 0.3:
        del lines[rng.randrange(4, len(lines))]
    if rng.random() < 0.2:
        lines.append(b"tile more " + b" ".join(rng.choices((b"0", b"1", b"h", b"v", b"-"), k=4)))
    width, height = rng.randrange(1, side), rng.randrange(1, side)
    kind = rng.choice([it.split()[1] for it in lines if it.startswith(b"tile ")])
    seed = (0, 0, kind if rng.random() < 0.2 else b"S")
    if b"tile S v h - -" not in lines:
        seed = (0, 0, kind)
    return [b"tiles 1", b"tau 2", *lines, b"box 0 0 %d %d" % (width - 1, height - 1), b"seed %d %d %s" % seed, b"end"]


def rivals_system(rng, side=24):
    """Tiles that fill a box from all sides by few glues, so that several workers meet, and mostly more than one fits."""
    tau = rng.choice((1, 1, 2))
    glues = [(it, rng.choice((1, tau, tau, 2))) for it in names(rng, rng.randrange(1, 4))]
    sides = [it for it, _ in glues] * 3 + [b"-"]
    kinds = names(rng, rng.randrange(2, 12))
    return system_of(rng, tau, glues, sides, kinds, range(2, side))


def counter_system(rng, side=9):
    bits = rng.randrange(2, max(3, side - 1))
    text = judge.counter_text(bits, 2**bits - 1 - rng.randrange(min(2**bits, side)))
    return text.split(b"\n")[:-1]


def machine_lines(rng, side=9):
    """A machine text."""
    states, symbols = names(rng, rng.randrange(1, 5), 8), names(rng, rng.randrange(1, 5), 8)
    rules = []
    for state in states:
        for symbol in symbols:
            if rng.random() < 0.75:
                rules.append(b"rule %s %s %s %s %c" % (state, symbol, rng.choice(states), rng.choice(symbols), rng.choice(b"LRRS")))
    rng.shuffle(rules)
    cells = rng.randrange(1, side)
    lines = [b"machine 1"] + [b"state %s" % it for it in states] + [b"symbol %s" % it for it in symbols] + rules
    lines += [b"cells %d" % cells, b"rows %d" % rng.randrange(1, side), b"head %d" % rng.randrange(cells)]
    tape = rng.choices(symbols, k=rng.randrange(cells + 1))
    while tape:
        cut = rng.randrange(1, len(tape) + 1)
        lines.append(b"tape " + b" ".join(tape[:cut]))
        tape = tape[cut:]
    return lines + [b"end"]


def rule_lines(rng, side=9):
    """The text of a two-input rule, which may lack some pairs."""
    symbols, share = names(rng, rng.randrange(1, 6), 8), rng.choice((0.5, 0.9, 1))
    pairs = [(west, south) for west in symbols for south in symbols if rng.random() < share]
    rng.shuffle(pairs)
    lines = [b"quadrant 1"] + [b"symbol %s" % it for it in symbols]
    lines += [b"rule %s %s %s %s" % (*it, rng.choice(symbols), rng.choice(symbols)) for it in pairs]
    size = rng.randrange(1, side), rng.randrange(1, side)
    lines.append(b"size %d %d" % size)
    for border, most in zip((b"bottom ", b"left "), size):
        given = rng.choices(symbols, k=rng.randrange(most + 1))
        while given:
            cut = rng.randrange(1, len(given) + 1)
            lines.append(border + b" ".join(given[:cut]))
            given = given[cut:]
    return lines + [b"end"]


def rule_system(rng, side=9):
    return judge.read_quadrant(judge.Lines(joined(rule_lines(rng, side)))).system().split(b"\n")[:-1]


def machine_system(rng, side=9):
    return judge.read_machine(judge.Lines(joined(machine_lines(rng, side)))).system().split(b"\n")[:-1]


def batch_lines(rng, side=7):
    """A few systems of all kinds, each a job."""
    lines = [b"batch 1"]
    for _ in range(rng.choice((1, 1, 2, 3, 5, 12))):
        lines.append(b"job %d" % rng.choice((0, 0, 1, 7, rng.randrange(2**32), judge.U32)))
        lines += random_system(rng, side)[1]
    way = rng.random()
    if way < 0.04:
        lines = lines[: rng.randrange(1, len(lines))]
    elif way < 0.06:
        lines = [it for it in lines if not it.startswith(rng.choice((b"job", b"tiles", b"end")))]
    return lines


def widened(rng, lines):
    """The lines of a system by version 2: with further seeds, with pairs of its glues, with both or with neither."""
    glues = [it.split()[1] for it in lines if it.startswith(b"glue ")]
    tiles = [it.split()[1] for it in lines if it.startswith(b"tile ")]
    x0, y0, x1, y1 = (int(it) for it in next(it for it in lines if it.startswith(b"box ")).split()[1:])
    taken = {tuple(it.split()[1:3]) for it in lines if it.startswith(b"seed ")}
    pairs, seeds, paired = [], [], set()
    for _ in range(rng.choice((0, 1, 2, 3, 12)) if len(glues) > 1 else 0):
        pair = rng.sample(glues, 2)
        if frozenset(pair) not in paired:
            paired.add(frozenset(pair))
            pairs.append(b"pair %s %s %d" % (*pair, rng.choice((0, 1, 1, 2, 2, 3, 250))))
    for _ in range(rng.choice((0, 0, 1, 2, 5, 40))):
        site = b"%d" % rng.randint(x0, x1), b"%d" % rng.randint(y0, y1)
        if site not in taken:
            taken.add(site)
            seeds.append(b"seed %s %s %s" % (*site, rng.choice(tiles)))
    at = next(it for it, line in enumerate(lines) if line.startswith(b"tile "))
    return [b"tiles 2", *lines[1:at], *pairs, *lines[at:-1], *seeds, lines[-1]]


SYSTEMS = {
    "loose": (loose_system, 6),
    "shaped": (shaped_system, 5),
    "exclusive_or": (exclusive_or_system, 2),
    "rivals": (rivals_system, 1),
    "counter": (counter_system, 1),
    "machine": (machine_system, 1),
    "rule": (rule_system, 1),
}


def random_system(rng, side=9):
    """What kind of system it is, and the lines of its text, of either version."""
    kind = rng.choices(list(SYSTEMS), [it[1] for it in SYSTEMS.values()])[0]
    lines = SYSTEMS[kind][0](rng, side)
    return (f"{kind} of version 2", widened(rng, lines)) if rng.random() < 0.4 else (kind, lines)


# ---- what stands behind a system


def sequence(rng, system, most):
    """A legal sequence, in whatever order."""
    places, tiles, left = list(system.seeds), dict(system.seeds), [site for site, _ in system.seeds]
    while left and len(places) < most:
        at = rng.randrange(len(left))
        site = left[at]
        open_sites = [(site[0] + a, site[1] + b) for a, b in judge.STEPS]
        rng.shuffle(open_sites)
        for new in open_sites:
            found = system.attaching(system.facing(tiles, *new)) if new not in tiles and system.has(new) else ()
            if found:
                tiles[new] = rng.choice(found)
                places.append((new, tiles[new]))
                left.append(new)
                break
        else:
            left[at] = left[-1]
            left.pop()
    return places


def near(rng, system):
    """A site that is mostly in the box, or just outside."""
    x0, y0, x1, y1 = system.box
    if rng.random() < 0.02:
        return rng.choice((-FAR, FAR)), rng.choice((-FAR, FAR))
    return max(-FAR, min(FAR, rng.randrange(x0 - 1, x1 + 2))), max(-FAR, min(FAR, rng.randrange(y0 - 1, y1 + 2)))


def inner(rng, system):
    x0, y0, x1, y1 = system.box
    return rng.randrange(x0, x1 + 1), rng.randrange(y0, y1 + 1)


def place_lines(system, places):
    return [b"place %d %d %s" % (x, y, system.name(kind)) for (x, y), kind in places]


def growth_lines(rng, system, is_grid):
    """A growth text: a legal sequence, or one with tiles that are left out, moved, doubled or of another type."""
    places = sequence(rng, system, rng.choice((1, 3, 10, 1000, 1000, 1000, 1000)))
    for _ in range(rng.choice((0, 0, 0, 0, 1, 1, 2))):
        at, way = rng.randrange(len(places)), rng.random()
        if way < 0.25 and len(places) > 1:
            del places[at]
        elif way < 0.45:
            places[at] = places[at][0], rng.randrange(len(system.sides))
        elif way < 0.65:
            other = rng.randrange(len(places))
            places[at], places[other] = places[other], places[at]
        elif way < 0.85:
            places.insert(at, (inner(rng, system), rng.randrange(len(system.sides))))
        else:
            places.append(places[at])
    if is_grid:
        places = list(dict(places).items()) if rng.random() < 0.9 else places
        if rng.random() < 0.7:
            rng.shuffle(places)
    lines = place_lines(system, places)
    if rng.random() < 0.5:
        lines += rng.choice(([b"closed terminal"], [b"unique yes"], [b"closed x y z", b"unique no 1"], [b"closed \xff", b"unique  #"]))
    return lines


def certificate_lines(rng, system):
    """Marks of a whole growth, or of a part of one: with ranks of some kind and in some order, and mostly with slips."""
    places = sequence(rng, system, rng.choice((1, 3, 1000, 1000, 1000, 1000)))
    if rng.random() < 0.5:
        places = judge.canonical(system, dict(places))
    marks = {}
    for at, ((site, kind), sides) in enumerate(zip(places, certificates.input_sides(system, places))):
        marks[site] = certificates.Mark(kind, sides, at)
    ranks = rng.choice(("places", "far", "lengths", "lengths"))
    for site, mark in marks.items():
        before = [marks[site[0] + judge.STEPS[it][0], site[1] + judge.STEPS[it][1]].rank for it in mark.sides]
        if ranks != "places":
            mark.rank = max(before, default=-1) + (1 if ranks == "lengths" else rng.choice((1, 1, 2, 1000000)))
    if rng.random() < 0.1:
        for mark in marks.values():
            mark.rank += judge.U32 - max(it.rank for it in marks.values())
    for _ in range(rng.choice((0, 0, 1, 1, 1, 2))):
        with_slip(rng, system, marks)
    lines = [certificates.mark_line(system, site, mark)[:-1] for site, mark in marks.items()]
    if rng.random() < 0.5:
        rng.shuffle(lines)
    return lines


def with_slip(rng, system, marks):
    """Marks with one that is taken away, added, or states something else."""
    if not marks:
        return
    site, way = rng.choice(list(marks)), rng.random()
    mark = marks[site]
    if way < 0.12:
        del marks[site]
    elif way < 0.3:
        mark.sides = mark.sides ^ {rng.randrange(4)}
    elif way < 0.45:
        mark.rank = rng.choice((0, max(0, mark.rank - 1), mark.rank + 1, rng.choice(list(marks.values())).rank, judge.U32))
    elif way < 0.6:
        mark.kind = rng.randrange(len(system.sides))
    elif way < 0.7:
        # (an input side from which the neighbour is held in turn)
        mark.sides = {rng.choice(range(4)) for _ in mark.sides}
    elif way < 0.85:
        # (a side that rests on this one is stated no longer)
        a, b = rng.choice(judge.STEPS)
        other = marks.get((site[0] + a, site[1] + b))
        if other:
            other.sides = set(list(other.sides)[:-1])
    else:
        marks[inner(rng, system)] = certificates.Mark(rng.randrange(len(system.sides)), {rng.randrange(4)} if rng.random() < 0.5 else set(), mark.rank + 1)


def schedule_lines(rng, system):
    """Events of scouts, most of which live, at sites that are mostly beside tiles."""
    live, lines = [0], []
    places = sequence(rng, system, 40)
    for _ in range(rng.choice((0, 3, 10, 30, 90))):
        way, who = rng.random(), rng.choice(live)
        if way < 0.05:
            who = rng.choice((1, 5, 63, 64, 4294967295))
        if way < 0.2:
            lines.append(b"split %d" % who)
            live = list({*live, rng.randrange(50, 64)})
        elif way < 0.3:
            lines.append(b"join %d %d" % (who, rng.choice(live)))
        elif way < 0.5:
            lines.append(b"look %d %d %d" % (who, *(rng.choice(places)[0] if rng.random() < 0.7 else near(rng, system))))
        elif rng.random() < 0.8:
            (x, y), kind = places[min(len(places) - 1, rng.randrange(1 + len(lines)))]
            lines.append(b"claim %d %d %d %s" % (who, x, y, system.name(kind)))
        else:
            lines.append(b"claim %d %d %d %s" % (who, *near(rng, system), system.name(rng.randrange(len(system.sides)))))
    return lines


# ---- spellings and edits


def joined(lines):
    return b"\n".join(lines) + b"\n"


def loosely(rng, lines):
    """Lines that say the same in another spelling: more spaces, zeros in front, remarks and empty lines."""
    lines = list(lines)
    for _ in range(rng.choice((0, 1, 3))):
        at, way = rng.randrange(len(lines)), rng.random()
        if way < 0.3:
            lines.insert(at, rng.choice((b"", b" ", b"#", b"  # remark \xff\t", b"#" + b"x" * 255, b" " * 256)))
        elif way < 0.6:
            wide = b" " * rng.randrange(3) + lines[at].replace(b" ", b" " * rng.randrange(1, 4)) + b" " * rng.randrange(3)
            lines[at] = wide if len(wide) <= judge.LONGEST_LINE else lines[at]
        elif way < 0.8:
            lines[at] = lines[at].ljust(rng.choice((254, 255, 256)))
        else:
            words = lines[at].split(b" ")
            numbers = [it for it, word in enumerate(words) if it and judge.NUMBER.fullmatch(word) and len(word) < 9]
            if numbers and words[0] in (b"tau", b"box", b"cells", b"rows", b"head", b"split", b"look", b"join"):
                it = rng.choice(numbers)
                words[it] = words[it].replace(b"-", b"-0") if b"-" in words[it] else words[it].zfill(rng.randrange(1, 11))
                lines[at] = b" ".join(words).rstrip(b" ")
    return lines


def other_word(rng, word, text):
    """A word to stand in place of another: mostly of the same kind, just past it, or one of the text's own."""
    way = rng.random()
    if judge.NUMBER.fullmatch(word) and way < 0.7:
        return b"%d" % (int(word) + rng.choice((-1, 1, 1, 2, 10, 1000, -1000))) if way < 0.4 else rng.choice(NUMBERS)
    if way < 0.5:
        return rng.choice(text.split() or [b"x"])
    return rng.choice(WORDS)


def broken_line(rng, line, text):
    """A line with one of its words edited."""
    words = [it for it in line.split(b" ") if it] or [b""]
    at, way = rng.randrange(len(words)), rng.random()
    if at == 0 and way < 0.6 and len(words) > 1:
        at = rng.randrange(1, len(words))
    if way < 0.6:
        words[at] = other_word(rng, words[at], text)
    elif way < 0.67:
        del words[at]
    elif way < 0.74:
        words.insert(at, rng.choice(WORDS))
    elif way < 0.8:
        words.insert(at, words[at])
    elif way < 0.92:
        other = rng.randrange(1, len(words)) if at and len(words) > 1 else rng.randrange(len(words))
        words[at], words[other] = words[other], words[at]
    else:
        words[at] = rng.choice((words[at].upper(), words[at] + b"'", words[at][:-1], words[at] + words[at], b"-" + words[at]))
    return b" ".join(words)


def new_line(rng):
    """A line that mostly may not stand where it is put."""
    return rng.choice((b"# " + b"y" * 254, b"#" * 257, b"#" * 256, b"\t", b"\r", b"tiles 1", b"tiles 2", b"pair a b 1", b"seed 0 0 S", b"end", b"place 0 0 S", b"machine 1", b" #", b"glue g 1", b"closed x"))


def with_line_edited(rng, text):
    lines, way = text.split(b"\n"), rng.random()
    at, other = rng.randrange(len(lines)), rng.randrange(len(lines))
    if way < 0.6:
        lines[at] = broken_line(rng, lines[at], text)
    elif way < 0.68:
        lines[at], lines[other] = lines[other], lines[at]
    elif way < 0.74:
        del lines[at]
    elif way < 0.8:
        lines.insert(at, lines[other])
    elif way < 0.87:
        lines.insert(at, lines[at])
    elif way < 0.92:
        lines[at] = lines[at].ljust(rng.choice((256, 257, 258, 300)), rng.choice((b" ", b"x", b"#")))
    else:
        lines.insert(at, new_line(rng))
    return b"\n".join(lines)


def broken(rng, text):
    """The text with one to three edits of bytes, words or lines."""
    for _ in range(rng.choice((1, 1, 1, 2, 3))):
        way, at = rng.random(), rng.randrange(len(text) + 1)
        if way < 0.15:
            byte = bytes([rng.choice(BYTES)])
            text = text[:at] + rng.choice((byte, b"")) + text[at + rng.randrange(2) :]
        elif way < 0.91:
            text = with_line_edited(rng, text)
        elif way < 0.94:
            text = text[:at]
        elif way < 0.97:
            spoilt = text.replace(b"\n", b"\r\n"), text.replace(b" ", b"\t", 1), b"\xef\xbb\xbf" + text
            text = rng.choice((*spoilt, text + text, text[:-1], b"tiles 1\n" + text, b""))
        else:
            text = text[:at] + text[at + rng.randrange(2, 40) :]
    return text


# ---- words

ODD_NUMBERS = "0 1 2 15 16 17 1000 1001 -1 007 +3 4294967295 4294967296 18446744073709551615 18446744073709551616 99999999999999999999999 1.0 x --workers".split() + [""]
ODD_WORDS = ["", "grown", "Grow", "GROW", "help", "--help", "-h", "--version", "grow ", "grow\n", "-", "--", "upgrades", "é", "\udcff"]


def growing_words(rng, command):
    """A growing command with its options."""
    words, way = [command], rng.random()
    if way < 0.4 or command in ("verify", "batch") and way < 0.6:
        words += ["--workers", str(rng.choice((1, 2, 2, 3, 4, 16)))]
    if 0.2 < way < 0.6 and command not in ("verify", "batch"):
        words += ["--choice", str(rng.choice((0, 1, 2, 3, rng.randrange(2**64), 2**64 - 1)))]
    if len(words) == 5 and rng.random() < 0.5:
        words = [command, *words[3:], *words[1:3]]
    if command == "watch" and rng.random() < 0.8:
        at = rng.randrange(1, len(words) + 1, 2)
        words[at:at] = ["--frames", str(rng.choice((1, 2, 3, 5, 20, 1000)))]
    return words


def odd_words(rng):
    """Words that are mostly not taken, or stand at a limit."""
    way = rng.random()
    if way < 0.15:
        words = [rng.choice(ODD_WORDS)]
    elif way < 0.5:
        words = [rng.choice(list(judge.OPTIONS))]
        for _ in range(rng.randrange(1, 4)):
            option, number = rng.choice(("--workers", "--workers", "--choice", "--choice", "--frames", "--worker", "-w", "--", "-")), rng.choice(ODD_NUMBERS)
            words += rng.choice(([option, number], [option, number], [option, number], [f"{option}={number}"], [option], [number]))
    elif way < 0.7:
        words = ["counter", *rng.choices(ODD_NUMBERS + ["3", "5", "32", "33", "4294966784", "4294966783"], k=rng.choice((1, 2, 2, 2, 2, 2, 3)))]
    elif way < 0.8:
        words = ["load", *rng.choices(ODD_NUMBERS, k=rng.choice((0, 1, 1, 1, 2)))]
        # (few tiles alone)
        if (judge.value_of(words[-1], 0, judge.U64) or 0) // 31 % 512 > 40:
            words[-1] = "40"
    else:
        words = [rng.choice(judge.COMMANDS)] + rng.choices(ODD_WORDS + ODD_NUMBERS, k=rng.randrange(0, 3))
    return [it.encode(errors="surrogateescape") for it in words if "\x00" not in it]


def respelt(rng, words):
    """The same words in another spelling that is taken too."""
    words = list(words)
    for at in range(len(words) - 1, 0, -1):
        way = rng.random()
        if words[at].isdigit() and way < 0.4:
            words[at] = rng.choice(("+", "0", "+00")) + words[at]
        if words[at - 1].startswith("--") and way < 0.7:
            words[at - 1 : at + 1] = [f"{words[at - 1]}={words[at]}"]
    if rng.random() < 0.3:
        words.append("--")
    return words


def number_words(rng):
    """A counter or a load."""
    if rng.random() < 0.7:
        bits = rng.choice((2, 3, 4, 5, 9, 10, 31, 32))
        start = 2**bits - rng.choice((0, 1, 2, 3, rng.randrange(2 ** min(bits, 9)), 512, 513))
        return [b"counter", b"%d" % bits, b"%d" % max(0, start)]
    return [b"load", b"%d" % (31 * (512 * rng.randrange(2**49) * rng.randrange(2) + rng.randrange(8)) + rng.randrange(31))]
