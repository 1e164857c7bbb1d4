"""One change of a system that makes it grow as it seems to be meant: all types placed, and nothing else can grow.

The changes are tried by the program, many in one batch, the simplest first: another temperature, another strength, two
sides exchanged, a larger box, a pair, a seed, one type less, another glue on one side. What is told is what the program
said of them.
"""
from __future__ import annotations

from collections.abc import Callable, Iterator
from itertools import combinations, islice, permutations
from typing import NamedTuple

from tilebench import program
from tilebench.calls import MOST_JOBS, MOST_SITES
from tilebench.conditions import breaks_of_tiles, untaken
from tilebench.faults import TilebenchError
from tilebench.growth import Growth
from tilebench.system import SIDES, System
from tilebench.wider import cut_sides, missing_room, widened

# up to how many sites a box may have for changes to be tried, those of one kind have together, and how many changes are
# told
MOST_AREA, MOST_TRIED, MOST_TOLD = 1 << 16, 1 << 22, 3
# how many bytes the texts of one kind have together
MOST_BYTES = 1 << 25
# how a change begins, in words, that takes a type away
LESS = "without "


class Edit(NamedTuple):
    """A change in words, what it is of, and the system's text with it."""

    told: str
    subject: str
    text: str


class Lines:
    """The lines of a system's text, to be put together anew with one of them changed."""

    def __init__(self, system: System):
        self.system = system
        self.lines = system.text.split("\n")

    def at(self, keyword: str, of: object) -> int:
        """The number of a line, from 0."""
        return self.system.lines[keyword, of] - 1

    def first(self, keyword: str) -> int:
        """The number of the first line with a keyword, from 0."""
        return next(at for at, line in enumerate(self.lines) if line.split()[:1] == [keyword])

    def with_line(self, at: int, line: str, more: str | None = None) -> str:
        """The text with another line at a number; without it where the line is empty, with one more behind it if there
        is more."""
        return "\n".join(
            [*self.lines[:at], *([line] if line else []), *([more] if more else []), *self.lines[at + 1 :]]
        )

    def with_sides(self, name: str, sides: list[str]) -> str:
        """The text with other sides of a type."""
        return self.with_line(self.at("tile", name), f"tile {name} {' '.join(sides)}")


def sides_of(system: System, name: str) -> list[str]:
    return [it or "-" for it in system.types[name]]


# ---- the changes, the simplest first


def other_temperatures(system: System, text: Lines, growth: Growth) -> Iterator[Edit]:
    for tau in {1, 2, 3, 4} - {system.tau}:
        yield Edit(f"at temperature {tau}", "tau", text.with_line(text.first("tau"), f"tau {tau}"))


def other_orders(system: System, text: Lines, growth: Growth) -> Iterator[Edit]:
    """The sides of all types in another order."""
    for order in list(permutations(range(4)))[1:]:
        lines = list(text.lines)
        for name in system.types:
            sides = sides_of(system, name)
            lines[text.at("tile", name)] = f"tile {name} {' '.join(sides[order.index(side)] for side in range(4))}"
        told = ", ".join(SIDES[it] for it in order)
        yield Edit(
            f"with the sides of all tile lines read as {told} (they are north, east, south, west)",
            "order",
            "\n".join(lines),
        )


def other_strengths(system: System, text: Lines, growth: Growth) -> Iterator[Edit]:
    most = min(4, max(system.tau, *system.glues.values(), 1))
    for glue, own in system.glues.items():
        for strength in range(1, most + 1):
            if strength != own:
                yield Edit(
                    f"with strength {strength} of glue {glue} (it is {own})",
                    glue,
                    text.with_line(text.at("glue", glue), f"glue {glue} {strength}"),
                )
    for (one, other), own in system.pairs.items():
        for strength in range(1, most + 1):
            if strength != own:
                line = f"pair {one} {other} {strength}"
                yield Edit(
                    f"with strength {strength} of the pair {one} {other} (it is {own})",
                    one,
                    text.with_line(text.at("pair", (one, other)), line),
                )


def exchanged_sides(system: System, text: Lines, growth: Growth) -> Iterator[Edit]:
    for name in system.types:
        for one, other in combinations(range(4), 2):
            sides = sides_of(system, name)
            if sides[one] != sides[other]:
                sides[one], sides[other] = sides[other], sides[one]
                yield Edit(
                    f"with the {SIDES[one]} and {SIDES[other]} sides of {name} exchanged",
                    name,
                    text.with_sides(name, sides),
                )


def larger_box(system: System, text: Lines, growth: Growth) -> Iterator[Edit]:
    """A larger box where this one cuts the growth off; or another type as a seed, which has the growth begin
    elsewhere."""
    larger = (
        widened(system, cut_sides(growth)) if growth.closed is not None and growth.closed.site is not None else None
    )
    if larger is None:
        return
    yield Edit("with a larger box", "box", text.with_line(text.first("box"), "box {} {} {} {}".format(*larger.box)))
    yield from other_types_of_seeds(system, text, growth)


def other_types_of_seeds(system: System, text: Lines, growth: Growth) -> Iterator[Edit]:
    for (x, y), own in system.seeds:
        for name in system.types:
            if name != own:
                line = f"seed {x} {y} {name}"
                yield Edit(
                    f"with {name} in place of {own} as the seed at {x, y}",
                    name,
                    text.with_line(text.at("seed", (x, y)), line),
                )


def further_pairs(system: System, text: Lines, growth: Growth) -> Iterator[Edit]:
    idle = [it for it in system.glues if not system.strongest(it)]
    last = max(text.at("glue", it) for it in system.glues) if system.glues else 0
    lines = ["tiles 2" if line.split() == ["tiles", "1"] else line for line in text.lines]
    for one, other in combinations(idle[:20], 2):
        for strength in range(1, min(system.tau, 3) + 1):
            pair = f"pair {one} {other} {strength}"
            yield Edit(f"with a line `{pair}`", one, "\n".join([*lines[: last + 1], pair, *lines[last + 1 :]]))


def other_seeds(system: System, text: Lines, growth: Growth) -> Iterator[Edit]:
    """Another type as a seed, and one more seed of a type that is missing."""
    yield from other_types_of_seeds(system, text, growth)
    x0, y0, x1, y1 = system.box
    lines = ["tiles 2" if line.split() == ["tiles", "1"] else line for line in text.lines]
    last = text.at("seed", system.seeds[-1][0]) + 1
    for x, y in ((x, y) for y in range(y0, y1 + 1) for x in range(x0, x1 + 1) if (x, y) not in dict(system.seeds)):
        for name in growth.unplaced:
            told = f"with one more seed, {name} at {x, y}"
            yield Edit(told, name, "\n".join([*lines[:last], f"seed {x} {y} {name}", *lines[last:]]))


def one_type_less(system: System, text: Lines, growth: Growth) -> Iterator[Edit]:
    """One of two types that take one input away."""
    seeds = {name for _, name in system.seeds}
    is_rival = growth.verdict is not None and growth.verdict.condition == 2
    names = (
        {name for it in breaks_of_tiles(growth) if it.condition == 2 for name in (it.name, it.other)}
        if is_rival
        else set()
    )
    for name in system.types:
        if name in names - seeds:
            yield Edit(f"{LESS}{name}", name, text.with_line(text.at("tile", name), ""))


def other_sides(system: System, text: Lines, growth: Growth) -> Iterator[Edit]:
    for name in system.types:
        for side, own in enumerate(sides_of(system, name)):
            for glue in ("-", *system.glues):
                if glue != own:
                    sides = sides_of(system, name)
                    sides[side] = glue
                    has = f"with {'no glue' if glue == '-' else f'glue {glue}'} on the {SIDES[side]} side of {name}"
                    yield Edit(f"{has} (it has {'none' if own == '-' else own})", name, text.with_sides(name, sides))


Kind = Callable[[System, Lines, Growth], Iterator[Edit]]


def kinds(growth: Growth) -> list[Kind]:
    """The kinds of changes in the order in which they are tried. Where an input is offered that no type takes, sides
    come before strengths: what is too weak offers too little."""
    two: list[Kind] = [exchanged_sides, other_strengths] if untaken(growth) else [other_strengths, exchanged_sides]
    return [*two, other_temperatures, other_orders, larger_box, further_pairs, one_type_less, other_sides, other_seeds]


# ---- tried by the program


def answers(texts: list[str], area: int) -> Iterator[bytes]:
    """What `batch` says of each of many systems whose boxes have so many sites."""
    most = max(1, min(MOST_JOBS, MOST_SITES // area))
    for at in range(0, len(texts), most):
        part = texts[at : at + most]
        _, out = program.answer(["batch"], "batch 1\n" + "".join(f"job 0\n{it}" for it in part))
        yield from (it.partition(b"\n")[2] for it in out.split(b"job ")[1:])


def is_good(edit: Edit, answer: bytes, names: set[bytes]) -> Growth | None:
    """The growth, where nothing else can grow, no type is missing, and no input that several sides offer is left open.
    `names` are those of the system, of which most answers lack some."""
    if b"\nunique yes\n" not in answer[-200:] and b"\nunique no 3" not in answer[-200:]:
        return None
    away = {edit.subject.encode()} if edit.told.startswith(LESS) else set()
    if not names - away <= {*answer.split()}:
        return None
    growth = Growth.read(System.read(edit.text), answer.partition(b"\ndone ")[0] + b"\n")
    is_whole = not growth.unplaced and not any(it.count > 1 for it in untaken(growth))
    return growth if is_whole else None


def changes(before: Growth, after: Growth) -> int:
    """How many tiles of a growth another one, in the same box, has not."""
    return sum(it >= 0 and it != other for it, other in zip(before.grid.cells, after.grid.cells))


def least(growth: Growth, found: list[tuple[Edit, Growth]]) -> list[tuple[Edit, Growth]]:
    """The changes after which most of what had grown grows again: what grew before a slip is mostly as it is meant."""
    boxed = [
        it
        for it in found
        if it[1].system.box == growth.system.box and len(it[1].system.types) == len(growth.system.types)
    ]
    many = {edit: changes(growth, after) for edit, after in boxed}
    return [it for it in found if it[0] not in many or many[it[0]] == min(many.values())]


def good_edits(growth: Growth) -> list[str]:
    """The changes of the simplest kind that mend the growth, in words, where they are few.

    Of those with which the verdict is a yes it is those that change least of what grew. A growth that its box cuts off
    is mended by what ends it, where there is such a change, and else by what places all types."""
    system = growth.system.copy()
    text, (x0, y0, x1, y1) = Lines(system), system.box
    names, area = {it.encode() for it in system.types}, (x1 - x0 + 1) * (y1 - y0 + 1)
    within: list[tuple[Edit, Growth]] = []
    for kind in kinds(growth) if area <= MOST_AREA else ():
        size = 4 * area if kind is larger_box else area
        most = min(MOST_TRIED // size, MOST_BYTES // len(system.text))
        edits = list(islice(kind(system, text, growth), most + 1))
        if len(edits) > most:
            continue
        try:
            came = list(answers([it.text for it in edits], size))
        except TilebenchError:
            continue
        tried = [(edit, grown) for edit, it in zip(edits, came) if (grown := is_good(edit, it, names)) is not None]
        found = [it for it in tried if it[1].verdict]
        if found:
            return few(least(growth, found), system)
        within = within or [it for it in tried if growth.closed is not None and growth.closed.site is not None]
    return few(within, system)


def few(found: list[tuple[Edit, Growth]], system: System) -> list[str]:
    """The changes in words where they are few: as one line, the ones or the others."""
    if not found or len(found) > MOST_TOLD:
        return []
    told = [
        f"with the box larger {missing_room(system.box, grown)}" if edit.subject == "box" else edit.told
        for edit, grown in found
    ]
    types = "all other types" if all(it.startswith(LESS) for it in told) else "all types"
    said = "the verdict is a yes" if found[0][1].verdict else "within the box nothing else can grow"
    return [f"{', or '.join(told)}: {types} are placed then, and {said}"]
