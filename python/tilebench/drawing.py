"""Pictures of a growth: letters or colours for the terminal, an SVG, and a plot by matplotlib.

Tiles are told apart by their type, or by the glue on one side. Only the part of the box that has tiles is shown, the
highest row first.
"""
from __future__ import annotations

from collections.abc import Iterator
from itertools import groupby
from typing import Any

from tilebench.colours import colour_of, is_dark, parts_of
from tilebench.growth import Growth
from tilebench.system import SIDES, System

LETTERS = "ABCDEFGHIJKLMNOPQRSTUVWXYZabcdefghijklmnopqrstuvwxyz0123456789"
EMPTY = "#ffffff"
# names and glues are written up to so many sites on a side, in cells of so many pixels or more
MOST_WORDS, LEAST_CELL = 64, 24


class View:
    """What of a growth is shown: what tiles are told apart by, for each type and in the system's order, and the
    extent."""

    def __init__(self, growth: Growth, by: str | None = None):
        if not len(growth):
            raise ValueError("there is no tile to be shown")
        if by is not None and by not in SIDES:
            raise ValueError(f"by is one of {', '.join(SIDES)}")
        self.growth, self.system = growth, growth.system
        side = None if by is None else SIDES.index(by)
        self.kind_of = [name if side is None else sides[side] or "-" for name, sides in self.system.types.items()]
        borne = {self.kind_of[it] for it in {*growth.kinds}}
        self.kinds = [it for it in (self.system.types if by is None else ["-", *self.system.glues]) if it in borne]
        self.x0, self.x1, self.y0, self.y1 = min(growth.xs), max(growth.xs), min(growth.ys), max(growth.ys)
        self.wide, self.high = self.x1 - self.x0 + 1, self.y1 - self.y0 + 1

    def rows(self) -> Iterator[Any]:
        """The indices of the types in each row, the highest first."""
        grid = self.growth.grid
        first = self.x0 - grid.west - 1
        return (grid.row(y)[first : first + self.wide] for y in range(self.y1, self.y0 - 1, -1))

    def colours(self) -> dict[str, str]:
        """The colour of each kind."""
        return {it: colour_of(it, self.system.colours) for it in self.kinds}


def letters(growth: Growth, by: str | None = None) -> Iterator[str]:
    """A line for each kind with its letter, then the rows; a dot is an empty site."""
    view = View(growth, by)
    signs = {it: LETTERS[at] if at < len(LETTERS) else "#" for at, it in enumerate(view.kinds)}
    yield from (f"{signs[it]} {it}" for it in view.kinds)
    # (the last one is that of an empty site, whose index is -1)
    shown = [signs.get(it, "") for it in view.kind_of] + ["."]
    yield from ("".join(map(shown.__getitem__, row)) for row in view.rows())


def coloured(growth: Growth, by: str | None = None) -> Iterator[str]:
    """The same in colours for a terminal."""
    view = View(growth, by)
    paint = {it: "\x1b[48;2;{};{};{}m  \x1b[0m".format(*parts_of(colour)) for it, colour in view.colours().items()}
    yield "  ".join(f"{paint[it]} {it}" for it in view.kinds)
    shown = [paint.get(it, "") for it in view.kind_of] + ["  "]
    yield from ("".join(map(shown.__getitem__, row)) for row in view.rows())


# ---- SVG


def paths(view: View) -> dict[str, str]:
    """For each kind a path of its runs, from the highest row down."""
    found: dict[str, list[str]] = {it: [] for it in view.kinds}
    kind_of = [*view.kind_of, None]
    for y, row in enumerate(view.rows()):
        x = 0
        for index, run in groupby(row):
            size = len(list(run))
            kind = kind_of[index]
            if kind is not None:
                found[kind].append(f"M{x} {y}h{size}v1h-{size}z")
            x += size
    return {kind: "".join(parts) for kind, parts in found.items()}


def escaped(text: str) -> str:
    return text.replace("&", "&amp;").replace("<", "&lt;")


def written(text: str, x: float, y: float, room: float, largest: float, turn: str = "") -> str:
    """A text in the middle of a place, as large as there is room for."""
    size = min(largest, room / (len(text) * 0.62))
    return f'<text x="{x:g}" y="{y:g}" font-size="{size:.3g}"{turn}>{escaped(text)}</text>'


def tile_words(system: System, name: str, x: int, y: int, colour: str) -> Iterator[str]:
    """The outline of a tile, its name in its middle, and its glues along its sides: light on a dark tile."""
    yield (
        f'<g fill="{"#fff" if is_dark(colour) else "#000"}"><rect x="{x}" y="{y}" width="1" height="1" fill="none" '
        f'stroke="#000" '
    )
    yield 'stroke-opacity="0.3" stroke-width="0.02"/>'
    yield written(name, x + 0.5, y + 0.5, 0.62, 0.3)
    for side, glue in enumerate(system.types[name]):
        if glue is not None:
            at = ((0.5, 0.1), (0.9, 0.5), (0.5, 0.9), (0.1, 0.5))[side]
            turn = f' transform="rotate({90 if side == 1 else -90} {x + at[0]:g} {y + at[1]:g})"' if side % 2 else ""
            yield written(glue, x + at[0], y + at[1], 0.7, 0.17, turn)
    yield "</g>\n"


def seed_rims(view: View, cell: int, has_words: bool) -> Iterator[str]:
    """A rim around each seed; where glues are written it is the corners alone."""
    corners = ' stroke-dasharray="0.15 0.5 0.15 0"' if has_words else ""
    for (x, y), _ in view.system.seeds if cell >= 4 else ():
        if (x, y) in view.growth:
            yield (
                f'<rect x="{x - view.x0 + 0.1:g}" y="{view.y1 - y + 0.1:g}" width="0.8" height="0.8" fill="none" '
                f'stroke="#000" '
                f'stroke-width="{0.2 if cell < 16 else 0.06}"{corners}/>\n'
            )


class Legend:
    """The legend below a picture: the kinds in columns, with their colours."""

    def __init__(self, view: View, cell: int):
        self.view, self.cell = view, cell
        self.columns = max(1, min(4, int(view.wide * cell / (20 + 7.2 * max(map(len, view.kinds))))))
        self.lines = -(-len(view.kinds) // self.columns) if len(view.kinds) <= 24 and cell >= 8 else 0
        self.high = (self.lines * 20 + 8) / cell if self.lines else 0

    def drawn(self, colours: dict[str, str]) -> Iterator[str]:
        cell, wide = self.cell, self.view.wide / self.columns
        if self.lines:
            yield f'<g font-family="monospace" dominant-baseline="central" font-size="{12 / cell:g}">\n'
        for at, kind in enumerate(self.view.kinds if self.lines else ()):
            x, y = at % self.columns * wide, self.view.high + (8 + at // self.columns * 20) / cell
            long = min(wide - 20 / cell, len(kind) * 7.2 / cell)
            yield (
                f'<rect x="{x:g}" y="{y:g}" width="{12 / cell:g}" height="{12 / cell:g}" fill="{colours[kind]}" '
                f'stroke="#888" '
                f'stroke-width="{1 / cell:g}"/>\n<text x="{x + 16 / cell:g}" y="{y + 7 / cell:g}" '
                f'textLength="{long:g}" '
                f'lengthAdjust="spacingAndGlyphs">{escaped(kind)}</text>\n'
            )
        if self.lines:
            yield "</g>\n"


def svg_parts(growth: Growth, cell: int | None = None, by: str | None = None) -> Iterator[str]:
    """An SVG picture in parts: one path for each kind, a rectangle for each run of it in a row."""
    view = View(growth, by)
    side = max(view.wide, view.high)
    size = cell or max(1, min(64 if side <= 8 else 16, 512 // side))
    has_words = side <= MOST_WORDS and size >= (LEAST_CELL if cell else 40)
    legend, colours = Legend(view, size), view.colours()
    high = view.high + legend.high
    yield (
        f'<svg xmlns="http://www.w3.org/2000/svg" width="{view.wide * size}" height="{round(high * size)}" viewBox="0 '
        f'0 {view.wide} {high:g}" '
        f'shape-rendering="crispEdges">\n<rect width="{view.wide}" height="{high:g}" fill="{EMPTY}"/>\n'
    )
    for kind, path in paths(view).items():
        yield f'<path fill="{colours[kind]}" d="{path}"/>\n'
    yield '<g font-family="monospace" text-anchor="middle" dominant-baseline="central">\n'
    if has_words:
        for (x, y), name in growth:
            colour = colours[view.kind_of[view.system.index[name]]]
            yield "".join(tile_words(view.system, name, x - view.x0, view.y1 - y, colour))
    yield "</g>\n"
    yield from seed_rims(view, size, has_words)
    yield from legend.drawn(colours)
    yield "</svg>\n"


def svg(growth: Growth, cell: int | None = None, by: str | None = None) -> str:
    """An SVG picture. `cell` is the size of a tile in pixels; with 24 or more, in up to 64 by 64 sites, names and glues
    are written."""
    return "".join(svg_parts(growth, cell, by))


# ---- matplotlib


def plot(growth: Growth, axes: Any = None) -> Any:
    """Draws the growth by matplotlib, a colour for each type, and answers the axes."""
    from matplotlib import pyplot
    from matplotlib.colors import ListedColormap

    view = View(growth)
    axes = axes if axes is not None else pyplot.subplots()[1]
    colours = [EMPTY, *(colour_of(it, view.system.colours) for it in view.system.types)]
    rows = [[it + 1 for it in row] for row in view.rows()]
    extent = view.x0 - 0.5, view.x1 + 0.5, view.y0 - 0.5, view.y1 + 0.5
    axes.imshow(
        rows, cmap=ListedColormap(colours), vmin=0, vmax=len(colours) - 1, extent=extent, interpolation="nearest"
    )
    axes.set_aspect("equal")
    return axes
