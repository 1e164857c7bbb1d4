"""The borders of a two-input rule, written out: each with a default of its own."""
from __future__ import annotations

from tilebench import lines
from tilebench.faults import Refused

# how many symbols stand in a line
IN_LINE = 32


def border(word: str, given: list[str], many: int, default: str) -> list[str]:
    """The lines of a border: the symbols that are given, and behind them the default."""
    symbols = given + [default] * (many - len(given))
    return [f"{word} {' '.join(symbols[at : at + IN_LINE])}" for at in range(0, many, IN_LINE)]


def bordered(text: str, *, bottom: str | None = None, left: str | None = None) -> str:
    """The text of a two-input rule with both borders written out: behind the symbols that its `bottom` and `left` lines
    have come those that are handed in, each for its side; the first symbol of the rule for a side of which none is
    handed in."""
    symbols, size, given = [], (0, 0), {"bottom": list[str](), "left": list[str]()}
    kept, end = [], 0
    for number, line in enumerate(text.split("\n"), 1):
        words = next(iter(lines.rows(line)), (0, [""]))[1]
        if words[0] == "symbol" and len(words) == 2:
            symbols.append(words[1])
        elif words[0] == "size" and len(words) == 3 and all(it.isdigit() for it in words[1:]):
            size = int(words[1]), int(words[2])
        if words[0] in given:
            given[words[0]] += words[1:]
        elif words[0] == "end":
            end = number
            break
        else:
            kept.append(line)
    if not end or not symbols or size == (0, 0):
        raise Refused(
            "NoEnd", text.count("\n") + 1, "a rule has symbols, a size and an end line", text=text, command="quadrant"
        )
    for default in (bottom, left):
        if default is not None and default not in symbols:
            raise Refused("UnknownName", why=f"no symbol is named {default}")
    told = border("bottom", given["bottom"], size[0], bottom or symbols[0]) + border(
        "left", given["left"], size[1], left or symbols[0]
    )
    return "\n".join([*kept, *told, "end", ""])
