"""What the growth of a compiled system shows: a machine's tape, a counter's numbers, the cells of a two-input rule."""
from __future__ import annotations

from collections.abc import Iterator

from tilebench import calls, lines
from tilebench.faults import Refused
from tilebench.growth import Growth
from tilebench.system import System

Row = list[str | None]


def rows_of(growth: Growth) -> list[Row]:
    """The names of each row of the box, from the lowest up, None at empty sites."""
    _, y0, _, y1 = growth.system.box
    names = [*growth.system.names, None]
    return [[names[it] for it in growth.grid.row(y)] for y in range(y0, y1 + 1)]


class Machine:
    """What a machine's text says: its rules by state and symbol, its tape, the head's cell."""

    def __init__(self, text: str):
        self.states: list[str] = []
        self.symbols: list[str] = []
        self.rules: dict[tuple[str, str], list[str]] = {}
        self.tape: list[str] = []
        self.cells = self.rows = self.head = 0
        for number, words in lines.rows(text):
            try:
                self.take(words)
            except (IndexError, ValueError):
                raise Refused(
                    "BadLine", number, f"{' '.join(words)[:40]} is no line of a machine", text=text, command="turing"
                ) from None
        self.tape += self.symbols[:1] * (self.cells - len(self.tape))

    def take(self, words: list[str]) -> None:
        if words[0] in ("state", "symbol"):
            (self.states if words[0] == "state" else self.symbols).append(words[1])
        elif words[0] == "rule":
            self.rules[words[1], words[2]] = words[3:6]
        elif words[0] in ("cells", "rows", "head"):
            setattr(self, words[0], int(words[1]))
        elif words[0] == "tape":
            self.tape += words[1:]

    def shown(self, name: str) -> tuple[str, str | None]:
        """The symbol that a tile shows, and the state of a head on it, or None."""
        kind, *rest = name.split(":")
        if kind == "t":
            cell = int(rest[0])
            return self.tape[cell], self.states[0] if cell == self.head else None
        if kind == "a":
            state, symbol, move = self.rules[rest[0], rest[1]]
            return symbol, state if move == "S" else None
        return (rest[1], rest[0]) if kind in ("R", "L") else (rest[0], None)

    def end(self, last: int, before: tuple[str, str] | None, head: tuple[str, str] | None) -> tuple[str, bool]:
        """How the run ended and whether it did so by itself: its last step, and the heads of the row before and of the
        last one."""
        if head is None:
            move = self.rules[before][2] if before else ""
            return f"ran off the {'west' if move == 'L' else 'east'} end in step {last}", True
        state, symbol = head
        if head not in self.rules:
            return f"halted in state {state} over symbol {symbol} after {last} step{'' if last == 1 else 's'}", True
        return f"cut off by the {self.rows} rows: it would go on in state {state} over symbol {symbol}", False


def machine_told(text: str, growth: Growth | None = None) -> tuple[list[str], bool]:
    """The rows of a machine's tape and how the run ended, and whether it did so by itself."""
    machine = Machine(text)
    growth = growth or calls.grow(calls.turing(text))
    told, last = [], 0
    before: tuple[str, str] | None = None
    head: tuple[str, str] | None = None
    for step, names in enumerate(rows_of(growth)):
        row = [machine.shown(it) for it in names if it is not None]
        if len(row) < len(names):
            break
        told.append(
            f"{step:5}  " + " ".join(symbol if state is None else f"[{state} {symbol}]" for symbol, state in row)
        )
        before, head = head, next(((state, symbol) for symbol, state in row if state is not None), None)
        last = step
    said, is_ended = machine.end(last, before, head)
    return [*told, said], is_ended


def bit_of(system: System, name: str) -> int:
    """The bit that a counter's tile shows."""
    kind, _, rest = name.partition(":")
    if kind == "t":
        return int(str(system.types[name][0])[-1])
    bits = [int(it) for it in rest]
    return 1 - bits[0] if kind == "ie" else bits[0] ^ bits[1] if kind in ("im", "iw") else bits[0]


def counter_told(text: str, growth: Growth | None = None) -> tuple[list[str], bool]:
    """The numbers that a counter's rows show, and whether all are complete."""
    growth = growth or calls.grow(text)
    rows, told = rows_of(growth), []
    complete = [[it for it in row if it is not None] for row in rows if None not in row]
    for at, names in enumerate(complete):
        bits = "".join(str(bit_of(growth.system, it)) for it in names)
        told.append(f"{at:5}  {bits}  {int(bits, 2)}")
    if len(complete) < len(rows):
        told.append(f"{len(rows) - len(complete)} rows are not complete")
    return told, len(complete) == len(rows)


def quadrant_told(text: str, growth: Growth | None = None) -> tuple[list[str], bool]:
    """The cells of a two-input rule, the highest row first, and whether all are filled."""
    growth = growth or calls.grow(calls.quadrant(text))
    rows, symbols = rows_of(growth), [words[1] for _, words in lines.rows(text) if words[0] == "symbol"]
    wide, empty, told = max(map(len, symbols)) * 2 + 1, 0, []
    for y in range(len(rows) - 1, 0, -1):
        cells = ["" if it is None else it.removeprefix("q:") for it in rows[y][1:]]
        empty += cells.count("")
        told.append(f"{y:5}  " + " ".join((it or ".").ljust(wide) for it in cells).rstrip())
    told.append(f"WEST:SOUTH at each cell; {empty or 'no'} cell{'' if empty == 1 else 's'} without a rule or input")
    return told, not empty


def told(text: str, answer: bytes | None = None) -> tuple[Iterator[str], bool]:
    """What a machine, a counter or a two-input rule shows, by its text and the answer of `grow`, if there is one; and
    whether it came to its end."""
    first = next(lines.rows(text), (1, ["nothing"]))[1][0]
    tellers = {"machine": machine_told, "quadrant": quadrant_told, "tiles": counter_told}
    if first not in tellers:
        raise Refused("NoHeader", 1, "a machine, a counter's system or a two-input rule is wanted here")
    if first == "tiles":
        system = System.read(text)
        if "cw:0" not in system.types:
            raise Refused(
                "NoHeader",
                1,
                "this system is no counter's; of a machine and of a two-input rule hand in their own text",
            )
    elif answer is not None:
        system = {"machine": calls.turing, "quadrant": calls.quadrant}[first](text)
    growth = None if answer is None else Growth.read(system, answer)
    said, is_ended = tellers[first](text, growth)
    return iter(said), is_ended
