"""Turing machines and counters: their texts, and the systems that they are compiled to."""
from judge.texts import Cause, declared, LONGEST_SIDE, number_in, read_text, referred, SHORT_NAME

MACHINE = {
    b"machine": (2, False, ()),
    b"state": (2, False, (b"machine", b"state")),
    b"symbol": (2, False, (b"state", b"symbol")),
    b"rule": (6, False, (b"symbol", b"rule")),
    b"cells": (2, False, (b"symbol", b"rule")),
    b"rows": (2, False, (b"cells",)),
    b"head": (2, False, (b"rows",)),
    b"tape": (2, True, (b"head", b"tape")),
    b"end": (1, False, (b"head", b"tape")),
}


class Machine:
    """A Turing machine on a row of cells."""

    def __init__(self):
        self.states, self.symbols, self.rules, self.tape = {}, {}, {}, []
        self.cells = self.rows = self.head = 0

    def item(self, words):
        """Takes a line of a machine text."""
        kind = words[0]
        if kind in (b"state", b"symbol"):
            names = self.states if kind == b"state" else self.symbols
            if len(names) == 64:
                raise Cause("TooMany")
            declared(words[1], names, SHORT_NAME)
        elif kind == b"rule":
            pair = referred(words[1], self.states, SHORT_NAME), referred(words[2], self.symbols, SHORT_NAME)
            if pair in self.rules:
                raise Cause("DoubleName")
            to = referred(words[3], self.states, SHORT_NAME), referred(words[4], self.symbols, SHORT_NAME)
            if words[5] not in (b"L", b"R", b"S"):
                raise Cause("BadName")
            self.rules[pair] = (*to, words[5])
        elif kind == b"cells":
            self.cells = number_in(words[1], 1, 512)
        elif kind == b"rows":
            self.rows = number_in(words[1], 1, 1024)
        elif kind == b"head":
            self.head = number_in(words[1], 0, self.cells - 1)
        elif kind == b"tape":
            if len(self.tape) + len(words) - 1 > self.cells:
                raise Cause("TooMany")
            self.tape += [referred(it, self.symbols, SHORT_NAME) for it in words[1:]]

    def system(self):
        """The text of the machine's system, by the tables in docs/MODEL.md."""
        states, symbols, cells = list(self.states), list(self.symbols), self.cells
        pairs = [(q, a) for q in range(len(states)) for a in range(len(symbols))]

        def plain(a):
            return b"s:%s" % symbols[a]

        def top(q, a):
            return b"h:%s:%s" % (states[q], symbols[a]) if (q, a) in self.rules else plain(a)

        def border(i):
            return b"c:%d" % i if 0 < i < cells else b"-"

        glues = [(plain(a), 1) for a in range(len(symbols))]
        glues += [(top(*it), 2) for it in pairs if it in self.rules]
        glues += [(b"r", 1), (b"l", 1)] + [(b"R:%s" % it, 1) for it in states] + [(b"L:%s" % it, 1) for it in states]
        glues += [(border(i), 2) for i in range(1, cells)]

        def shown(q, a):
            return top(q, a) if (q, a) in self.rules else b"-"

        tiles = []
        for i in range(cells):
            a = self.tape[i] if i < len(self.tape) else 0
            tiles.append((b"t:%d" % i, shown(0, a) if i == self.head else plain(a), border(i + 1), b"-", border(i)))
        for q, a in pairs:
            if (q, a) in self.rules:
                to, written, move = self.rules[q, a]
                north = shown(to, written) if move == b"S" else plain(written)
                east = b"R:%s" % states[to] if move == b"R" else b"r"
                west = b"L:%s" % states[to] if move == b"L" else b"l"
                tiles.append((b"a:%s:%s" % (states[q], symbols[a]), north, east, top(q, a), west))
        for q, a in pairs:
            tiles.append((b"R:%s:%s" % (states[q], symbols[a]), shown(q, a), b"r", plain(a), b"R:%s" % states[q]))
        for q, a in pairs:
            tiles.append((b"L:%s:%s" % (states[q], symbols[a]), shown(q, a), b"L:%s" % states[q], plain(a), b"l"))
        for way in (b"r", b"l"):
            tiles += [(b"%s:%s" % (way, symbols[a]), plain(a), way, plain(a), way) for a in range(len(symbols))]
        return system_text(glues, tiles, cells, self.rows)


def read_machine(lines):
    machine = Machine()
    read_text(lines, [b"machine", b"1"], MACHINE, machine.item)
    return machine


def system_text(glues, tiles, width, height):
    """The one spelling of a system at temperature 2 with the seed t:0 at (0, 0)."""
    lines = [b"tiles 1", b"tau 2"] + [b"glue %s %d" % it for it in glues]
    lines += [b"tile %s %s %s %s %s" % it for it in tiles]
    return b"\n".join(lines + [b"box 0 0 %d %d" % (width - 1, height - 1), b"seed 0 0 t:0", b"end\n"])


def counter_refusal(bits, start):
    """Why no counter has these numbers, or None."""
    if not 2 <= bits <= 32:
        return "BitsOutOfRange"
    if start >= 2**bits:
        return "StartTooLarge"
    return "TooTall" if 2 * (2**bits - start) > LONGEST_SIDE else None


def counter_text(bits, start):
    """The text of a counter's system, by the tables in docs/MODEL.md."""
    two, four = (0, 1), ((0, 0), (0, 1), (1, 0), (1, 1))
    glues = [(b"%c%d" % (it, b), 2 if it in b"et" else 1) for it in b"wvexct" for b in two]
    glues += [(b"k", 1)] + [(b"p:%d" % i, 2) for i in range(1, bits)]

    def border(i):
        return b"p:%d" % i if 0 < i < bits else b"-"

    tiles = []
    for i in range(bits):
        kind = b"w" if i == 0 else b"e" if i == bits - 1 else b"v"
        tiles.append((b"t:%d" % i, b"%s%d" % (kind, start >> (bits - 1 - i) & 1), border(i + 1), b"-", border(i)))
    tiles += [(b"ie:%d" % b, b"x%d" % (1 - b), b"-", b"e%d" % b, b"c%d" % b) for b in two]
    tiles += [(b"im:%d%d" % (b, c), b"v%d" % (b ^ c), b"c%d" % c, b"v%d" % b, b"c%d" % (b & c)) for b, c in four]
    tiles += [(b"iw:%d%d" % (b, c), b"-" if b & c else b"t%d" % (b ^ c), b"c%d" % c, b"w%d" % b, b"-") for b, c in four]
    tiles += [(b"cw:%d" % b, b"w%d" % b, b"k", b"t%d" % b, b"-") for b in two]
    tiles += [(b"cm:%d" % b, b"v%d" % b, b"k", b"v%d" % b, b"k") for b in two]
    tiles += [(b"ce:%d" % b, b"e%d" % b, b"-", b"x%d" % b, b"k") for b in two]
    return system_text(glues, tiles, bits, 2 * (2**bits - start))


def load_text(number):
    bits = 2 + number % 31
    start = 2**bits - 1 - number // 31 % min(2**bits, 512)
    tiles = bits * 2 * (2**bits - start)
    return b"load %d bits %d start %d\ntiles %d\nclosed terminal\nunique yes\n" % (number, bits, start, tiles)
