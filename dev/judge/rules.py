"""What `quadrant` must answer: two-input rules and the systems that they are compiled to, from docs/FORMATS.md and
docs/MODEL.md."""
from judge.texts import Cause, declared, number_in, read_text, referred, SHORT_NAME

MOST_SYMBOLS, LONGEST = 64, 1023
RULES = {
    b"quadrant": (2, False, ()),
    b"symbol": (2, False, (b"quadrant", b"symbol")),
    b"rule": (5, False, (b"symbol", b"rule")),
    b"size": (3, False, (b"symbol", b"rule")),
    b"bottom": (2, True, (b"size", b"bottom")),
    b"left": (2, True, (b"size", b"bottom", b"left")),
    b"end": (1, False, (b"size", b"bottom", b"left")),
}


class Quadrant:
    """A two-input rule: what goes on to the east and to the north for each pair of a west and a south symbol."""

    def __init__(self):
        self.symbols, self.rules, self.size, self.given = {}, {}, (0, 0), {b"bottom": [], b"left": []}

    def symbol(self, word):
        return referred(word, self.symbols, SHORT_NAME)

    def item(self, words):
        """Takes a line of a rule text."""
        kind = words[0]
        if kind == b"symbol":
            if len(self.symbols) == MOST_SYMBOLS:
                raise Cause("TooMany")
            declared(words[1], self.symbols, SHORT_NAME)
        elif kind == b"rule":
            pair = self.symbol(words[1]), self.symbol(words[2])
            if pair in self.rules:
                raise Cause("DoubleName")
            self.rules[pair] = self.symbol(words[3]), self.symbol(words[4])
        elif kind == b"size":
            self.size = tuple(number_in(it, 1, LONGEST) for it in words[1:])
        elif kind in self.given:
            given = self.given[kind]
            if len(given) + len(words) - 1 > self.size[kind == b"left"]:
                raise Cause("TooMany")
            given += [self.symbol(it) for it in words[1:]]

    def border(self, kind, many):
        """The symbols of a border, from 1 on; those that are not given are the first symbol."""
        return self.given[kind] + [0] * (many - len(self.given[kind]))

    def system(self):
        """The text of the rule's system, by the table in docs/MODEL.md."""
        symbols, (width, height) = list(self.symbols), self.size
        glues = [(b"%s:%s" % (way, it), 1) for way in (b"h", b"v") for it in symbols]
        glues += [(b"b:%d" % it, 2) for it in range(1, width + 1)] + [(b"a:%d" % it, 2) for it in range(1, height + 1)]

        def beyond(letter, at, most):
            return b"%s:%d" % (letter, at + 1) if at < most else b"-"

        tiles = [(b"o", b"a:1", b"b:1", b"-", b"-")]
        for at, it in enumerate(self.border(b"bottom", width), 1):
            tiles.append((b"b:%d" % at, b"v:" + symbols[it], beyond(b"b", at, width), b"-", b"b:%d" % at))
        for at, it in enumerate(self.border(b"left", height), 1):
            tiles.append((b"a:%d" % at, beyond(b"a", at, height), b"h:" + symbols[it], b"a:%d" % at, b"-"))
        for (west, south), (east, north) in sorted(self.rules.items()):
            west, south, east, north = (symbols[it] for it in (west, south, east, north))
            tiles.append((b"q:%s:%s" % (west, south), b"v:" + north, b"h:" + east, b"v:" + south, b"h:" + west))
        lines = [b"tiles 1", b"tau 2"] + [b"glue %s %d" % it for it in glues]
        lines += [b"tile %s %s %s %s %s" % it for it in tiles]
        return b"\n".join(lines + [b"box 0 0 %d %d" % (width, height), b"seed 0 0 o", b"end\n"])


def read_quadrant(lines):
    quadrant = Quadrant()
    read_text(lines, [b"quadrant", b"1"], RULES, quadrant.item)
    return quadrant
