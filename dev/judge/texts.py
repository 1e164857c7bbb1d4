"""Lines, words, numbers and names of a text, with the first fault of each, from docs/FORMATS.md. Names and texts are
bytes."""
import re

LONGEST_INPUT = 67108864
LONGEST_LINE = 256
FARTHEST = 1000000
LONGEST_SIDE = 1024
MOST_GLUES, MOST_TYPES = 8192, 16384
MOST_PAIRS, MOST_SEEDS = 65536, 4096
U32, U64 = 2**32 - 1, 2**64 - 1
STEPS = ((0, 1), (1, 0), (0, -1), (-1, 0))
SIGNS = b"ABCDEFGHIJKLMNOPQRSTUVWXYZabcdefghijklmnopqrstuvwxyz0123456789"
NUMBER = re.compile(rb"-?[0-9]{1,10}")
NAME = re.compile(rb"[A-Za-z0-9_:.]{1,40}")
SHORT_NAME = re.compile(rb"[A-Za-z0-9_]{1,8}")


class Fault(Exception):
    """The first fault of an input: the number of the line, and the cause."""

    def __init__(self, line, cause):
        super().__init__(f"line {line} {cause}")
        self.line, self.cause = line, cause


class Cause(Exception):
    """A check of a line that fails."""


class TooLarge(Exception):
    """More tiles than the judge is to look at."""


class Lines:
    """The lines of an input, one after the other; `number` is that of the last one, or one more than there are."""

    def __init__(self, text):
        if len(text) > LONGEST_INPUT:
            raise Fault(0, "TooLong")
        self.lines, self.number = text.split(b"\n"), 0

    def next(self):
        """The words of the next line that is not skipped, or None at the end."""
        while self.number < len(self.lines):
            line = self.lines[self.number]
            self.number += 1
            is_cut = self.number == len(self.lines)
            if len(line) > LONGEST_LINE:
                raise Fault(self.number, "LineTooLong")
            if is_cut and line:
                raise Fault(self.number, "NoEnd")
            words = [it for it in line.split(b" ") if it]
            if words and not words[0].startswith(b"#"):
                return words
        return None

    def end(self):
        """Nothing may follow that is not skipped."""
        if self.next() is not None:
            raise Fault(self.number, "AfterEnd")


def number_in(word, least, most):
    if not NUMBER.fullmatch(word):
        raise Cause("BadNumber")
    if not least <= int(word) <= most:
        raise Cause("OutOfRange")
    return int(word)


def site_in(words):
    return number_in(words[0], -FARTHEST, FARTHEST), number_in(words[1], -FARTHEST, FARTHEST)


def declared(word, names, form=NAME):
    """A name that a line declares: its index is how many there were."""
    if not form.fullmatch(word):
        raise Cause("BadName")
    if word in names:
        raise Cause("DoubleName")
    names[word] = len(names)


def referred(word, names, form=NAME):
    """The index of a name that a line refers to."""
    if not form.fullmatch(word):
        raise Cause("BadName")
    if word not in names:
        raise Cause("UnknownName")
    return names[word]


def read_text(lines, header, keywords, item, before=None):
    """Goes through a text. `keywords` has for each keyword the number of its words, whether more are allowed, and what
    it may stand after, None being the start; `item` is called with each line's words, and raises the cause of its
    fault. A header that was read already is what stands `before`."""
    if header is not None:
        if lines.next() != header:
            raise Fault(lines.number, "NoHeader")
        before = header[0]
    while True:
        words = lines.next()
        if words is None:
            if b"end" in keywords:
                raise Fault(lines.number, "NoEnd")
            return
        many, is_open, after = keywords.get(words[0], (0, False, ()))
        if len(words) != many and not (is_open and len(words) > many) or not many:
            raise Fault(lines.number, "BadLine")
        if before not in after:
            raise Fault(lines.number, "OutOfOrder")
        try:
            item(words)
        except Cause as why:
            raise Fault(lines.number, str(why)) from None
        before = words[0]
        if before == b"end":
            return
