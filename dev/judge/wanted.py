"""What must come of a question, and how what came is held against it where it is free."""
import re

from judge.model import canonical, growth_text, is_closed_in_box, least_open
from judge.systems import read_places
from judge.texts import Fault, Lines


class Wanted:
    """An answer that may come: its status and bytes, or what must hold of what is printed on standard output."""

    def __init__(self, status, out=b"", err=b"", check=None, is_read=True):
        self.status, self.out, self.err, self.check, self.is_read = status, out, err, check, is_read

    def objection(self, came):
        """What is wrong with an answer, or None."""
        if came.status != self.status:
            return f"status {came.status}, wanted {self.status}"
        if came.err != self.err:
            return f"standard error {came.err[:200]!r}, wanted {self.err[:200]!r}"
        if self.check is None and came.out != self.out:
            return f"standard output {came.out[:200]!r}, wanted {self.out[:200]!r}"
        if not self.is_read and came.taken:
            return f"{came.taken} bytes of the input were read, wanted none"
        return None if self.check is None else self.check(came.out)

    def told(self):
        """What is wanted, for a reader."""
        free = b"(free, but for what the judge asks of it)\n" if self.check is not None else self.out
        return b"status %d\nstandard output:\n%s\nstandard error:\n%s\n" % (self.status, free, self.err)


def refused_words(cause):
    return Wanted(2, err=b"refused words %s\n" % cause.encode(), is_read=False)


def wanted_report(system, many, word, won):
    """The line of a report; `won` is the inside of its last list."""
    closed = b"clipped" if least_open(system, many, True) else b"terminal"
    numbers = (
        closed,
        len(system.glues),
        system.height(),
        system.tau,
        len(many),
        len(system.types),
        word,
        system.width(),
        won,
    )
    return (
        b'{"closed":"%s","glues":%d,"height":%d,"tau":%d,"tiles":%d,"types":%d,"unique":"%s","width":%d,"won":[%s]}\n'
        % numbers
    )


def is_only_one(said):
    """Whether a verdict says that within the box nothing else can grow: a yes, or a no by the third condition."""
    return said == b"yes" or said.startswith(b"no 3 ")


def check_growth(system):
    """Judges what `grow` printed where several growths may be right."""

    def check(out):
        try:
            places = read_places(Lines(out), system, True)
        except Fault as why:
            return f"what it printed does not read as a growth: {why}"
        tiles = dict(places)
        if places[: len(system.seeds)] != system.seeds:
            return "it does not begin with the seeds"
        if len(canonical(system, tiles)) != len(tiles):
            return "its tiles can't grow"
        if not is_closed_in_box(system, tiles):
            return "it is not closed in the box"
        text, said = growth_text(system, tiles)
        if is_only_one(said):
            return f"the verdict {said!r} leaves one growth, and the judge's own has another verdict: one of the two is wrong"
        return None if out == text else f"it should say {text[-300:]!r} at its end, in canonical order"

    return check


def counts_of(lines, workers, form):
    """The counts in lines that must be just so, or None."""
    found = [re.fullmatch(form % it, line) for it, line in zip(range(workers), lines)]
    return [int(it[1]) for it in found] if len(lines) == workers and all(found) else None


def check_race(system, workers, tiles):
    """Judges what `race` printed; `tiles` is how many stand, None where that is free."""

    def check(out):
        lines = out.split(b"\n")
        won = counts_of(lines[:-2], workers, rb"won %d (0|[1-9][0-9]*)")
        if won is None or lines[-2:] != [b"total %d" % sum(won), b""]:
            return f"no lines of a race by {workers} workers: {out[:300]!r}"
        seeds = len(system.seeds)
        if sum(won) != tiles - seeds if tiles is not None else sum(won) + seeds > system.width() * system.height():
            return f"{sum(won)} tiles were won, wanted {tiles} without the seeds"
        return None

    return check


def check_report(system, workers, tiles, word):
    """Judges a report; `tiles` are those that stand, None where that is free; `word` is that of the verdict."""

    def check(out):
        found = re.fullmatch(rb'.*"tiles":([1-9][0-9]*),.*"won":\[((?:0|[1-9][0-9]*)(?:,(?:0|[1-9][0-9]*))*)\]}\n', out)
        if not found:
            return f"no report: {out[:300]!r}"
        won = [int(it) for it in found[2].split(b",")]
        if len(won) != workers or sum(won) != int(found[1]) - len(system.seeds):
            return f"the counts {won} of {workers} workers are not those of {int(found[1])} tiles"
        if tiles is not None:
            text = wanted_report(system, tiles, word, found[2])
            return None if out == text else f"wanted {text!r}"
        texts = [wanted_report(system, {}, word, found[2]).replace(b'"tiles":0', b'"tiles":' + found[1])]
        texts.append(texts[0].replace(b"terminal", b"clipped"))
        return None if out in texts else f"wanted {texts[0]!r}, or clipped"

    return check


def stuck(system, tiles):
    """What must come where the seeds are not there or can't reach all tiles, or None."""
    for site, kind in system.seeds:
        if tiles.get(site) != kind:
            return Wanted(1, b"stuck seed %d %d\n" % site)
    left = set(tiles) - {site for site, _ in canonical(system, tiles)}
    return Wanted(1, b"stuck %d %d %d\n" % (len(left), *min(left, key=lambda it: (it[1], it[0])))) if left else None
