"""What `batch` must answer: many systems, each grown by the choice of its job, from docs/FORMATS.md."""
import re

from judge.model import full_growth, growth_text
from judge.systems import read_system
from judge.texts import Cause, Fault, number_in, U32
from judge.wanted import check_growth, is_only_one, Wanted

MOST_JOBS, MOST_SITES = 1024, 4194304


def read_batch(lines):
    """The systems of the jobs, in their order."""
    if lines.next() != [b"batch", b"1"]:
        raise Fault(lines.number, "NoHeader")
    systems, sites, words = [], 0, lines.next()
    while words is not None:
        if words[0] != b"job" or len(words) != 2:
            raise Fault(lines.number, "BadLine")
        if len(systems) == MOST_JOBS:
            raise Fault(lines.number, "TooMany")
        try:
            number_in(words[1], 0, U32)
        except Cause as why:
            raise Fault(lines.number, str(why)) from None
        system = read_system(lines, "NoEnd")
        sites += system.width() * system.height()
        if sites > MOST_SITES:
            raise Fault(lines.number, "TooMany")
        systems.append(system)
        words = lines.next()
    if not systems:
        raise Fault(lines.number, "NoEnd")
    return systems


def objection(check, part):
    """What is wrong with a job's part: `check` is the one text that is right, or says what is wrong with one."""
    if callable(check):
        return check(part)
    return None if part == check else f"wanted {check[-300:]!r} at its end"


def check_batch(checks, end):
    """Judges what `batch` printed, job by job: each part as what `grow` prints with the job's number."""

    def check(out):
        if not out.endswith(end):
            return f"it does not end with {end!r}"
        parts = re.split(rb"(?m)^job ([0-9]+)\n", out[: -len(end)])
        if parts[0] != b"" or [int(it) for it in parts[1::2]] != list(range(len(checks))):
            return "it is not one part for each job, in their order"
        for number, (wanted, part) in enumerate(zip(checks, parts[2::2])):
            wrong = objection(wanted, part)
            if wrong:
                return f"job {number}: {wrong}"
        return None

    return check


def wanted_batch(systems, most):
    """What must come: which of several growths a job shows is free where more than one is right."""
    checks, yes = [], 0
    for system in systems:
        tiles = full_growth(system, most)
        text, said = growth_text(system, tiles)
        most, yes = most - len(tiles), yes + (said == b"yes")
        checks.append(text if is_only_one(said) else check_growth(system))
    end = b"done %d yes %d\n" % (len(systems), yes)
    return Wanted(0 if yes == len(systems) else 1, check=check_batch(checks, end))
