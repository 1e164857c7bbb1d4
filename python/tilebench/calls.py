"""The commands of the program as calls: each takes the command's words as arguments, and answers what can be read.

A system is a `System` or its text. A refusal is raised as `Refused`, with its line and cause; no program as
`NoProgram`; want of memory and streams that fail as `ProgramFailed`. docs/FORMATS.md says what each command answers.
"""
from __future__ import annotations

import json
from collections.abc import Iterable, Iterator
from dataclasses import dataclass, field
from typing import Any, Union

from tilebench import lines, program
from tilebench.growth import Certificate, Growth, Verdict
from tilebench.system import Site, System

Text = Union[str, bytes]
SystemOrText = Union[System, str, bytes]
Places = Union[Growth, Iterable[tuple[Site, str]]]
# how many jobs a batch has at most, how many sites their boxes have together, and how many bytes of it are handed in
MOST_JOBS, MOST_SITES, MOST_BYTES = 1024, 4194304, (1 << 26) - 1024


def system_of(system: SystemOrText) -> System:
    """The system itself. Of a text that the reader here can't take the program says what is amiss."""
    return system if isinstance(system, System) else System.read(lines.alone(lines.as_text(system)))


def text_of(system: SystemOrText) -> str:
    """The text of a system, as it was written."""
    return system.text if isinstance(system, System) else lines.as_text(system)


def growth_of(system: System, places: Places) -> Growth:
    """The places as a growth."""
    return places if isinstance(places, Growth) else Growth.of(system, places)


def both(places: Places, system: System | None) -> tuple[System, str]:
    """The system of places, and its text with their lines behind it."""
    if system is None:
        if not isinstance(places, Growth):
            raise TypeError("places that are no Growth need their system")
        system = places.system
    return system, system.text + growth_of(system, places).text


# ---- what grows


def grow(system: SystemOrText, *, workers: int = 1, choice: int = 0) -> Growth:
    """Grows a system in its box, by 1 to 16 workers; `choice` (0 to 2^64 - 1) picks among types and branches that
    race."""
    _, out = program.answer(["grow", "--workers", workers, "--choice", choice], text_of(system))
    return Growth.read(system_of(system), out)


def watch(system: SystemOrText, *, workers: int = 1, choice: int = 0, frames: int = 1) -> Growth:
    """Grows as `grow` does, and takes 1 to 1000 frames meanwhile: see `Growth.frame`."""
    _, out = program.answer(["watch", "--workers", workers, "--choice", choice, "--frames", frames], text_of(system))
    return Growth.read(system_of(system), out)


@dataclass(frozen=True)
class Race:
    """How many tiles each worker won, and all of them but the seeds."""

    won: list[int]
    total: int


def race(system: SystemOrText, *, workers: int = 1, choice: int = 0) -> Race:
    """Grows as `grow` does, and counts the tiles that each worker won."""
    _, out = program.answer(["race", "--workers", workers, "--choice", choice], text_of(system))
    counts = [int(line.split()[-1]) for line in out.splitlines()]
    return Race(counts[:-1], counts[-1])


def report(system: SystemOrText, *, workers: int = 1, choice: int = 0) -> dict[str, Any]:
    """Grows as `grow` does, and answers counts: `tiles`, `types`, `width`, `unique` and so on."""
    return dict(json.loads(program.answer(["report", "--workers", workers, "--choice", choice], text_of(system))[1]))


def batch(systems: Iterable[SystemOrText], *, choice: int = 0, workers: int = 1) -> Iterator[Growth]:
    """Grows many systems, and answers the growths one after the other, as they come.

    One run of the program takes up to 1024 systems whose boxes have at most 4194304 sites together; of more there are
    several. Each grows as one worker of `grow` grows it with this choice, 0 to 4294967295; `workers` share the systems
    out among them, and no growth depends on their number.
    """
    taken: list[System] = []
    sites = size = 0
    for it in systems:
        system = system_of(it)
        x0, y0, x1, y1 = system.box
        area, bytes_more = (x1 - x0 + 1) * (y1 - y0 + 1), len(system.text.encode()) + 16
        if taken and (len(taken) == MOST_JOBS or sites + area > MOST_SITES or size + bytes_more > MOST_BYTES):
            yield from one_batch(taken, choice, workers)
            taken, sites, size = [], 0, 0
        taken.append(system)
        sites, size = sites + area, size + bytes_more
    if taken:
        yield from one_batch(taken, choice, workers)


def one_batch(systems: list[System], choice: int, workers: int) -> Iterator[Growth]:
    """The growths of one run."""
    text = "batch 1\n" + "".join(f"job {choice}\n{it.text}" for it in systems)
    at, part = -1, [b""]
    for line in program.answered_lines(["batch", "--workers", workers], text):
        if line.startswith((b"job ", b"done ")):
            if at >= 0:
                yield Growth.read(systems[at], b"".join(part))
            at, part = at + 1, []
        else:
            part.append(line)


# ---- what is judged


@dataclass(frozen=True)
class Check:
    """Whether a sequence is legal, and the verdict where it is. `breach` is 1 where it does not begin with the seeds, 2
    where the place at `index` has a site that is taken, 3 where it is held by `pull` alone. It is true where it is
    legal."""

    is_legal: bool
    breach: int | None = None
    index: int | None = None
    pull: int | None = None
    verdict: Verdict | None = None
    words: str = ""

    def __bool__(self) -> bool:
        return self.is_legal


def check(places: Places, system: System | None = None) -> Check:
    """Judges a sequence of places in their order: a growth, or (site, type) pairs and their system."""
    _, out = program.answer(["check"], both(places, system)[1])
    first, *rest = [line.decode().split() for line in out.splitlines()]
    if first[1] == "yes":
        return Check(True, verdict=Verdict.of(rest[0]), words="legal yes")
    numbers = [*map(int, first[2:]), None, None]
    return Check(False, numbers[0], numbers[1], numbers[2], words=" ".join(first))


@dataclass(frozen=True)
class Stuck:
    """Tiles that can't grow: the site of a seed that is missing, or how many are `left` and the least site of theirs.
    It is false."""

    words: str
    site: Site
    left: int | None = None

    def __bool__(self) -> bool:
        return False

    @classmethod
    def of(cls, words: list[str]) -> Stuck:
        """What a `stuck` line says, by its words."""
        return cls(" ".join(words), (int(words[2]), int(words[3])), None if words[1] == "seed" else int(words[1]))


def replay(places: Places, system: System | None = None) -> Growth | Stuck:
    """The tiles of a grid in the canonical order in which they can attach."""
    system, text = both(places, system)
    is_yes, out = program.answer(["replay"], text)
    return Growth.read(system, out) if is_yes else Stuck.of(out.decode().split())


def certify(places: Places, system: System | None = None) -> Certificate | Verdict | Stuck:
    """A certificate of local determinism; where there is none, the verdict (a no), or what is stuck: both are false."""
    system, text = both(places, system)
    is_yes, out = program.answer(["certify"], text)
    if not is_yes:
        words = out.decode().split()
        return Stuck.of(words) if words[0] == "stuck" else Verdict.of(words)
    found = Growth.read(system, out)
    assert isinstance(found, Certificate)
    return found


@dataclass(frozen=True)
class Verified:
    """Whether a certificate is good; else the first `code` that fails, 1 to 7, its site, and what is told of it. It is
    true where the certificate is good."""

    is_good: bool
    words: str
    code: int | None = None
    site: Site | None = None
    cause: str | None = None

    def __bool__(self) -> bool:
        return self.is_good


def verify(certificate: Certificate, *, workers: int = 1) -> Verified:
    """Checks a certificate, site by site, by 1 to 16 workers."""
    is_good, out = program.answer(["verify", "--workers", workers], certificate.system.text + certificate.text)
    words = out.decode().split()
    if is_good:
        return Verified(True, " ".join(words))
    return Verified(
        False, " ".join(words), int(words[2]), (int(words[3]), int(words[4])), words[5] if len(words) > 5 else None
    )


# ---- what is scheduled, compiled and printed


@dataclass(frozen=True)
class Schedule:
    """What each event of a schedule came to, as a line's words, and the tiles that stand after all. It is true where
    none was refused."""

    replies: list[str]
    growth: Growth = field(repr=False)

    def __bool__(self) -> bool:
        return not any(it.startswith("refused") for it in self.replies)


def schedule(system: SystemOrText, events: str | Iterable[str]) -> Schedule:
    """Goes through events of scouts: `look W X Y`, `claim W X Y NAME`, `split W` and `join W V`, as a text or as
    lines."""
    text = events if isinstance(events, str) else "".join(f"{it}\n" for it in events)
    _, out = program.answer(["schedule"], text_of(system) + text)
    told = out.decode().splitlines(True)
    first = next((at for at, line in enumerate(told) if line.startswith("place ")), len(told))
    return Schedule([line.strip() for line in told[:first]], Growth.read(system_of(system), "".join(told[first:])))


def turing(machine: Text) -> System:
    """The system that runs a Turing machine, by the machine's text."""
    return System.read(program.answer(["turing"], machine)[1])


def quadrant(rule: Text) -> System:
    """The system of a two-input rule, by the rule's text."""
    return System.read(program.answer(["quadrant"], rule)[1])


def counter(bits: int, start: int) -> System:
    """The system of a binary counter of 2 to 32 bits that goes from a start to 2^bits - 1 and on to 0, two rows a
    number."""
    return System.read(program.answer(["counter", bits, start])[1])


def load(number: int) -> str:
    """What `load N` prints: a counter made from the number, grown by four workers."""
    return program.answer(["load", number])[1].decode()


def formatted(system: SystemOrText) -> System:
    """The system by its one printed spelling, without remarks; a text that is not in order is refused."""
    return System.read(program.answer(["format"], text_of(system))[1])


def upgraded(system: SystemOrText) -> System:
    """The same by version 2 of the text."""
    return System.read(program.answer(["upgrade"], text_of(system))[1])


def picture(places: Places, system: System | None = None) -> str:
    """The rows of the box as letters, the highest first."""
    return program.answer(["picture"], both(places, system)[1])[1].decode()


def refusal(system: SystemOrText) -> Any:
    """The `Refused` of a system's text, or None where the program takes it."""
    from tilebench.faults import Refused

    try:
        program.answer(["format"], text_of(system))
    except Refused as why:
        return why
    return None
