"""What an answer of the program says, in words: which tiles and glues hold a site, what a rival is held by, what is
missing."""
from __future__ import annotations

from collections.abc import Iterable, Iterator
from itertools import islice

from tilebench import answers, calls, conditions, lines, refusals, wider
from tilebench.faults import TilebenchError
from tilebench.growth import Certificate, Growth, Verdict
from tilebench.lint import is_compiled
from tilebench.system import System

# how many pairs of types and offers are named, and how many sites of each
MOST_NAMED, MOST_SITES = 10, 3
TOLD = ("closed", "unique", "legal", "stuck", "verified", "refused")


def sites_told(broken: conditions.Break) -> str:
    """The first sites of a break, and how many more there are."""
    more = f" and {broken.count - MOST_SITES} more" if broken.count > MOST_SITES else ""
    return ", ".join(map(str, broken.first_sites(MOST_SITES))) + more


def named(told: Iterable[str], many: int, what: str) -> Iterator[str]:
    """The first of so many lines, and how many more there are."""
    yield from islice(told, MOST_NAMED)
    if many > MOST_NAMED:
        yield f"and {many - MOST_NAMED} more {what}"


def break_told(it: conditions.Break) -> str:
    """What breaks a condition at some sites."""
    what = {
        1: f"{it.name} is held by more than it needs",
        2: f"{it.other} for {it.name}",
        3: f"{it.other} attaches",
    }[it.condition]
    many = f"at {it.count} sites: " if it.count > 1 else "at "
    return f"{what} {many}{sites_told(it)} ({it.bonds})"


def breaks_of(growth: Growth) -> list[conditions.Break]:
    """All sites that break a condition like the one that the verdict names, by pair of types."""
    verdict = growth.verdict
    if verdict is None or verdict.is_yes:
        return []
    return conditions.breaks_of_sites(growth) if verdict.condition == 3 else conditions.breaks_of_tiles(growth)


def breaks_told(found: list[conditions.Break]) -> Iterator[str]:
    """All sites that break a condition, where the verdict names one of several."""
    if sum(it.count for it in found) < 2:
        return
    yield "in all:"
    yield from (f"  {it}" for it in named(map(break_told, found), len(found), "pairs of types"))


def untaken_told(growth: Growth) -> Iterator[str]:
    """The open sites that are offered enough and that no type takes. One strong glue that no type takes often ends a
    pattern on purpose: it is told where types are missing alone."""
    if is_compiled(growth.system):
        return
    found = [it for it in conditions.untaken(growth) if it.count > 1 or growth.unplaced]
    yield from named(map(conditions.untaken_told, found), len(found), "inputs that no type takes")


def growth_told(growth: Growth) -> Iterator[str]:
    """The lines behind the places, and behind each what it means. What a wider box brings is told where nothing else
    can grow in this one, and of the types that are placed nowhere those alone that are not told of as rivals."""
    verdict, found = growth.verdict, breaks_of(growth)
    if growth.closed is not None:
        is_cut = growth.closed.site is not None and (verdict is None or verdict.is_one_within)
        advice = wider.wider_told(growth) if is_cut else ""
        yield growth.closed.words
        yield f"  {answers.closed_told(growth)}" + (f". {advice}" if advice else "")
    if verdict is not None:
        yield verdict.words
        yield f"  {answers.verdict_told(growth)}"
        yield from (f"  {it}" for it in breaks_told(found))
    yield from (f"  {it}" for it in untaken_told(growth))
    rivals = {it.other for it in found if it.condition == 2}
    missing = [it for it in growth.unplaced if it not in rivals]
    if missing:
        yield f"  placed nowhere: {lines.listed(missing)}; tools/lint looks for what they lack"


def line_of(growth: Growth, words: list[str]) -> list[str]:
    """What a line of an answer says, and behind it what it means."""
    told: str | None = ""
    if words[0] == "unique":
        growth.verdict = Verdict.of(words)
        told = answers.verdict_told(growth)
    elif words[0] == "legal":
        told = answers.legal_told(growth, words)
    elif words[0] == "stuck":
        told = answers.stuck_told(growth, words)
    elif words[0] == "verified":
        marks = growth if isinstance(growth, Certificate) else Certificate(growth.system)
        told = answers.verified_told(marks, words)
    return [" ".join(words)] + ([f"  {told}"] if told else [])


def place_line(text: bytes, index: int) -> str:
    """The `place` line with an index, by its number."""
    placed = [(at, it) for at, it in enumerate(text.split(b"\n"), 1) if it.split()[:1] == [b"place"]]
    at, place = placed[index]
    return f"line {at}: {refusals.visible(place)}"


def schedule_told(system: System, behind: list[lines.Row], answer: bytes) -> Iterator[str]:
    """The events that were refused, each with its line and what is behind it."""
    told = answer.decode(errors="replace").splitlines()
    growth = Growth.read(system, "\n".join(it for it in told if it.startswith("place ")) + "\n")
    for (number, event), reply in zip(behind, told):
        if reply.startswith("refused "):
            yield f"line {number}: {' '.join(event)}"
            yield f"  {reply}: {answers.refused_told(system, growth, event, reply.split())}"


def batch_told(text: bytes, answer: bytes) -> Iterator[str]:
    """What is said of each job, with the line at which it stands."""
    came = answer.decode(errors="replace")
    for at, ((number, system), (_, grown)) in enumerate(zip(lines.jobs(lines.as_text(text)), lines.jobs(came))):
        yield f"job {at}, line {number}"
        yield from (f"  {it}" for it in growth_told(Growth.read(System.read(system), grown)))
    yield came.splitlines()[-1]


def answer_told(command: str, text: bytes, answer: bytes) -> Iterator[str]:
    """What the lines of an answer say, behind each what it means."""
    if command == "batch":
        yield from batch_told(text, answer)
        return
    try:
        system, number = System.read_with_rest(text)
    except TilebenchError:
        return
    if command in ("grow", "watch"):
        growth = Growth.read(system, answer)
        if growth.frames:
            yield f"frames with {', '.join(map(str, growth.frames))} tiles"
        yield from growth_told(growth)
        return
    rest = text.split(b"\n", number)[-1]
    if command == "schedule":
        yield from schedule_told(system, list(lines.rows(rest.decode(), number + 1)), answer)
        return
    if answer.startswith(b"mark "):
        many = answer.count(b"\n")
        yield f"a certificate of {many} tiles: nothing else can grow"
        return
    growth = (
        Growth.read(system, rest, number + 1) if command in ("check", "certify", "replay", "verify") else Growth(system)
    )
    if command == "certify" and answer.startswith(b"unique "):
        # (the verdict is that on the order of replay)
        order = calls.replay(growth)
        growth = order if isinstance(order, Growth) else growth
    for _, words in lines.rows(answer.decode(errors="replace")):
        if words[0] in TOLD:
            yield from line_of(growth, words)
            if words[0] == "legal" and len(words) > 3:
                yield place_line(text, int(words[3]))
