"""What is behind a refusal: the line, the cause in words, and the mistakes that mostly lead to it.

The refusal is the program's; what is behind it is a guess. tools/explain tells it, and so does the page.
"""
from __future__ import annotations

import difflib
import re
from collections.abc import Callable, Iterator

WORDS = {
    "tiles": 2,
    "tau": 2,
    "glue": 3,
    "pair": 4,
    "tile": 6,
    "box": 5,
    "seed": 4,
    "end": 1,
    "place": 4,
    "mark": 6,
    "look": 4,
    "claim": 5,
    "split": 2,
    "join": 3,
}
BEFORE = {
    "tau": "the header `tiles 1` or `tiles 2`",
    "glue": "`tau`, and no `pair` or `tile` line",
    "pair": "a `glue` line, and no `tile` line",
    "tile": "`tau`",
    "box": "a `tile` line",
    "seed": "`box`",
    "end": "`seed`",
}
MACHINE_WORDS = {
    "machine": 2,
    "state": 2,
    "symbol": 2,
    "rule": 6,
    "cells": 2,
    "rows": 2,
    "head": 2,
    "tape": 2,
    "end": 1,
}
MACHINE_BEFORE = {
    "state": "the header `machine 1`, and no `symbol` line",
    "symbol": "a `state` line, and no `rule` line",
    "rule": "a `symbol` line",
    "cells": "a `symbol` line",
    "rows": "`cells`",
    "head": "`rows`",
    "tape": "`head`",
    "end": "`head`",
}
RULE_WORDS = {"quadrant": 2, "symbol": 2, "rule": 5, "size": 3, "bottom": 2, "left": 2, "end": 1}
RULE_BEFORE = {
    "symbol": "the header `quadrant 1`, and no `rule` line",
    "rule": "a `symbol` line, and no `size` line",
    "size": "a `symbol` line",
    "bottom": "`size`, and no `left` line",
    "left": "`size`",
    "end": "`size`",
}
BATCH_BEFORE = {**BEFORE, "job": "the header `batch 1`, or the `end` of a system"}
LIMITS = {
    "job": "at most 1024 jobs",
    "end": "at most 4194304 sites in the boxes of all jobs",
    "glue": "at most 8192 glues",
    "pair": "at most 65536 pairs",
    "tile": "at most 16384 types",
    "seed": "at most 4096 seeds",
    "state": "at most 64 states",
    "symbol": "at most 64 symbols",
    "tape": "at most as many symbols as cells",
    "bottom": "at most as many symbols as columns",
    "left": "at most as many symbols as rows",
}
WORDS_CAUSES = {
    "BitsOutOfRange": "a counter has 2 to 32 bits",
    "StartTooLarge": "a counter of BITS bits starts below 2^BITS",
    "TooTall": "a counter has two rows for each number from START to 2^BITS - 1, and its box at most 1024 rows; "
    "so START is at least 2^BITS - 512",
    "NoCommand": "the first word is no command",
    "Usage": "the command does not take these words",
}
CAUSES = {
    "LineTooLong": "the line has more than 256 bytes",
    "NoEnd": "the text ends too early",
    "NoHeader": "a text begins with the line `{header}`",
    "BadLine": "the first word is no keyword here, or the line has not its keyword's number of words",
    "OutOfOrder": "the keyword may not stand here",
    "TooMany": "there are too many of these: {limit}",
    "BadName": "a name is 1 to 40 of the bytes A-Z a-z 0-9 _ : . (of a machine or a rule 1 to 8 of A-Z a-z 0-9 _; "
    "a move is L, R or S)",
    "DoubleName": "the name is declared twice",
    "UnknownName": "the name is not declared",
    "BadNumber": "a number is an optional - and 1 to 10 decimal digits",
    "OutOfRange": "a number is too large or too small",
    "SeedOutside": "a seed is not in the box",
    "AfterEnd": "the command reads one text alone, and something follows its `end` line",
    "OutsideBox": "the site is not in the system's box",
    "DoubleSite": "the site has an earlier line",
    "TooLong": "the input has more than 67108864 bytes",
}


class Kind:
    """A kind of text: its header as it is to stand, the words of each line, and what stands before it."""

    def __init__(self, name: str, header: str, words: dict[str, int], before: dict[str, str]):
        self.name, self.header, self.words, self.before = name, header, words, before


SYSTEM = Kind("system", "tiles 1` or `tiles 2", WORDS, BEFORE)
KINDS = {
    "turing": Kind("machine", "machine 1", MACHINE_WORDS, MACHINE_BEFORE),
    "quadrant": Kind("two-input rule", "quadrant 1", RULE_WORDS, RULE_BEFORE),
    "batch": Kind(
        "batch",
        "batch 1",
        {**{it: many for it, many in WORDS.items() if it in BEFORE}, "tiles": 2, "batch": 2, "job": 2},
        BATCH_BEFORE,
    ),
}
# what some lines have, behind their keyword
FIELDS = {
    "tau": "the temperature",
    "glue": "a name, then its strength",
    "pair": "the names of two glues, then a strength",
    "tile": "a name, then its north, east, south and west sides, - for none",
    "box": "x and y of the lower left corner, then of the upper right one",
    "seed": "x, then y, then the name of a type",
    "place": "x, then y, then the name of a type",
    "mark": "x, then y, then the name of a type, then sides and a rank",
}
# where numbers stand in a line
NUMBERS = {
    "tau": (1,),
    "glue": (2,),
    "pair": (3,),
    "box": (1, 2, 3, 4),
    "seed": (1, 2),
    "place": (1, 2),
    "mark": (1, 2, 5),
    "job": (1,),
    "look": (1, 2, 3),
    "claim": (1, 2, 3),
    "split": (1,),
    "join": (1, 2),
}
NUMBERS |= {"cells": (1,), "rows": (1,), "head": (1,), "size": (1, 2)}
# where coordinates stand
SITES = {"box": (1, 2, 3, 4), "seed": (1, 2), "place": (1, 2), "mark": (1, 2), "look": (2, 3), "claim": (2, 3)}
# what stands behind a system, by the command that reads it
BEHIND = {
    "check": "place",
    "replay": "place",
    "certify": "place",
    "picture": "place",
    "verify": "mark",
    "schedule": "look, claim, split and join",
}
# the command that reads a text, by the first word of its header
READERS = {"machine": "turing", "quadrant": "quadrant", "batch": "batch"}


def visible(line: bytes) -> str:
    """The line with each byte shown that is no plain ASCII sign, spaces at its end too."""
    shown = "".join(chr(it) if 32 <= it < 127 else {9: "\\t", 13: "\\r"}.get(it, f"\\x{it:02x}") for it in line)
    bare = shown.rstrip(" ")
    return bare + "\\x20" * (len(shown) - len(bare))


def version_of(lines: list[bytes]) -> str:
    """The number in the header of a system text, or nothing."""
    rows = (it.decode(errors="replace").split() for it in lines)
    return next((row[1] for row in rows if row[:1] == ["tiles"] and len(row) == 2), "")


def names_before(lines: list[bytes], upto: int, keyword: str) -> list[str]:
    """The names that lines of a keyword declare before a line."""
    rows = (line.decode(errors="replace").split() for line in lines[:upto])
    return [row[1] for row in rows if len(row) > 1 and row[0] == keyword]


def guess_header(line: bytes, words: list[str], command: str) -> Iterator[str]:
    if line.startswith(b"\xef\xbb\xbf"):
        yield "the file begins with a byte-order mark: save it as UTF-8 without one"
    elif b"\0" in line:
        yield "the file is saved as UTF-16: save it as UTF-8"
    if not line.strip():
        yield "there is no line that is neither empty nor a remark"
    reader = READERS.get(words[0] if words else "", command)
    if reader != command:
        what = {"turing": "a Turing machine", "quadrant": "a two-input rule", "batch": "a batch"}[reader]
        yield f"this is {what}: tools/explain {reader} FILE"
    elif words[:1] == ["tiles"] and command in KINDS and len(words) == 2:
        batch = "a batch begins with `batch 1`, and in front of each system stands a `job` line"
        yield f"this is a tile system{f': {batch}' if command == 'batch' else f', which {command} does not read'}"
    elif words[:1] in (["place"], ["mark"], ["look"], ["claim"], ["split"], ["join"]):
        yield "the system stands first: cat SYSTEM FILE"
    elif words and words[0] in KINDS.get(command, SYSTEM).before:
        yield "the line itself may be fine: the header is missing above it"
    elif words[:1] == ["tiles"] and not any(guess_bytes(line)):
        yield "a system is written in version 1 or 2, and nothing else stands in its header"


def guess_bytes(line: bytes) -> Iterator[str]:
    """Bytes that an editor hides, or that look like others."""
    if line.endswith(b"\r"):
        yield "the line ends as on Windows, with a carriage return: sed -i 's/\\r$//' FILE"
    if b"\t" in line:
        yield "a tab stands in the line, and only spaces part words"
    if "\u00a0".encode() in line:
        yield "a no-break space stands in the line, and only plain spaces part words"
    if any(it.encode() in line for it in "\u2010\u2011\u2012\u2013\u2014\u2212"):
        yield "a long dash stands in the line: none and minus are the plain -"


def guess_number(words: list[str]) -> Iterator[str]:
    """Of the words that are to be numbers, the first one that is none."""
    for at in NUMBERS.get(words[0], ()):
        it = words[at] if at < len(words) else "0"
        if re.fullmatch("-?[0-9]{11,}", it):
            yield "it has more than ten digits"
        elif not re.fullmatch("-?[0-9]+", it):
            yield f"{visible(it.encode())} is no number" + (
                f": a {words[0]} line has {FIELDS[words[0]]}" if words[0] in FIELDS else ""
            )
        else:
            continue
        return


def guess_word(words: list[str], is_short: bool) -> Iterator[str]:
    """Of the words that may be names, the first one that is none, and why."""
    if words[0] in ("glue", "tile", "pair") and re.fullmatch("-[0-9]*", words[1]):
        yield f"{words[1]} is no name: a {words[0]} line has {FIELDS[words[0]]}"
        return
    for it in words[1:]:
        if words[0] == "tile" and re.fullmatch("-[0-9]+", it):
            yield f"{it} is no name; a side without a glue is -"
            return
        signs = sorted(
            {sign for sign in it if not re.fullmatch("[A-Za-z0-9_]" if is_short else "[A-Za-z0-9_:.]", sign)}
        )
        if signs and not re.fullmatch("-[0-9]*", it):
            yield f"{visible(it.encode())} has {' '.join(visible(sign.encode()) for sign in signs)}, which no name has"
            return
        if len(it) > (8 if is_short else 40):
            yield f"{it} has {len(it)} bytes, and a name at most {8 if is_short else 40}"
            return


def guess_line(words: list[str], lines: list[bytes], known: dict[str, int], command: str) -> Iterator[str]:
    if words and words[0] not in known and words[0].lower() in known:
        yield f"keywords have small letters: {words[0].lower()}"
    elif words and words[0] not in known and words[0] not in ("closed", "unique"):
        near = difflib.get_close_matches(words[0], known, 1)
        yield f"{words[0]} is no keyword" + (f"; {near[0]}?" if near else "")
    if any("#" in it for it in words[1:]):
        yield "a remark needs a line of its own"
    elif words and words[0] in known and len(words) != known[words[0]]:
        fields = {it: f": {FIELDS[it]}" for it in ("tile", "mark")}
        fields["rule"] = {
            5: ": west and south, then what goes east and north",
            6: ": a state and a symbol, then the new state, the new symbol and the move",
        }.get(known["rule"] if "rule" in known else 0, "")
        more = " or more" if words[0] in ("tape", "bottom", "left") else ""
        yield (
            f"a {words[0]} line has {known[words[0]]} words{more}, and this one {len(words)}{fields.get(words[0], '')}"
        )
    elif words and command not in KINDS:
        yield from guess_place(words, lines, command)


def guess_place(words: list[str], lines: list[bytes], command: str) -> Iterator[str]:
    """Why a line is no line here, though it has its keyword's number of words."""
    ends = [at for at, line in enumerate(lines, 1) if line.split() == [b"end"]]
    if not ends and words[0] in ("place", "mark", "closed", "unique", "look", "claim", "split", "join"):
        yield f"a {words[0]} line stands behind the system: is the line `end` missing above it?"
    elif ends and command in BEHIND:
        yield f"the system ends in line {ends[0]}, and behind it {command} reads {BEHIND[command]} lines"


def first_like(lines: list[bytes], words: list[str]) -> int:
    """The number of the first line that declares the same name, or has the same site."""

    def what(row: list[str]) -> list[str | int]:
        found: list[str | int] = [*row[:2]]
        if row[0] in ("place", "mark", "seed"):
            found = [row[0], int(row[1])]
            found.append(int(row[2]))
        return found

    rows = ((at, line.decode(errors="replace").split()) for at, line in enumerate(lines, 1))
    return next(at for at, row in rows if row[:1] == words[:1] and what(row) == what(words))


def guess_name(words: list[str], lines: list[bytes], at: int) -> Iterator[str]:
    if words[0] in ("tile", "pair"):
        known, what = names_before(lines, at, "glue"), "glue"
        unknown = [it for it in (words[2:] if words[0] == "tile" else words[1:3]) if it != "-" and it not in known]
    else:
        known, what = names_before(lines, at, "tile"), "type"
        unknown = [words[3] if words[0] == "mark" else words[-1]]
    for it in unknown[:1]:
        bearers = (
            sum(
                row[:1] == ["tile"] and it in row[2:]
                for row in (line.decode(errors="replace").split() for line in lines)
            )
            if what == "glue"
            else 0
        )
        later = [
            n
            for n, line in enumerate(lines[at:], at + 1)
            if line.decode(errors="replace").split()[:2] == ["glue" if what == "glue" else "tile", it]
        ]
        if later:
            yield f"{what} {it} is declared further down, in line {later[0]}: each line names what stands above it"
            return
        if what == "glue" and it.lower() in ("0", "null", "none", "x", "_", "*", "."):
            yield f"no glue is named {it}; a side without a glue is -"
        else:
            near = difflib.get_close_matches(it, known, 1, 0.5)
            yield f"no {what} is named {it}" + (f"; {near[0]}?" if near else "")
            if bearers > 1:
                yield f"{bearers} tiles bear {it}: is its `glue` line missing?"
        if it not in known and it.lower() in [name.lower() for name in known]:
            yield "capitals and small letters differ"


def guess_symbol(words: list[str], lines: list[bytes], at: int) -> Iterator[str]:
    known = names_before(lines, at, "symbol")
    for it in words[1:]:
        if it not in known:
            near = difflib.get_close_matches(it, known, 1, 0.5)
            yield f"no symbol is named {it}" + (f"; {near[0]}?" if near else "")
            return


def guess_machine_name(words: list[str], lines: list[bytes], at: int) -> Iterator[str]:
    states, symbols = names_before(lines, at, "state"), names_before(lines, at, "symbol")
    fields = (
        zip(words[1:5], ("state", "symbol", "state", "symbol"))
        if words[0] == "rule"
        else ((it, "symbol") for it in words[1:])
    )
    for it, what in fields:
        known = states if what == "state" else symbols
        if it not in known:
            near = difflib.get_close_matches(it, known, 1, 0.5)
            yield f"no {what} is named {it}" + (f"; {near[0]}?" if near else "")
            return


def guess_range(words: list[str]) -> Iterator[str]:
    at = [int(words[it]) for it in SITES.get(words[0], ()) if re.fullmatch("-?[0-9]+", words[it])]
    if any(abs(it) > 1000000 for it in at):
        yield "a coordinate is -1000000 to 1000000"
    elif words[0] == "box" and len(at) == 4:
        x0, y0, x1, y1 = at
        if x1 < x0 or y1 < y0:
            yield "the lower left corner comes first, then the upper right one"
        elif x1 - x0 > 1023 or y1 - y0 > 1023:
            yield f"a side has at most 1024 sites, and this box has {x1 - x0 + 1} by {y1 - y0 + 1}"
    elif words[0] in ("glue", "pair"):
        yield "a strength is 0 to 250"
    elif words[0] in ("job", "look", "claim", "split", "join", "mark"):
        yield f"{'a rank' if words[0] == 'mark' else 'its number'} is 0 to 4294967295"
    elif words[0] == "tau":
        yield "a temperature is 1 to 1000"
    elif words[0] in ("cells", "rows"):
        yield "a machine has 1 to 512 cells and 1 to 1024 rows"
    elif words[0] == "size":
        yield "a rule has 1 to 1023 columns and 1 to 1023 rows"
    elif words[0] == "head":
        yield "the head starts at one of the cells, and the first cell is 0"


class Case:
    """A refused line: its bytes, its number, its words, the lines of the text, and the command that read it. `before`
    has the words of the line before it that is neither empty nor a remark."""

    def __init__(self, text: bytes, number: int, command: str):
        self.number, self.command, self.kind = number, command, KINDS.get(command, SYSTEM)
        self.lines = text.split(b"\n")
        if self.lines and self.lines[-1] == b"":
            self.lines.pop()
        self.line = self.lines[number - 1] if 1 <= number <= len(self.lines) else b""
        self.words = self.line.decode(errors="replace").split()
        self.keyword = self.words[0] if self.words else ""
        rows = (it.decode(errors="replace").split() for it in reversed(self.lines[: max(0, number - 1)]))
        self.before: list[str] = next((row for row in rows if row and not row[0].startswith("#")), [])

    @property
    def above(self) -> list[bytes]:
        """The lines above it."""
        return self.lines[: max(0, self.number - 1)]

    @property
    def is_behind(self) -> bool:
        """Whether it stands behind the last line."""
        return self.number > len(self.lines)

    @property
    def is_plain(self) -> bool:
        """Whether no byte of it is one that an editor hides, or that looks like another."""
        return not any(guess_bytes(self.line))

    def of_job(self) -> Case:
        """The same with the lines of other jobs emptied, since each job has names of its own."""
        first = max((at for at, it in enumerate(self.lines[: self.number]) if it.split()[:1] == [b"job"]), default=0)
        self.lines = [b""] * first + self.lines[first:]
        return self


def no_header(case: Case) -> Iterator[str]:
    if case.before[:1] == ["job"]:
        yield "behind a `job` line stands a whole system, which begins with the line `tiles 1` or `tiles 2`"
    else:
        yield from guess_header(case.line, case.words, case.command)


def no_end(case: Case) -> Iterator[str]:
    if not case.is_behind:
        yield "the last line has no newline behind it"
    elif case.command == "batch":
        yield "a batch has at least one job, and each job a system, whose last line is: end"
    else:
        yield f"the last line of a {case.kind.name} is: end"


def bad_line(case: Case) -> Iterator[str]:
    if case.keyword == "pair" and version_of(case.lines) == "1":
        yield "pairs of unlike glues are of version 2: the first line must be `tiles 2`"
    elif case.command == "batch" and case.words and (case.before or ["batch"])[0] in ("batch", "end"):
        place = "the header" if case.before[:1] != ["end"] else "the `end` of a system"
        yield f"behind {place} stands a `job` line, and this one begins with {case.keyword}"
    elif case.command == "batch" and case.keyword == "job" and len(case.words) == 2:
        yield "the system above it has no `end` line"
    else:
        yield from guess_line(case.words, case.above, case.kind.words, case.command)


def out_of_order(case: Case) -> Iterator[str]:
    if case.keyword in ("place", "closed", "unique"):
        yield "a growth ends with its closed and unique lines: do two growths stand here, one behind the other?"
    elif (
        case.keyword == "seed"
        and version_of(case.lines) == "1"
        and any(it.split()[:1] == [b"seed"] for it in case.above)
    ):
        yield "several seeds are of version 2: the first line must be `tiles 2`"
    else:
        yield (
            f"the line itself may be fine: before {case.keyword} stands "
            f"{case.kind.before.get(case.keyword, 'something else')}; "
            "is a line missing above, or misplaced?"
        )


def unknown_name(case: Case) -> Iterator[str]:
    guess = {"turing": guess_machine_name, "quadrant": guess_symbol}.get(case.command, guess_name)
    yield from guess(case.words, case.lines, case.number - 1)


def double_name(case: Case) -> Iterator[str]:
    words = case.words
    if case.keyword == "rule":
        pair = f"the state {words[1]} and the symbol {words[2]}"
        yield (
            f"there is a rule for "
            f"{pair if case.command == 'turing' else f'{words[1]} from the west and {words[2]} from the south'} above"
        )
    elif case.keyword == "pair":
        rows = [it.decode(errors="replace").split() for it in case.above]
        first = [at for at, row in enumerate(rows, 1) if row[:1] == ["pair"] and {*row[1:3]} == {*words[1:3]}]
        yield (
            f"line {first[0]} pairs them already"
            if first
            else "a glue is not paired with itself: its own strength stands in its `glue` line"
        )
    else:
        yield from double_site(case)


def double_site(case: Case) -> Iterator[str]:
    yield f"line {first_like(case.lines, case.words)} has it already"


def bad_name(case: Case) -> Iterator[str]:
    if case.keyword == "mark":
        yield "the sides of a mark are - for none, or capital letters of NESW in this order"
    elif case.keyword == "rule" and case.words[-1] in ("l", "r", "s"):
        yield "a move has a capital: L, R or S"
    elif case.command == "turing" and case.keyword == "rule" and case.words[-1] not in ("L", "R", "S"):
        yield f"a move is L, R or S, and here stands {case.words[-1]}"
    elif case.is_plain:
        yield from guess_word(case.words, case.command in ("turing", "quadrant"))


def bad_number(case: Case) -> Iterator[str]:
    if case.is_plain:
        yield from guess_number(case.words)


def outside(case: Case) -> Iterator[str]:
    boxes = [it.decode(errors="replace").split() for it in case.above if it.split()[:1] == [b"box"]]
    yield from (f"the corners of the box are {it[1]} {it[2]} and {it[3]} {it[4]}" for it in boxes[:1])


def too_many(case: Case) -> Iterator[str]:
    of = {"tape": "cells", "bottom": "columns", "left": "rows"}
    if case.keyword in of:
        yield f"the {case.keyword} lines have more symbols than there are {of[case.keyword]}"
    elif case.keyword == "end":
        boxes = [[int(at) for at in it.split()[1:5]] for it in case.lines[: case.number] if it.split()[:1] == [b"box"]]
        sites = sum((it[2] - it[0] + 1) * (it[3] - it[1] + 1) for it in boxes)
        yield f"the boxes have {sites} sites up to this job, which is the {len(boxes)}th"


def out_of_range(case: Case) -> Iterator[str]:
    yield from guess_range(case.words)


def after_end(case: Case) -> Iterator[str]:
    if case.command in KINDS:
        yield "nothing stands behind the `end` line: take away what follows it"
    else:
        yield (
            "places behind a system are for check, certify, replay and picture, marks for verify, steps of scouts for "
            "schedule"
        )


guess_of: dict[str, Callable[[Case], Iterator[str]]] = {
    "NoHeader": no_header,
    "NoEnd": no_end,
    "BadLine": bad_line,
    "OutOfOrder": out_of_order,
    "UnknownName": unknown_name,
    "DoubleName": double_name,
    "DoubleSite": double_site,
    "BadName": bad_name,
    "BadNumber": bad_number,
    "SeedOutside": outside,
    "OutsideBox": outside,
    "TooMany": too_many,
    "OutOfRange": out_of_range,
    "AfterEnd": after_end,
}


def guesses(cause: str, case: Case) -> Iterator[str]:
    """What may be behind the cause, most telling first."""
    if case.command == "batch" and cause != "TooMany":
        case.of_job()
    if cause in ("NoHeader", "BadLine", "BadName", "BadNumber", "UnknownName"):
        yield from guess_bytes(case.line)
    if cause in guess_of:
        yield from guess_of[cause](case)


def reasons(text: bytes, number: int, cause: str, command: str) -> Iterator[str]:
    """What is to be said of a refused text, line by line."""
    case = Case(text, number, command)
    said = CAUSES.get(cause, "a cause that this tool does not know")
    limit = LIMITS.get(case.keyword, "more than there may be")
    yield f"line {number}: {cause}: {said.format(limit=limit, header=case.kind.header)}"
    stands = f"    {visible(case.line)}" if 1 <= number <= len(case.lines) else "    (behind the last line)"
    yield stands if number else "    (the whole input)"
    yield from (f"  - {it}" for it in guesses(cause, case))
