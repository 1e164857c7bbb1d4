"""The lines of texts, as docs/FORMATS.md has them: words parted by spaces, remarks and empty lines skipped, numbered
from 1."""
from __future__ import annotations

import re
from collections.abc import Iterator

Row = tuple[int, list[str]]
COLOUR = re.compile(r"^ *# *colou?r +([A-Za-z0-9_:.-]{1,40}) +(#[0-9a-fA-F]{6}) *$", re.M)


def as_text(text: str | bytes) -> str:
    """A text as letters, with bytes that are no UTF-8 replaced."""
    return text if isinstance(text, str) else text.decode(errors="replace")


def rows(text: str, first: int = 1) -> Iterator[Row]:
    """The words of each line that is neither empty nor a remark, with its number."""
    for number, line in enumerate(text.split("\n"), first):
        words = line.split(" ")
        if "" in words:
            words = [it for it in words if it]
        if words and words[0][0] != "#":
            yield number, words


def colours(text: str) -> dict[str, str]:
    """The colour of each name that a remark line `# colour NAME #rrggbb` has; the last line of a name counts."""
    return dict(COLOUR.findall(text))


def alone(text: str) -> str:
    """The system alone of a text that may have more behind it, with its last line as it stands."""
    lines = text.split("\n")
    ends = [at for at, line in enumerate(lines) if line.split(" ").count("end") and line.split() == ["end"]]
    return "\n".join(lines[: ends[0] + 1]) + "\n" if ends and ends[0] + 1 < len(lines) else text


def jobs(text: str) -> list[tuple[int, str]]:
    """What stands behind each `job` line of a batch, or of the answer to one, with the number of that line."""
    found: list[tuple[int, list[str]]] = []
    for number, line in enumerate(text.splitlines(True), 1):
        words = line.split()
        if words[:1] == ["job"]:
            found.append((number, []))
        elif found and words[:1] != ["done"]:
            found[-1][1].append(line)
    return [(number, "".join(lines)) for number, lines in found]


def listed(names: list[str], most: int = 12) -> str:
    """Some names in a line, and how many more there are."""
    more = f" and {len(names) - most} more" if len(names) > most else ""
    return ", ".join(names[:most]) + more
