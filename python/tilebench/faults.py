"""What goes wrong: refusals of the program and of texts, and a program that is missing or fails."""
from __future__ import annotations

from tilebench import refusals


class TilebenchError(Exception):
    """All that this package raises of its own."""


class NoProgram(TilebenchError, OSError):
    """The program is not found, or does not grow a tile set."""


class ProgramFailed(TilebenchError):
    """The program ended with a status that is no answer: 4 to 6 (no input, no output, no memory), or a signal below
    0."""

    def __init__(self, status: int, said: str):
        super().__init__(f"status {status}: {said}" if said else f"status {status}")
        self.status, self.said = status, said


class Refused(TilebenchError):
    """Words or a text that were refused.

    `line` is the number of the line, from 1 on (0 for the whole input, None for words and for calls that make a
    system); `cause` the cause's name, as `UnknownName`; `words` the program's line, as `refused text line 5
    UnknownName`; `text` the text that was refused and `command` the command that read it, where there are such.
    """

    def __init__(
        self, cause: str, line: int | None = None, why: str = "", *, text: str | None = None, command: str = "grow"
    ):
        self.cause, self.line, self.why, self.text, self.command = cause, line, why, text, command
        self.words = f"refused words {cause}" if line is None else f"refused text line {line} {cause}"
        super().__init__(self.words)

    def reasons(self) -> list[str]:
        """The line as it stands, the cause in words, and what is mostly behind it: a guess, most telling first."""
        if self.text is not None and self.line is not None:
            return list(refusals.reasons(self.text.encode(), self.line, self.cause, self.command))
        known = refusals.WORDS_CAUSES.get(self.cause) or refusals.CAUSES.get(self.cause, "")
        where = "" if self.line is None else f"line {self.line}: "
        return [f"{where}{self.cause}: {self.why or known}"]

    def __str__(self) -> str:
        return "\n".join(self.reasons())
