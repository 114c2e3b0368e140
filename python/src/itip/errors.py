"""Why there is no answer, or why an answer isn't taken for one."""

from __future__ import annotations


class NotationError(ValueError):
    """What is written has no meaning, and nothing was asked; the text says what to write."""


class ItipError(Exception):
    """Why there is no answer."""


class MissingProgram(ItipError):
    """A program isn't built here; the text says what to run."""


class TimedOut(ItipError):
    """A call took longer than its timeout."""


class ProgramFailed(ItipError):
    """A program ended without its whole output."""


class WorkerLost(ItipError):
    """A worker of an executor ended without its answers."""


class Forged(ItipError):
    """`itip check` finds the answer invalid, or it is no answer to what was asked."""


class UndecidedError(ItipError):
    """An answer that is neither yes nor no was taken for one of them."""


class Refused(ItipError):
    """The program refused the file: at `line` and `column` of `source` for the reason `word`.

    `meaning` is what docs/reference/refusals.md says of the word, and `hint` what docs/slips.txt says to write. A file that is too long has
    no place: both numbers are 0.
    """

    def __init__(self, word: str, line: int, column: int, source: str, meaning: str = "", hint: str = "") -> None:
        super().__init__(word, line, column, source, meaning, hint)
        self.word, self.line, self.column, self.source = word, line, column, source
        self.meaning, self.hint = meaning, hint

    def __str__(self) -> str:
        said = f"{self.word}: {self.meaning}" if self.meaning else self.word
        if not self.line:
            return said
        shown = [f"line {self.line}, column {self.column}: {said}", *self._place(), self.hint]
        return "\n".join(text for text in shown if text)

    def _place(self) -> list[str]:
        """The line and a caret below the place: of a long line, the part around it."""
        lines = self.source.split("\n")
        line = lines[self.line - 1] if self.line <= len(lines) else ""
        before = line.encode()[: self.column - 1].decode(errors="replace")
        start = max(0, len(before) - 70) if len(line) > 100 else 0
        cut = "… " if start else ""
        more = " …" if start + 100 < len(line) else ""
        blank = "".join("\t" if letter == "\t" else " " for letter in cut + before[start:])
        return [f"    {cut}{line[start : start + 100]}{more}", f"    {blank}^"]
