"""Reports: what `itip answer --format json` writes, a line for each question (docs/reference/reports.md); and how files have questions."""

from __future__ import annotations

from .errors import Forged

TYPE_CHECKING = False
if TYPE_CHECKING:
    from collections.abc import Iterator, Sequence
    from typing import Any

MOST_BYTES = 1_048_576
MOST_QUESTIONS = 1000
UNDECIDED = "is undecided after so many steps"
UNSETTLED = "has rows that may not be needed"


def decoded(line: str) -> dict[str, Any]:
    """A line of a report as an object."""
    import json  # (which takes long to load, and many calls need no object)

    try:
        found = json.loads(line)
    except ValueError:
        found = None
    if not isinstance(found, dict):
        raise Forged(f"a line of the report is no object: {line[:200]!r}")
    return found


def why_open(line: str) -> str:
    """Why more steps may say more: the answer is undecided by steps, or a row is unsettled. Nothing where they can't."""
    if line.startswith('{"answer":"region"'):
        return UNSETTLED if '"mark":"unsettled"' in line else ""
    # (without a step the run that takes them is out of reach)
    is_open = line.startswith('{"answer":"undecided"') and '"cause":"pivots"' in line and '"at":"0",' not in line
    return UNDECIDED if is_open else ""


def batches(questions: Sequence[str]) -> Iterator[list[str]]:
    """The questions in as few files as the limits of a file allow."""
    batch: list[str] = []
    size = 0
    for question in questions:
        length = len(question.encode())
        if batch and (len(batch) == MOST_QUESTIONS or size + length > MOST_BYTES):
            yield batch
            batch, size = [], 0
        batch.append(question)
        size += length
    if batch:
        yield batch


def cut(text: str) -> list[str]:
    """The head of a file, which is empty but in modes `copy` and `best`, and its questions as reports have them: without comments, and without
    blanks at the ends of lines.

    >>> cut("copy R of A over 0\\nvars A # one\\n\\n prove H(A) >= 0\\nvars B\\nprove H(B) >= 0")
    ['copy R of A over 0\\n', 'vars A\\nprove H(A) >= 0\\n', 'vars B\\nprove H(B) >= 0\\n']
    """
    parts = [""]
    for written in text.split("\n"):
        line = written.partition("#")[0].replace("\t", " ").strip(" \r")
        if line.partition(" ")[0] == "vars":
            parts.append("")
        parts[-1] += line + "\n" if line else ""
    return parts
