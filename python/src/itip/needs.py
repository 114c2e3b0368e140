"""Why the rows of a region are needed: questions about each of them, and the points that answer them, for `./ask --needs` (docs/guide/ask.md)."""

from __future__ import annotations

import re

TYPE_CHECKING = False
if TYPE_CHECKING:
    from collections.abc import Sequence


def need_questions(question: str, rows: Sequence[str]) -> str:
    """Whether the needed ones of the told rows of an elimination follow from all others: a question for each, in order."""
    lines = [line.partition(" ") for line in question.splitlines()]
    names = {word: re.split("[ ,]+", rest) for word, _, rest in lines}
    left = [rate for rate in names.get("rates", []) if rate not in names["eliminate"]]
    head = [f"vars {rest}" for word, _, rest in lines if word == "vars"]
    head += ["rates " + ", ".join(left)] if left else []
    head += [f"given {rest}" for word, _, rest in lines if word == "given"]
    plain = [re.sub(" *#.*", "", row) for row in rows]
    asked: list[str] = []
    for place, row in enumerate(plain):
        if _is_needed(rows[place]):
            others = [f"row {other}" for other in plain[:place] + plain[place + 1 :]]
            asked += [*head, *others, f"prove {row}"]
    return "".join(line + "\n" for line in asked)


def with_points(rows: Sequence[str], answers: Sequence[Sequence[str]]) -> list[str]:
    """The rows, each needed one with the point of its answer as a comment."""
    waiting = iter(answers)
    return [_with_point(row, next(waiting, ())) if _is_needed(row) else row for row in rows]


def _is_needed(row: str) -> bool:
    return not row.endswith(("# unsettled", "# plain")) and not row.startswith("as ")


def _with_point(row: str, answer: Sequence[str]) -> str:
    first, *below = answer or [""]
    return f"{row}  # needed: {below[-1][2:]}" if below and first.split()[1:2] == ["no"] else row
