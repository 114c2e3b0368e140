"""What a refusal means, by docs/reference/refusals.md, and what to write, by docs/slips.txt."""

from __future__ import annotations

import re

TYPE_CHECKING = False
if TYPE_CHECKING:
    from os import PathLike


def meaning(docs: str | PathLike[str], word: str) -> str:
    """What the table of refusals says of a word."""
    with open(f"{docs}/reference/refusals.md", encoding="utf-8") as page:
        for row in page:
            first, _, rest = row.partition(" | ")
            if first == f"| `{word}`":
                return rest.partition(" | ")[0]
    return ""


def hint(docs: str | PathLike[str], word: str, before: bytes, rest: bytes) -> str:
    """What to write in place of a slip: the first of the file that fits what stands before and after the place in its line."""
    with open(f"{docs}/slips.txt", "rb") as slips:
        for row in slips:
            if not row.startswith(word.encode() + b"\t"):
                continue
            _, stands_before, stands_after, said, *_ = row.split(b"\t")
            if re.search(stands_before, before) and re.search(stands_after, rest):
                return said.decode()
    return ""


def explained(docs: str | PathLike[str], word: str, line: bytes, column: int) -> list[bytes]:
    """The line, unless it is empty, a caret below the place, the word's meaning and what to write."""
    before, rest = line[: column - 1], line[column - 1 :]
    means, says = meaning(docs, word), hint(docs, word, before, rest)
    shown = [line, re.sub(rb"[^\t]", b" ", before) + b"^"] if line else []
    return shown + ([f"{word}: {means}".encode()] if means else []) + ([says.encode()] if says else [])
