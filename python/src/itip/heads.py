"""Heads of copies with which a question gets a yes, for `./ask --copies` (docs/guide/ask.md)."""

from __future__ import annotations

import os

from .program import Itip
from .questions import parse
from .search import copies_for

SECONDS = 60
STEPS = 10_000  # of the defined run, where a quick one has no answer


def with_copies(question: str, prover: str) -> tuple[str, str]:
    """The first file with a head of one copy or two whose answer is yes; else nothing, and what was tried."""
    reached = prover.replace("/proc/self/", f"/proc/{os.getpid()}/")  # (of an open file, which `Itip` doesn't hand on)
    found = copies_for(parse(question), pivots=STEPS, seconds=SECONDS, program=Itip(prover=reached))
    if found:
        return "".join(f"{one.text()}\n" for one in found.copies) + question, ""
    open_ones = f", {found.undecided} undecided" if found.undecided else ""
    left = f", {found.left} left" if found.left else ""
    return "", f"no copy and no pair of copies makes it a yes ({found.tried - 1} tried{open_ones}{left})"
