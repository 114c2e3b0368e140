"""How far a long search is."""

from __future__ import annotations

import sys
from collections.abc import Callable
from time import monotonic
from typing import Union

Show = Callable[[int, int, str], None]  # how many are done, out of how many, and what is done now
Progress = Union[bool, Show, None]
WIDTH = 30
SECONDS = 0.1


class Bar:
    """A line on standard error that is written over, in a terminal or a notebook, ten times a second at most."""

    def __init__(self) -> None:
        self.next = 0.0

    def __call__(self, done: int, total: int, text: str) -> None:
        is_last = done >= total
        if not is_last and monotonic() < self.next:
            return
        self.next = monotonic() + SECONDS
        full = WIDTH * done // max(total, 1)
        line = f"\r[{'#' * full}{'.' * (WIDTH - full)}] {done}/{total} {text[:60]:60}"
        print(line, end="\n" if is_last else "", file=sys.stderr, flush=True)


def shown(progress: Progress) -> Show:
    """True is a bar, and without it nothing is shown."""
    if progress is True:
        return Bar()
    return progress or (lambda done, total, text: None)
