"""Questions on many workers: threads or processes here, or the executor of a cluster."""

from __future__ import annotations

from collections.abc import Sequence
from concurrent.futures import Executor

from .errors import ItipError, WorkerLost
from .program import Budget, Itip


def spread_report(executor: Executor, at: Itip, questions: Sequence[str], pivots: Budget, batch: int) -> list[str]:
    """The report of the questions, a line for each in their order, from calls of `batch` questions each.

    The first call without its lines ends it all: what it raised is raised here, and calls that haven't begun are cancelled.
    """
    parts = [questions[start : start + batch] for start in range(0, len(questions), batch)]
    calls = [executor.submit(_report, at, part, pivots) for part in parts]
    lines: list[str] = []
    try:
        for part, call in zip(parts, calls):
            found = call.result()
            if len(found) != len(part):
                raise WorkerLost(f"{len(part)} questions got {len(found)} answers from a worker")
            lines += found
    except ItipError:
        raise
    except Exception as lost:  # each kind of executor has its own
        raise WorkerLost(f"a worker ended without its answers: {lost!r}") from lost
    finally:
        for call in calls:
            call.cancel()
    return lines


def _report(at: Itip, questions: Sequence[str], pivots: Budget) -> list[str]:
    """What a worker does, by the programs on its own machine."""
    return at.report(questions, pivots)
