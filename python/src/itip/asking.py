"""What asks the program: one relation, many, or a file."""

from __future__ import annotations

from collections.abc import Iterable, Sequence
from concurrent.futures import Executor
from typing import Any, Optional, Union

from .answers import Answer, read
from .copies import Copy, copied
from .errors import ProgramFailed
from .notation import Relation, Sum
from .program import Budget, Itip, default
from .questions import Given, Prove, Question, as_relation, listed, parse, question
from .reports import cut
from .workers import spread_report


def prove(relation: Union[str, Relation], given: Given = None, **settings: Any) -> Answer:
    """Asks whether a relation holds wherever what is given does; the settings are those of `prove_all`.

    >>> from itip import *
    >>> X, Y, Z = rv("X Y Z")
    >>> prove(I(X & Z) <= I(X & Y), given=markov(X, Y, Z))
    yes 1 : 1 I(X;Y|Z) + -1 given 1
    """
    return prove_all([relation], given, **settings)[0]


def prove_all(
    relations: Iterable[Union[str, Relation]],
    given: Given = None,
    *,
    copies: Sequence[Copy] = (),
    about: Iterable[Sum] = (),
    pivots: Budget = "usual",
    program: Optional[Itip] = None,
    executor: Optional[Executor] = None,
    batch: int = 100,
) -> list[Answer]:
    """Asks of each relation whether it holds wherever what is given does, all in one call of the program.

    Relations and assumptions are objects, or texts in the notation of question files. With `copies` of variables relations beyond
    Shannon's may have proofs. `about` are sums whose variables and rates each question has, whether or not its relation names them;
    `pivots` is the budget of steps, None for none.

    With an `executor` of concurrent.futures its workers make the calls, each of `batch` questions, by the programs on their machines.
    """
    assumed, about = listed(given), tuple(about)
    goals = [Prove(as_relation(relation)) for relation in relations]
    asked = [copied(question(goal, assumed, about=[goal.relation, *about]), copies) for goal in goals]
    return answers_to(asked, pivots, program, executor, batch)


def answers_to(
    questions: Sequence[Question],
    pivots: Budget = "usual",
    program: Optional[Itip] = None,
    executor: Optional[Executor] = None,
    batch: int = 100,
) -> list[Answer]:
    """The answers to questions as they are, in as few calls as the limits of a file allow, or by an executor in calls of `batch`."""
    at = program or default()
    texts = [one.text() for one in questions]
    lines = at.report(texts, pivots) if executor is None else spread_report(executor, at, texts, pivots, batch)
    return [read(one, line, at) for one, line in zip(questions, lines)]


def ask(text: str, *, pivots: Budget = "usual", program: Optional[Itip] = None) -> list[Answer]:
    """Answers a question file, given as text. A file at fault is `Refused` as a whole, with the place.

    >>> from itip import ask
    >>> ask("vars X, Y\\nprove H(X) >= H(X|Y)")
    [yes 1 : 1 I(X;Y)]
    """
    at = program or default()
    lines = at.file_report(text, pivots)
    questions = cut(text)[1:]
    if len(lines) != len(questions):
        raise ProgramFailed(f"{len(questions)} questions got {len(lines)} answers")
    return [read(parse(one), line, at) for one, line in zip(questions, lines)]
