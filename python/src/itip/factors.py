"""The least factor of two sums."""

from __future__ import annotations

from collections.abc import Sequence
from dataclasses import dataclass, field
from fractions import Fraction
from typing import Optional

from .answers import Answer, No, Yes, read
from .copies import Copy, copied
from .errors import Forged, ItipError
from .evidence import Point
from .modes import of_report
from .notation import Relation, Sum
from .program import BEST, Budget, Itip, default
from .questions import Given, Prove, listed, parse, question
from .reports import decoded


@dataclass(frozen=True)
class Factor:
    """The least c with c E >= F: `holds` proves that c is one, and at `attained` c E is F, so that no smaller one is.

    `value` is None where no number is one: then `attained` has a point at which E is 0 and F isn't. `report` is the line that says so.
    """

    value: Optional[Fraction]
    holds: Optional[Yes]
    attained: No
    report: str = field(repr=False)

    @property
    def point(self) -> Point:
        return self.attained.point

    @property
    def relation(self) -> Optional[Relation]:
        """What `holds` proves, with whole coefficients."""
        return self.holds.relation if self.holds is not None else None

    @property
    def bound(self) -> Optional[Fraction]:
        """The greatest b with E >= b F, the reciprocal of c. None where there is no factor, or none above 0."""
        return 1 / self.value if self.value is not None and self.value > 0 else None

    def check(self) -> str:
        """The verdict of `itip check` on the line of the report: `valid` says that this is the least factor, or that there is none."""
        verdict = self.attained.program.check([self.report])[0]
        if verdict != "valid":
            raise Forged(verdict)
        return verdict

    def __str__(self) -> str:
        return "none" if self.value is None else f"{self.value}: {self.relation}"

    def _repr_html_(self) -> str:
        return "no factor" if self.holds is None else f"least factor {self.value}<br>{self.holds._repr_html_()}"


def best(
    greater: Sum,
    less: Sum,
    given: Given = None,
    *,
    copies: Sequence[Copy] = (),
    pivots: Budget = "usual",
    program: Optional[Itip] = None,
) -> Factor:
    """The least c with c E >= F wherever what is given holds, by one call of mode `best`.

    >>> from itip import *
    >>> X, Y, Z = rv("X Y Z")
    >>> print(best(H(X, Y) + H(Y, Z) + H(X, Z), H(X, Y, Z)))
    1/2: H(X,Y) + H(Y,Z) + H(X,Z) >= 2 H(X,Y,Z)
    """
    at = program or default()
    relation = greater >= less
    asked = copied(question(Prove(relation), listed(given), about=[relation]), copies)
    line, = at.report([asked.text()], pivots, mode=BEST)
    if decoded(line).get("question") != asked.text():
        raise Forged("the report answers another question")
    said, parts = of_report(line)
    return _factor(said, [_shown(part, at) for part in parts], line, greater)


def _shown(line: str, program: Itip) -> Answer:
    """An answer by its line of a report, which is empty where no question file holds its numbers."""
    if not line:
        raise ItipError("no question file holds the numbers of what shows the least factor")
    return read(parse(decoded(line)["question"]), line, program)


def _factor(said: str, answers: Sequence[Answer], line: str, greater: Sum) -> Factor:
    word, *details = said.split(" ")
    if word == "unbounded":
        raise ItipError(f"every number is a factor, since {greater} is never above 0")
    attained = answers[-1] if answers else None
    if not isinstance(attained, No):
        raise ItipError(f"{said}: the least factor isn't known; ask without a budget, by pivots=None")
    if word == "none":
        return Factor(None, None, attained, line)
    holds, _ = answers
    assert isinstance(holds, Yes)
    return Factor(Fraction(details[0]), holds, attained, line)
