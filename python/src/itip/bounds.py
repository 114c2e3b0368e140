"""Outer bounds: all that Shannon's inequalities say of a few sums under what is given, with a proof of each row and a point of each ray."""

from __future__ import annotations

import re
from collections.abc import Sequence
from dataclasses import dataclass, field, replace
from fractions import Fraction
from functools import cached_property
from math import gcd, lcm
from typing import Any, NamedTuple, Optional

from .answers import Answer, No, Yes, read
from .copies import Copy, copied
from .errors import Forged, ItipError, NotationError
from .evidence import Certificate, Generators, Point, point
from .latex import WIDTH, aligned
from .modes import asking, proof_of, report_line
from .notation import Assumption, Names, Rate, Relation, Sum
from .outer import BoundLines, Numbers, RayLine, RowLine, authored, failing, in_order, rate_sums, read_bound, why_open
from .polygons import Polygon, Values, polygon
from .program import Budget, Itip, default
from .questions import Eliminate, Given, Prove, Question, listed, named, with_rates, without_rates
from .reports import decoded


@dataclass(frozen=True)
class Ray:
    """Numbers of the sums that are kept, in lowest terms, and a polymatroid at which they are these, up to a positive multiple. As a corner
    the numbers of the others, in units."""

    numbers: tuple[Fraction, ...]
    answer: No = field(repr=False)

    @property
    def point(self) -> Point:
        return self.answer.point

    def __str__(self) -> str:
        return f"({', '.join(map(str, self.numbers))})"


class Call(NamedTuple):
    """A call of mode `outer`: the question, the words after the mode, and the bound that its lines tell."""

    question: Question
    words: Names
    program: Itip
    bound: BoundLines

    def report(self) -> str:
        """The line that the same call has with `--report`."""
        lines = self.program.itip(["outer", "--report", *self.words], self.question.text()).splitlines()
        if len(lines) != 1:
            raise Forged(f"one question got {len(lines)} lines of a report")
        return lines[0]

    def is_told_by(self, line: str) -> bool:
        """Whether all rows and rays that a line of a report has are among those of the bound, each of which has a proof or a point of its own."""
        found = decoded(line)
        if found.get("answer") == "misfit":
            raise ItipError(f"there is no report: {found.get('cause')}; raise most_rows")
        first = 2 ** len(self.question.variables)
        places = [first + self.question.rates.index(name) for name in self.bound.rates]
        try:
            rows = [dict(row["row"]) for row in found["rows"]]
            points = [tuple(int(ray["point"][at - 1]) for at in places) for ray in found["rays"]]
            vectors = {tuple(int(row.get(at, 0)) for at in places) for row in rows}
            rays = {lowest(point) for point in points}
        except (KeyError, ValueError, TypeError, IndexError, ZeroDivisionError):
            raise Forged(f"no line of a report has this shape: {line[:200]}") from None
        return vectors <= {row.numbers for row in self.bound.rows} and rays <= {ray.numbers for ray in self.bound.rays}


@dataclass(frozen=True)
class OuterBound:
    """All that Shannon's inequalities and what is given say of the sums that are kept.

    The `rows` hold wherever what is given does; `answers` has the `yes` of each. The `rays` are attained by polymatroids, and where the
    rows hold, some whole multiple is a sum of whole multiples of them. So a bound that doesn't follow from the rows fails at a ray.
    """

    kept: tuple[Sum, ...]
    given: tuple[Assumption, ...] = field(repr=False)
    rows: tuple[Relation, ...]
    marks: Names
    answers: tuple[Yes, ...] = field(repr=False)
    rays: tuple[Ray, ...]
    call: Call = field(repr=False, compare=False)

    @cached_property
    def report(self) -> str:
        """The line of a report that shows that the rows are all bounds. It is asked for when it is first needed, which takes as long as the
        bound itself: what shows it is more than the rows with their marks and the rays."""
        line = self.call.report()
        if not self.call.is_told_by(line):
            raise Forged("the report has other rows or rays")
        return line

    @property
    def proofs(self) -> tuple[Certificate, ...]:
        """A certificate of each row."""
        return tuple(answer.certificate for answer in self.answers)

    def corners(self, per: Sum) -> tuple[Ray, ...]:
        """The corner points per unit of one of the sums that are kept: their coordinates are those of the others, in order."""
        at = self._place(per)
        others = [place for place in range(len(self.kept)) if place != at]
        found = [
            Ray(tuple(ray.numbers[place] / ray.numbers[at] for place in others), ray.answer) for ray in self.rays if ray.numbers[at] > 0
        ]
        return tuple(sorted(found, key=lambda corner: corner.numbers))

    def _place(self, what: Sum) -> int:
        for place, one in enumerate(self.kept):
            if one.same(what):
                return place
        raise NotationError(f"{what!r} isn't kept: these are {', '.join(one.text() for one in self.kept)}")

    def at(self, values: Values, *order: Sum) -> Polygon:
        """The polygon of two rates where the other sums have these values, as {F: 1}. `order` may say which rate goes which way."""
        known = [] if isinstance(values, Point) else list(values)
        left = [one for one in self.kept if not any(isinstance(what, Sum) and one.same(what) for what in known)]
        names = tuple(one.terms[0][1].text() for one in order or left if is_rate(one))
        if len(names) != 2:
            raise NotationError(f"two rates are drawn, and these are {', '.join(names) or 'none'}")
        return polygon(self.rows, names, values)

    def check(self) -> int:
        """Has `itip check` judge each row's proof and each ray's point, and says how many there are; and the report, by which the rows are
        all bounds."""
        found: list[Answer] = [*self.answers, *(ray.answer for ray in self.rays)]
        about = [answer.question for answer in found] + [self.call.question.text()]
        verdicts = self.call.program.check([*(answer.report for answer in found), self.report])
        for verdict, question in zip(verdicts, about):
            if verdict != "valid":
                raise Forged(f"{verdict}: {question}")
        return len(found)

    def __str__(self) -> str:
        rows = [row.text() + ("  # unsettled" if mark == "unsettled" else "") for row, mark in zip(self.rows, self.marks)]
        return "\n".join([*rows, f"rays ({', '.join(one.text() for one in self.kept)}) = {', '.join(map(str, self.rays)) or 'none'}"])

    def latex(self, width: int = WIDTH) -> str:
        return aligned(self.rows, width)

    def _repr_html_(self) -> str:
        rows = [f"${row.latex()}$" + (" (unsettled)" if mark == "unsettled" else "") for row, mark in zip(self.rows, self.marks)]
        kept = ", ".join(one.latex() for one in self.kept)
        return "<br>".join([*rows, f"rays $({kept})$ = {', '.join(map(str, self.rays)) or 'none'}"])


# Asking


class Naming(NamedTuple):
    """The sums that are kept, and what asks for their bound: in `question` each has a rate of its own, and `plain` lacks those that only
    name a sum."""

    kept: tuple[Sum, ...]
    given: tuple[Assumption, ...]
    plain: Question
    question: Question

    def proved(self, relation: Relation, row: RowLine, program: Itip) -> Yes:
        """The answer that proves a relation which says of the sums what the row says, divided by its numbers' common divisor.

        Where a rate only names a sum, its line adds nothing once the sum stands in its place: so such lines go from the proof.
        """
        found = proof_of(row.proof, Generators(self.plain))
        multiple = lcm(*(number.denominator for side in (relation.left, relation.right) for number, _ in side.terms))
        proof = {
            "scale": str(int(found["scale"]) * gcd(*row.numbers)),
            "weights": [[number, str(int(weight) * multiple)] for number, weight in found["weights"]],
        }
        answer = self._answer("yes", Prove(relation), program, proofs=[proof])
        assert isinstance(answer, Yes)
        return answer

    def attained(self, ray: RayLine, program: Itip) -> No:
        """The answer that has the ray's point, at which something plainly fails."""
        values = point(ray.values, self.question.variables, self.question.rates).values
        own = [str(value) for key, value in values.items() if not isinstance(key, str) or key in self.plain.rates]
        answer = self._answer("no", Prove(failing(ray.numbers, self.kept)), program, point=own, side="forward")
        assert isinstance(answer, No)
        return answer

    def _answer(self, word: str, goal: Prove, program: Itip, **keys: Any) -> Answer:
        asked = asking(self.plain, goal)
        line = report_line(word, asked, **keys)
        if not line:
            raise ItipError(f"no question file holds the numbers of {goal.relation}")
        return read(asked, line, program)

    def why_undecided(self, lines: Sequence[str]) -> str:
        """What the mode's line says, with the sums in the place of their rates."""
        said = lines[0].partition(" ")[2]
        for name, one in zip(self.question.rates, self.kept):
            said = re.sub(rf"\b{name}\b", one.text() if len(one.terms) == 1 else f"({one.text()})", said)
        return said


def naming(kept: Sequence[Sum], given: Given, copies: Sequence[Copy] = ()) -> Naming:
    for one in kept:
        if not isinstance(one, Sum):
            raise NotationError(f"{one!r} is no sum, as M or H(A) is")
    if not kept:
        raise NotationError("name the sums that are kept: outer_bound(M, R, H(A), given=..)")
    assumed = listed(given)
    variables, own = named([*assumed, *kept])
    taken = {*variables, *own, *(one.name for one in copies)}
    fresh = (name for name in (f"k{number}" for number in range(1, len(taken) + len(kept) + 2)) if name not in taken)
    names: list[str] = []
    named_rows: list[Relation] = []
    for one in kept:
        if is_rate(one) and one.text() not in names:
            names.append(one.text())
        else:
            names.append(next(fresh))
            named_rows.append(rate_sums(names)[-1] == one)
    gone = [name for name in own if name not in names] or [next(fresh)]
    left = tuple(name for name in (*names, *gone) if name in own)
    rows = with_rates(assumed)
    some = variables or ("X" if "X" not in own else "Y",)  # a question has one at least
    plain = copied(Question(some, left, without_rates(assumed), rows, Eliminate(tuple(gone))), copies)
    return Naming(tuple(kept), assumed, plain, replace(plain, rates=(*names, *gone), rows=(*rows, *named_rows)))


def is_rate(what: Sum) -> bool:
    return len(what.terms) == 1 and what.terms[0][0] == 1 and isinstance(what.terms[0][1], Rate)


def lowest(numbers: Numbers) -> Numbers:
    """The numbers without their common divisor."""
    return tuple(number // gcd(*numbers) for number in numbers)


def bound_words(program: Itip, pivots: Budget, most_rows: int = 512, most_rays: int = 256) -> Names:
    """The words of a call of mode `outer`, after the mode."""
    budget = program.pivots if pivots == "usual" else pivots
    settings = {"--run": program.run, "--rows": most_rows, "--tries": most_rays}
    if budget != "usual":
        settings["--pivots"] = "none" if budget is None else budget
    return (*(str(word) for pair in settings.items() for word in pair), *program.name_words())


def bound_lines(asked: Naming, program: Itip, words: Names) -> list[str]:
    """What mode `outer` answers."""
    return program.itip(["outer", *words], asked.question.text()).splitlines()


def decided_bound(asked: Naming, lines: Sequence[str]) -> Optional[BoundLines]:
    """The bound that the lines tell; nothing where they are undecided."""
    if len(lines) == 1 and lines[0].startswith("1 undecided "):
        return None
    return read_bound(asked.question, lines or [""])


def outer_bound(
    *kept: Sum,
    given: Given = None,
    copies: Sequence[Copy] = (),
    most_rows: int = 512,
    most_rays: int = 256,
    pivots: Budget = "usual",
    program: Optional[Itip] = None,
) -> OuterBound:
    """All that Shannon's inequalities say of these sums, rates or entropies, wherever what is given holds: rows and rays.

    It is one call of mode `outer`: a step of it may leave `most_rows` rows, and it looks for `most_rays` rays at most.

    >>> from itip import *
    >>> M, K, C = rv("M K C")
    >>> print(outer_bound(H(M), H(K), H(C), given=[func(M, of=C + K), indep(M, C)]))
    H(M) >= 0
    H(C) >= 0
    H(K) >= H(M)
    rays (H(M), H(K), H(C)) = (1, 1, 0), (0, 1, 0), (0, 0, 1)
    """
    at = program or default()
    asked = naming(kept, given, copies)
    words = bound_words(at, pivots, most_rows, most_rays)
    lines = bound_lines(asked, at, words)
    if pivots == "usual" and at.pivots == "usual" and lines and why_open(lines):
        words = bound_words(at, None, most_rows, most_rays)
        lines = bound_lines(asked, at, words)
    found = decided_bound(asked, lines)
    if found is None:
        raise ItipError(f"{asked.why_undecided(lines)}: keep fewer sums, raise most_rows or most_rays, or ask by pivots=None")
    rows = in_order(found.rows)
    answers = tuple(asked.proved(authored(lowest(row.numbers), asked.kept), row, at) for row in rows)
    rays = tuple(Ray(tuple(map(Fraction, ray.numbers)), asked.attained(ray, at)) for ray in found.rays)
    relations, marks = tuple(answer.relation for answer in answers), tuple(row.mark for row in rows)
    bound = OuterBound(asked.kept, asked.given, relations, marks, answers, rays, Call(asked.question, words, at, found))
    if at.judge:
        bound.check()
    return bound
