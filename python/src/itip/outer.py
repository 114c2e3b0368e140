"""The lines of mode `outer` (docs/guide/outer-bounds.md): bounds in rates alone, read, and as an author would write them."""

from __future__ import annotations

import re
from collections.abc import Iterable, Iterator, Mapping, Sequence
from fractions import Fraction
from itertools import groupby
from math import gcd
from typing import NamedTuple, Tuple, Union

from .errors import Forged, NotationError
from .evidence import Generators, told_point
from .modes import Shown, asking, no_at, proof_of, yes_by
from .notation import Names, Rate, Relation, Sum
from .questions import Eliminate, Prove, Question
from .reading import relation
from .reports import UNDECIDED, UNSETTLED

Numbers = Tuple[int, ...]
MARKS = {"needed": "", "unsettled": "  # unsettled"}
TERM = "-?[0-9]+ [^ ]+(?: [0-9.]+)?"  # of a proof: a weight, and an elemental inequality or a line by its number
ROW = re.compile(rf"[0-9]+ row (needed|unsettled) ([^:]*) by ([0-9]+ : (?:0|{TERM}(?: \+ {TERM})*))")
RAY = re.compile("[0-9]+ ray (.*) at (.*)")


class RowLine(NamedTuple):
    """A row by its coefficients at the rates that stay, with its proof as the line has it."""

    mark: str
    numbers: Numbers
    proof: str


class RayLine(NamedTuple):
    """A ray by its rates that stay, with the values of its point in the order of reports."""

    numbers: Numbers
    values: Numbers


class BoundLines(NamedTuple):
    """An outer bound in the rates that stay, as its lines have it."""

    rates: Names
    rows: tuple[RowLine, ...]
    rays: tuple[RayLine, ...]

    def has_line(self) -> bool:
        """Whether some line lies in it whole: then it has no corners."""
        return any(self._is_tight(ray.numbers) for ray in self.rays)

    def _is_tight(self, numbers: Numbers) -> bool:
        return all(value(row.numbers, numbers) == 0 for row in self.rows)


def value(row: Numbers, at: Numbers) -> int:
    return sum(number * rate for number, rate in zip(row, at))


def staying(question: Question) -> Names:
    """The rates that an elimination leaves."""
    gone = question.goal.rates if isinstance(question.goal, Eliminate) else ()
    return tuple(name for name in question.rates if name not in gone)


# Reading


def by_question(lines: Sequence[str]) -> Iterator[tuple[int, list[str]]]:
    """The lines of each answer, with the number that they begin with."""
    for number, group in groupby(lines, lambda line: line.partition(" ")[0]):
        if not number.isdigit():
            raise Forged(f"a line of mode outer has a number: {number!r}")
        yield int(number), list(group)


def whole_answers(lines: Sequence[str]) -> list[str]:
    """The lines without those of a last answer that was cut off."""
    answers = [answer for _, answer in by_question(lines)]
    _, word, *counts = answers[-1][0].split(" ") if answers else ("", "")
    if word == "outer" and len(answers[-1]) != 1 + sum(int(count) for count in counts if count.isdigit()):
        answers.pop()
    return [line for answer in answers for line in answer]


def read_bound(question: Question, lines: Sequence[str]) -> BoundLines:
    """The bound of a question, whose first line says how many rows and rays follow. What isn't one is `Forged`: other lines, a row over
    other rates, rates that aren't those of the values in lowest terms, and a row that fails at a ray."""
    found = re.fullmatch("[0-9]+ outer ([0-9]+) ([0-9]+)", lines[0])
    counts = [int(count) for count in found.groups()] if found else [0, 0]
    if not found or len(lines) != 1 + sum(counts):
        raise Forged(f"no outer bound has this first line, with {len(lines) - 1} lines below it: {lines[0][:200]}")
    rates = staying(question)
    rows = tuple(_row(line, rates) for line in lines[1 : 1 + counts[0]])
    rays = tuple(_ray(line, question, rates) for line in lines[1 + counts[0] :])
    for row, line in zip(rows, lines[1:]):
        if any(value(row.numbers, ray.numbers) < 0 for ray in rays):
            raise Forged(f"a row fails at a ray: {line[:200]}")
    return BoundLines(rates, rows, rays)


def _row(line: str, rates: Names) -> RowLine:
    found = ROW.fullmatch(line)
    try:
        row = relation(found[2]) if found else None
    except NotationError:
        row = None
    numbers = row.left.joint() if row is not None and row.sign == ">=" and not row.right.terms else {}
    if not found or not numbers or any(name not in rates or number.denominator > 1 for name, number in numbers.items()):
        raise Forged(f"this is no row in the rates that stay: {line[:200]}")
    return RowLine(found[1], tuple(int(numbers.get(name, 0)) for name in rates), found[3])


def _ray(line: str, question: Question, rates: Names) -> RayLine:
    found = RAY.fullmatch(line)
    if not found:
        raise Forged(f"this is no ray: {line[:200]}")
    at = told_point(found[2], question.variables, question.rates)
    own = [at.values[name] for name in rates]
    divisor = gcd(*own)
    lowest = tuple(number // divisor for number in own) if divisor else ()
    if not lowest or found[1] != " ".join(f"{name}={number}" for name, number in zip(rates, lowest)) or found[2] != at.text():
        raise Forged(f"these aren't the rates of its values in lowest terms: {line[:200]}")
    return RayLine(lowest, tuple(at.values.values()))


def why_open(answer: Sequence[str]) -> str:
    """Why more steps may say more of an answer: it is undecided by steps, or a row is unsettled. Nothing where they can't."""
    if any(" row unsettled " in line for line in answer):
        return UNSETTLED
    # (without a step the run that takes them is out of reach)
    return UNDECIDED if re.match("[0-9]+ undecided pivots [1-9]", answer[0]) else ""


# What shows a bound


def row_shown(question: Question, row: RowLine) -> Shown:
    """A row is what the question's lines prove."""
    asked = asking(question, Prove(authored(row.numbers, rate_sums(staying(question)))))
    return yes_by(asked, [proof_of(row.proof, Generators(asked))])


def ray_shown(question: Question, ray: RayLine) -> Shown:
    """A ray's values make the question's lines true: so they are a point at which what plainly fails there isn't proved."""
    asked = asking(question, Prove(failing(ray.numbers, rate_sums(staying(question)))))
    return no_at(asked, list(map(str, ray.values)))


def failing(numbers: Numbers, sums: Sequence[Sum]) -> Relation:
    """A relation that fails where the sums are these numbers, times what is above 0: one of them isn't 0."""
    number, total = next((number, total) for number, total in zip(numbers, sums) if number)
    return total <= 0 if number > 0 else total >= 0


# As an author would write it


def rate_sums(names: Sequence[str]) -> list[Sum]:
    return [Sum([(Fraction(1), Rate(name))]) for name in names]


def authored(numbers: Numbers, sums: Sequence[Sum]) -> Relation:
    """The row as an author writes it, with what it counts positively on the left.

    >>> authored((2, 1, -2), rate_sums(("M", "R", "F")))
    2 M + R >= 2 F
    """
    left, right = (sum((abs(number) * total for number, total in zip(numbers, sums) if sign * number > 0), Sum(())) for sign in (1, -1))
    return left >= right if left.terms else right <= 0


def in_order(rows: Sequence[RowLine]) -> list[RowLine]:
    """The rows by the number of their rates, and then as they come."""
    return sorted(rows, key=lambda row: sum(map(bool, row.numbers)))


def told_rays(bound: BoundLines, per: str = "") -> list[tuple[str, RayLine]]:
    """The rays, each with what is told of it: where they are `per` a rate first the corners, by their values. Two opposite ones are a line,
    which is told once, of the greater one."""
    by_numbers = {ray.numbers: ray for ray in bound.rays}
    word = "point" if bound.has_line() else "corner"
    corners: list[tuple[tuple[Fraction, ...], RayLine]] = []
    rest: list[tuple[str, RayLine]] = []
    others = [name for name in bound.rates if name != per]
    for ray in bound.rays:
        at = dict(zip(bound.rates, ray.numbers))
        size = at.get(per, 0)
        names = bound.rates if size else others
        opposite = by_numbers.get(tuple(-number for number in ray.numbers))
        if opposite is not None:
            rest += [(_told("line", at, names), ray), ("", opposite)] if ray > opposite else []
        elif size > 0 and others:
            corners.append((tuple(Fraction(at[name], size) for name in others), ray))
        else:
            rest.append((_told("direction" if per else "ray", at, names), ray))
    return [(f"{_told(word, dict(zip(others, numbers)), others)} per {per}", ray) for numbers, ray in sorted(corners)] + rest


def _told(word: str, at: Mapping[str, Union[int, Fraction]], names: Sequence[str]) -> str:
    """Names with their numbers, in brackets where there are several."""
    left, right = ", ".join(names), ", ".join(str(at[name]) for name in names)
    return f"{word} ({left}) = ({right})" if len(names) > 1 else f"{word} {left} = {right}"


class Part(NamedTuple):
    """A line that is told below the first one, or nothing where another line tells it, and what shows it."""

    text: str
    shown: Shown


def parts(question: Question, bound: BoundLines, per: str = "") -> list[Part]:
    """The rows and then the rays as they are told."""
    sums = rate_sums(bound.rates)
    rows = [Part(authored(row.numbers, sums).text() + MARKS[row.mark], row_shown(question, row)) for row in in_order(bound.rows)]
    return rows + [Part(text, ray_shown(question, ray)) for text, ray in told_rays(bound, per)]


def told(parts: Sequence[Part], judged: Iterable[Sequence[str]], has_proofs: bool) -> list[str]:
    """The lines of the parts, each with what `tell` writes of its report below it, or without that. Where `tell` finds a report invalid
    that stands in the place of both, and where it says nothing nothing is told."""
    lines: list[str] = []
    answers = iter(judged)
    for part in parts:
        first, *below = next(answers, ("",)) if part.shown.report else ("as it is", f"  {part.shown.plain}")
        verdict = first.partition(" ")[2]
        if verdict.startswith("invalid"):
            lines.append(f"  {verdict}")
        elif first:
            lines += [f"  {part.text}"] if part.text else []
            lines += [f"  {line}" for line in below if has_proofs]
    return lines
