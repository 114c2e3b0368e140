"""What shows an answer: certificates, which add up, and points, at which a relation fails."""

from __future__ import annotations

import html
import re
from collections.abc import Collection, Iterator, Mapping, Sequence
from dataclasses import dataclass, field
from fractions import Fraction
from itertools import combinations
from math import comb, lcm
from typing import Optional, Tuple

from .errors import Forged, NotationError
from .limits import MOST_NAMES
from .notation import Atom, Entropy, Key, Names, Rate, Relation, Sum, Term
from .questions import Question

Proof = Tuple[int, Tuple[Tuple[int, int], ...]]  # the scale, and numbers of generators with their weights
ELEMENTAL = re.compile(r"[HI]\((\w+)(?:;(\w+))?(?:\|([\w,]+))?\)")


@dataclass(frozen=True)
class Generator:
    """What is never negative, or, as an equation, 0: an elemental inequality or a line of the question."""

    name: str
    sum: Sum
    is_equation: bool = False


@dataclass(frozen=True)
class Certificate:
    """Generators with weights: added up they are `scale` times `target`, which so is never negative."""

    scale: int
    terms: tuple[tuple[int, Generator], ...]
    target: Sum = field(repr=False)

    def adds_up(self) -> bool:
        """Whether the weights are allowed and the sum is right: counted in Python, beside the verdict of `itip check`."""
        if self.scale < 1 or any(weight < 0 and not generator.is_equation for weight, generator in self.terms):
            return False
        total = Sum(term for weight, generator in self.terms for term in (weight * generator.sum).terms)
        return total.same(self.scale * self.target)

    def text(self) -> str:
        return f"{self.scale} : " + (" + ".join(f"{weight} {generator.name}" for weight, generator in self.terms) or "0")

    def __str__(self) -> str:
        return self.text()


def elemental_count(variables: int) -> int:
    """How many elemental inequalities there are.

    >>> [elemental_count(n) for n in (1, 2, 3, 4)]
    [1, 3, 9, 28]
    """
    return variables + (comb(variables, 2) << variables) // 4


def elemental(names: Names, number: int) -> Entropy:
    """An elemental inequality by its number in reports.

    >>> [elemental(("X", "Y"), number) for number in range(3)]
    [H(X|Y), H(Y|X), I(X;Y)]
    """
    if number < len(names):
        return Entropy((names[number],), (), names[:number] + names[number + 1 :])
    pair, chosen = divmod(number - len(names), 2 ** (len(names) - 2))
    first, second = list(combinations(names, 2))[pair]
    others = [name for name in names if name not in (first, second)]
    return Entropy((first,), (second,), subset(others, chosen))


def elemental_number(names: Names, text: str) -> Optional[int]:
    """The number of an elemental inequality in reports, by its text; None where it is none of these variables.

    >>> [elemental_number(("X", "Y", "Z"), text) for text in ("H(Y|X,Z)", "I(X;Z|Y)", "H(Y)")]
    [1, 6, None]
    """
    found = ELEMENTAL.fullmatch(text)
    members = [part.split(",") if part else [] for part in found.groups()] if found else []
    if not found or not all(name in names for part in members for name in part):
        return None
    (first,), second, given = members
    number = names.index(first)
    if second:
        pairs = list(combinations(names, 2))
        others = [name for name in names if name not in (first, *second)]
        if (first, *second) not in pairs or not all(name in others for name in given):
            return None
        chosen = sum(1 << others.index(name) for name in given)
        number = len(names) + (pairs.index((first, *second)) << (len(names) - 2)) + chosen
    return number if elemental(names, number).text() == text else None


def subset(names: Sequence[str], number: int) -> Names:
    """A set by its number: the sum of 2**i over its members.

    >>> subset("XYZ", 5)
    ('X', 'Z')
    """
    return tuple(name for place, name in enumerate(names) if number >> place & 1)


def whole(relation: Relation) -> Sum:
    """What a relation says is at least 0, times the least common multiple of the denominators as they are written."""
    return lcm(*(number.denominator for side in (relation.left, relation.right) for number, _ in side.terms)) * relation.target()


def line_generators(question: Question) -> list[Generator]:
    """What the question's own lines say, in the order of reports."""
    found = []
    for word, lines in (("given", question.given), ("row", question.rows)):
        for count, line in enumerate(lines, 1):
            if isinstance(line, Relation):
                found.append(Generator(f"{word} {count}", whole(line), line.sign == "="))
                continue
            sums = line.sums()
            names = [f"{word} {count}.{k}" for k in range(1, len(sums) + 1)] if len(sums) > 1 else [f"{word} {count}"]
            found += [Generator(name, says, True) for name, says in zip(names, sums)]
    return found


class Generators:
    """What adds up to proofs of a question: elemental inequalities, and then what its lines say, by names and by numbers in reports."""

    def __init__(self, question: Question) -> None:
        self._variables = question.variables
        self._lines = [generator.name for generator in line_generators(question)]
        self._first = elemental_count(len(question.variables))

    def number(self, name: str) -> Optional[int]:
        """The number of the generator of this name; None where it names none."""
        if name in self._lines:
            return self._first + self._lines.index(name)
        return elemental_number(self._variables, name)

    def name(self, number: int) -> str:
        return self._lines[number - self._first] if number >= self._first else elemental(self._variables, number).text()


def certificates(question: Question, relation: Relation, proofs: Sequence[Proof]) -> Iterator[Certificate]:
    """The proofs of a relation with their names: one, or of an equation two, forward and back."""
    lines = line_generators(question)
    first_line = elemental_count(len(question.variables))

    def generator(number: int) -> Generator:
        if number >= first_line:
            return lines[number - first_line]
        inequality = elemental(question.variables, number)
        return Generator(inequality.text(), Sum([(Fraction(1), inequality)]))

    target = whole(relation)
    for (scale, weights), says in zip(proofs, (target, -target)):
        yield Certificate(scale, tuple((weight, generator(number)) for number, weight in weights), says)


@dataclass(frozen=True, repr=False)
class Point:
    """A polymatroid, by its values at the sets of its variables, with values of the rates."""

    variables: Names
    values: Mapping[Key, int] = field(hash=False)

    def __getitem__(self, what: Sum) -> Fraction:
        """The value of a sum, as point[I(X & Y)]."""
        total = Fraction(0)
        for key, number in what.joint().items():
            if key not in self.values:
                raise NotationError(f"the point has no value of {what!r}: its question doesn't name all that stands there")
            total += number * self.values[key]
        return total

    def text(self) -> str:
        """The values as lines have them: with more names than usual those of the rates and of closed sets, which each further variable
        raises; any other set has the value of the least of them around it."""
        return " ".join(f"{name}={value}" for name, value in self._named())

    def _named(self) -> Iterator[tuple[str, int]]:
        for key, value in self.values.items():
            if isinstance(key, str):
                yield key, value
            elif len(self.variables) <= MOST_NAMES or self._is_closed(key):
                yield set_text(self.variables, key), value

    def _is_closed(self, members: frozenset[str]) -> bool:
        return all(self.values[members] < self.values[members | {name}] for name in self.variables if name not in members)

    def __repr__(self) -> str:
        return self.text()

    def _repr_html_(self) -> str:
        heads = "".join(f"<th>{html.escape(name)}</th>" for name, _ in self._named())
        cells = "".join(f"<td>{value}</td>" for _, value in self._named())
        return f"<table><tr>{heads}</tr><tr>{cells}</tr></table>"


def point(numbers: Sequence[int], variables: Names, rates: Names) -> Point:
    """A point as the report has it: the sets by their numbers, from 1, and then the rates."""
    keys: list[Key] = [frozenset(subset(variables, number)) for number in range(1, 2 ** len(variables))]
    keys += rates
    if len(numbers) != len(keys):
        raise Forged(f"the point has {len(numbers)} values, and {len(keys)} are due")
    return Point(variables, dict(zip(keys, numbers)))


def set_text(variables: Names, members: Collection[str]) -> str:
    return "h(" + ",".join(name for name in variables if name in members) + ")"


def told_point(text: str, variables: Names, rates: Names) -> Point:
    """A point as lines have it (`Point.text`).

    >>> told_point("h(X)=1 h(Y)=2 h(X,Y)=3 R=4", ("X", "Y"), ("R",))
    h(X)=1 h(Y)=2 h(X,Y)=3 R=4
    """
    told = {name: int(value) for name, value in re.findall(r"(h\([^)]*\)|\w+)=(-?[0-9]+)", text)}
    count = len(variables)
    values = [0] * 2**count
    for number in range(2**count - 1, 0, -1):
        around = (values[number | 1 << place] for place in range(count) if not number >> place & 1)
        values[number] = told.get(set_text(variables, subset(variables, number)), min(around, default=0))
    return point([*values[1:], *(told.get(rate, 0) for rate in rates)], variables, rates)


def row(pairs: Sequence[tuple[int, int]], variables: Names, rates: Names) -> Sum:
    """A row as the report has it: coordinates with their coefficients."""
    sets = 2 ** len(variables)
    terms: list[Term] = []
    for place, number in pairs:
        atom: Atom = Entropy(subset(variables, place)) if place < sets else Rate(rates[place - sets])
        terms.append((Fraction(number), atom))
    return Sum(terms)
