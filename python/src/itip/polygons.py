"""The rates of a region where entropies have values: a polygon, exact where the values are."""

from __future__ import annotations

from collections.abc import Mapping, Sequence
from dataclasses import dataclass, replace
from fractions import Fraction
from itertools import combinations
from math import log2
from typing import Any, NamedTuple, Tuple, Union

from .errors import NotationError
from .evidence import Point
from .notation import Key, Names, Relation, Sum, rates, rv
from .pictures import Picture, Shape

Place = Tuple[Fraction, Fraction]
Number = Union[int, float, Fraction]
Values = Union[Point, Mapping[Sum, Number], "Mapping[frozenset[str], Number]"]
NEARLY_ZERO = Fraction(1, 10**9)


class HalfPlane(NamedTuple):
    """a x + b y >= c."""

    a: Fraction
    b: Fraction
    c: Fraction


@dataclass(frozen=True)
class Polygon:
    """The pairs of two rates that a region allows. Where nothing bounds them it is cut off, and `is_cut`."""

    x: Sum
    y: Sum
    corners: tuple[Place, ...]
    is_cut: bool
    label: str = ""

    def named(self, label: str) -> Polygon:
        return replace(self, label=label)

    def picture(self, *others: Polygon) -> Picture:
        shapes = tuple(Shape(one.corners, one.corners, one.label, is_filled=True) for one in (self, *others))
        return Picture(shapes, (self.x.text(), self.y.text()), (self.x.latex(), self.y.latex()))

    def _repr_svg_(self) -> str:
        return self.picture().svg()


class Known:
    """What given values say of further sums, by elimination: each row is a combination of coordinates with its value."""

    def __init__(self, values: Values) -> None:
        self.rows: dict[Key, tuple[dict[Key, Fraction], Fraction]] = {}
        self.named: set[Key] = set()  # the coordinates that the values speak of
        pairs = values.values if isinstance(values, Point) else values
        for what, value in pairs.items():
            said = what.joint() if isinstance(what, Sum) else {what: Fraction(1)}
            self.named.update(said)
            row, rest = self._reduced(said, Fraction(value))
            if row:
                lead, number = next(iter(row.items()))
                self.rows[lead] = {key: other / number for key, other in row.items()}, rest / number
            elif abs(rest) > NEARLY_ZERO:
                raise NotationError(f"the value of {what!r} contradicts the others")

    def _reduced(self, row: Mapping[Key, Fraction], value: Fraction) -> tuple[dict[Key, Fraction], Fraction]:
        """What is left of a row, and of its value, without the coordinates that lead the rows before."""
        left = dict(row)
        for lead, (known, number) in self.rows.items():
            factor = left.get(lead)
            if factor:
                value -= factor * number
                for key, other in known.items():
                    left[key] = left.get(key, Fraction(0)) - factor * other
        return {key: number for key, number in left.items() if number}, value

    def value(self, row: Mapping[Key, Fraction]) -> Fraction:
        left, value = self._reduced(row, Fraction(0))
        if left:
            raise NotationError(f"the values given don't say what {dict(row)} is: give it, or all joint entropies")
        return -value


def polygon(rows: Sequence[Relation], names: Names, values: Values) -> Polygon:
    """The polygon of two rates that rows allow where entropies have these values."""
    known = Known(values)
    planes = [plane for row in rows for plane in _half_planes(row, names, known)]
    far = 4 * max([Fraction(1), *(abs(plane.c / number) for plane in planes for number in plane[:2] if number)])
    corners: list[Place] = [(-far, -far), (far, -far), (far, far), (-far, far)]
    for plane in planes:
        corners = _clipped(corners, plane)
    is_cut = any(abs(number) == far for place in corners for number in place)
    if is_cut:  # to what is drawn
        zero, one = Fraction(0), Fraction(1)
        for plane in (HalfPlane(one, zero, zero), HalfPlane(zero, one, zero), HalfPlane(-one, zero, -far / 2), HalfPlane(zero, -one, -far / 2)):
            corners = _clipped(corners, plane)
    x, y = rates(" ".join(names))
    return Polygon(x, y, tuple(corners), is_cut)


def _half_planes(row: Relation, names: Names, known: Known) -> list[HalfPlane]:
    target = row.target().joint()
    a, b = (target.pop(name, Fraction(0)) for name in names)
    others = [key for key in target if isinstance(key, str) and key not in known.named]
    if others:
        raise NotationError(f"two rates are drawn, and {row} has {others[0]} too: eliminate it first")
    c = -known.value(target)
    both = row.sign == "="
    return [HalfPlane(a, b, c), *([HalfPlane(-a, -b, -c)] if both else [])]


def _clipped(corners: Sequence[Place], plane: HalfPlane) -> list[Place]:
    """The part of a convex polygon in a half plane."""
    out: dict[Place, None] = {}
    for place, following in zip(corners, [*corners[1:], *corners[:1]]):
        here, there = (plane.a * x + plane.b * y - plane.c for x, y in (place, following))
        if here >= 0:
            out[place] = None
        if here * there < 0:
            part = here / (here - there)
            out[place[0] + part * (following[0] - place[0]), place[1] + part * (following[1] - place[1])] = None
    return list(out)


# Values


def entropies(names: str, chances: Mapping[Any, float]) -> dict[frozenset[str], float]:
    """The joint entropies in bits of a distribution: entropies("X Y", {(0, 0): 0.5, (1, 1): 0.5}). They are floats, for pictures alone."""
    variables = [variable.name for variable in rv(names)]
    total = sum(chances.values())
    found = {}
    for group in _groups(len(variables)):
        sums: dict[tuple[Any, ...], float] = {}
        for values, chance in chances.items():
            part = tuple(values[place] for place in group)
            sums[part] = sums.get(part, 0.0) + chance / total
        found[frozenset(variables[place] for place in group)] = -sum(p * log2(p) for p in sums.values() if p > 0)
    return found


def gaussian(names: str, covariance: Sequence[Sequence[float]]) -> dict[frozenset[str], float]:
    """The differential entropies in bits of Gaussian variables, each up to a constant of its own, so that informations come out right.

    They are floats, for pictures alone. No variable may be determined by others.
    """
    variables = [variable.name for variable in rv(names)]
    return {
        frozenset(variables[place] for place in group): log2(_determinant([[covariance[i][j] for j in group] for i in group])) / 2
        for group in _groups(len(variables))
    }


def _groups(count: int) -> list[tuple[int, ...]]:
    return [group for size in range(1, count + 1) for group in combinations(range(count), size)]


def _determinant(rows: list[list[float]]) -> float:
    """Of a positive definite matrix, by elimination."""
    volume = 1.0
    while rows:
        first, *rest = rows
        if first[0] <= 1e-12:
            raise NotationError("a variable is determined by others, or this is no covariance")
        volume *= first[0]
        rows = [[number - row[0] / first[0] * above for number, above in zip(row[1:], first[1:])] for row in rest]
    return volume
