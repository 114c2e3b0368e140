"""Trade-off curves: the least pairs of two sums that Shannon's inequalities allow, with a proof of each face."""

from __future__ import annotations

import json
from collections.abc import Container, Iterable, Mapping, Sequence
from dataclasses import dataclass, field, replace
from fractions import Fraction
from math import gcd, lcm
from typing import Any, NamedTuple, Optional, Tuple

from .answers import Answer, No, Yes
from .asking import prove_all
from .bounds import Naming, bound_lines, bound_words, decided_bound, lowest, naming
from .codes import Code, code_at, code_for
from .errors import Forged, ItipError, Refused, TimedOut
from .evidence import Point
from .notation import Assumption, Relation, Sum
from .pictures import Picture, curve_picture
from .program import Itip, default
from .progress import Progress, shown
from .questions import Given, Prove, listed

Place = Tuple[Fraction, Fraction]


class Edge(NamedTuple):
    """The half plane a x + b y >= c, in whole numbers without a common divisor."""

    a: int
    b: int
    c: int


@dataclass(frozen=True)
class Face:
    """An edge of the curve, a x + b y >= c unit, with the answer that proves it."""

    edge: Edge
    answer: Yes = field(repr=False)

    @property
    def relation(self) -> Relation:
        return self.answer.relation


@dataclass(frozen=True)
class Corner:
    """A corner, in units, with a polymatroid that is there."""

    x: Fraction
    y: Fraction
    answer: No = field(repr=False)

    @property
    def point(self) -> Point:
        return self.answer.point

    def __str__(self) -> str:
        return f"({self.x}, {self.y})"


@dataclass(frozen=True)
class Curve:
    """The faces by slope, the steepest first, and the corners between them, from left to right.

    By the faces' proofs nothing lies below the curve, and by the corners' polymatroids Shannon's inequalities exclude nothing above it.
    Whether random variables get there is another question.
    """

    x: Sum
    y: Sum
    unit: Sum
    given: tuple[Assumption, ...] = field(repr=False)
    faces: tuple[Face, ...]
    corners: tuple[Corner, ...]
    questions: int
    calls: int

    def check(self) -> int:
        """Has `itip check` judge each face and each corner, and says how many there are."""
        answers: list[Answer] = [face.answer for face in self.faces]
        answers += [corner.answer for corner in self.corners]
        verdicts = answers[0].program.check([answer.report for answer in answers])
        for verdict, answer in zip(verdicts, answers):
            if verdict != "valid":
                raise Forged(f"{verdict}: {answer.question}")
        return len(answers)

    def code(self, corner: Corner) -> Optional[Code]:
        """A linear code that is at a corner, where one is found: then random variables get there.

        `itip check` judges that its ranks make true what is given. That they are its ranks is for the reader to see.
        """
        point, keep = corner.point, [self.unit]
        # where messages have bits of their own a code reads best, so that is tried first
        found = code_for(point, self.given, keep, 20_000) or code_at(point) or code_for(point, self.given, keep)
        if found is not None:
            self._judge(corner, found)
        return found

    def codes(self) -> list[Optional[Code]]:
        """A code for each corner, where one is found. With all of them the curve is what random variables can do, and no bound alone."""
        return [self.code(corner) for corner in self.corners]

    def _judge(self, corner: Corner, code: Code) -> None:
        """Has `itip check` judge the code's ranks, with the corner's rates, as a counterexample to what plainly fails there."""
        asked, values = corner.answer.asked, corner.point.values
        too_much = int(corner.x + corner.y) + 1
        question = replace(asked, goal=Prove(self.x + self.y >= too_much * self.unit))
        numbers = [str(value if isinstance(key, str) else code.entropy(key)) for key, value in values.items()]
        line = json.dumps({"answer": "no", "point": numbers, "question": question.text(), "side": "forward"})
        verdict, = corner.answer.program.check([line])
        if verdict != "valid":
            raise Forged(f"{verdict}: {code}")

    def picture(self) -> Picture:
        return curve_picture([self])

    def _repr_html_(self) -> str:
        return "<br>".join([self.picture().svg(), *(f"${face.relation.latex()}$" for face in self.faces)])

    def __str__(self) -> str:
        return "\n".join([*(face.relation.text() for face in self.faces), "corners " + ", ".join(map(str, self.corners))])


def tradeoff(
    x: Sum, y: Sum, unit: Sum, given: Given = None, *, progress: Progress = None, program: Optional[Itip] = None, **settings: Any
) -> Curve:
    """The least pairs (x / unit, y / unit) wherever what is given holds.

    One call of mode `outer` has the faces and the corners. Where it is undecided, and with an executor, it keeps a pool of polymatroids,
    and asks of each edge of their hull whether all polymatroids lie beyond it. By a `yes` the edge is a face; a `no` is a polymatroid for
    the pool. It ends when each edge is a face. All edges of a round go into one call.
    """
    at = program or default()
    assumed, begun, questions = listed(given), at.calls, 1
    show = shown(progress)
    pool, proved = _of_bound(naming((x, y, unit), assumed, settings.get("copies", ())), at, settings)
    edges, due = _due(pool, proved)
    if edges:
        show(len(edges) - len(due), len(edges), "faces proved, by one question")
    while due:
        questions += len(due)
        relations = [_relation(edge, x, y, unit) for edge in due]
        for edge, answer in zip(due, prove_all(relations, assumed, about=[x, y, unit], program=at, **settings)):
            if isinstance(answer, Yes):
                proved[edge] = answer
            elif isinstance(answer, No):
                pool[_place(answer, x, y, unit)] = answer
            else:
                raise ItipError(f"{answer.word}: {answer.asked.goal.lines()[0]}; ask without a budget, by pivots=None")
        if not pool:
            raise ItipError(f"{unit} is always 0 here")
        edges, due = _due(pool, proved)
        show(len(edges) - len(due), len(edges), f"faces proved, by {questions} questions")
    faces = tuple(Face(edge, proved[edge]) for edge in edges)
    found = tuple(Corner(*place, pool[place]) for place in _hull(pool))
    return Curve(x, y, unit, assumed, faces, found, questions, at.calls - begun)


def _of_bound(asked: Naming, program: Itip, settings: Mapping[str, Any]) -> tuple[dict[Place, No], dict[Edge, Yes]]:
    """What mode `outer` finds, where it is decided: the places of its rays, and of its rows those that are edges of their hull."""
    pool: dict[Place, No] = {}
    proved: dict[Edge, Yes] = {}
    if settings.get("executor") is not None:
        return pool, proved
    try:
        bound = decided_bound(asked, bound_lines(asked, program, bound_words(program, settings.get("pivots", "usual"))))
    except (Refused, TimedOut):  # (which single questions may not be)
        bound = None
    if bound is None:
        return pool, proved
    for ray in bound.rays:
        x, y, size = ray.numbers
        if size > 0:
            pool[Fraction(x, size), Fraction(y, size)] = asked.attained(ray, program)
    edges, _ = _due(pool, proved)
    for row in bound.rows:
        a, b, less = lowest(row.numbers)
        edge = Edge(a, b, -less)
        if edge in edges:
            proved[edge] = asked.proved(_relation(edge, *asked.kept), row, program)
    return pool, proved


def _relation(edge: Edge, x: Sum, y: Sum, unit: Sum) -> Relation:
    return edge.a * x + edge.b * y >= edge.c * unit


def _due(pool: Mapping[Place, No], proved: Container[Edge]) -> tuple[list[Edge], list[Edge]]:
    """The edges of the hull, and those that aren't proved; without a place what fails where the unit is above 0."""
    if not pool:
        return [], [Edge(0, 0, 1)]
    edges = _edges(_hull(pool))
    return edges, [edge for edge in edges if edge not in proved]


def _place(answer: No, x: Sum, y: Sum, unit: Sum) -> Place:
    point = answer.point
    size = point[unit]
    if size <= 0:
        raise ItipError(f"nothing bounds {x} and {y} from below: {answer.relation} fails at {point}")
    return point[x] / size, point[y] / size


def _hull(places: Iterable[Place]) -> list[Place]:
    """The corners of the places and all that lies above and to the right of them, from left to right.

    >>> _hull([(0, 2), (1, 1), (2, 0), (1, 3), (2, 2)])
    [(0, 2), (2, 0)]
    """
    hull: list[Place] = []
    for x, y in sorted(places):
        if hull and y >= hull[-1][1]:
            continue
        while len(hull) > 1 and _is_above(hull[-1], hull[-2], (x, y)):
            hull.pop()
        hull.append((x, y))
    return hull


def _is_above(place: Place, left: Place, right: Place) -> bool:
    """Whether a place is on the line from left to right, or above it."""
    return (place[1] - left[1]) * (right[0] - left[0]) >= (right[1] - left[1]) * (place[0] - left[0])


def _edges(corners: Sequence[Place]) -> list[Edge]:
    """The edges of a hull, with the upright one at its left and the level one at its right."""
    zero, one = Fraction(0), Fraction(1)
    lines = [(one, zero, corners[0][0])]
    for (x0, y0), (x1, y1) in zip(corners, corners[1:]):
        a, b = y0 - y1, x1 - x0
        lines.append((a, b, a * x0 + b * y0))
    lines.append((zero, one, corners[-1][1]))
    return [_whole(*line) for line in lines]


def _whole(a: Fraction, b: Fraction, c: Fraction) -> Edge:
    multiple = lcm(a.denominator, b.denominator, c.denominator)
    numbers = [int(number * multiple) for number in (a, b, c)]
    divisor = gcd(*numbers)
    return Edge(*(number // divisor for number in numbers))
