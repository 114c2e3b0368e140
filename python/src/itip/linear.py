"""Linear codes at points, as those of a `no` for `./ask --code` (docs/guide/ask.md): variables that are linear functions of a uniform message.

A vector has a number below q for each symbol of the message, and a space is a basis in echelon form: each vector begins with a 1, at a
place of its own, where no other one has a number.
"""

from __future__ import annotations

import json
from itertools import combinations, product
from math import gcd
from time import monotonic

TYPE_CHECKING = False
if TYPE_CHECKING:
    from collections.abc import Iterator, Sequence
    from typing import Any, Dict, List, Optional, Tuple

    Vector = Tuple[int, ...]
    Space = Tuple[Vector, ...]
    Ranks = Sequence[int]  # of all sets of variables, by their numbers

SECONDS = 2.0  # for one point
FIELDS = (2, 3)
MOST_MESSAGES = 4096
MOST_TIMES = 2**32 - 1  # that a line of a report has
NONE = "no linear code over GF(2) or GF(3) was found"
LETTERS = "abcdefghijklmnopqrstuvwxyz"


class Late(Exception):
    """The time is over."""


class Code:
    """The space of each variable, over `elements` elements; `times` its ranks are the point's entropies."""

    def __init__(self, elements: int, spaces: Sequence[Space], times: int) -> None:
        self.elements, self.spaces, self.times = elements, spaces, times

    def ranks(self) -> list[int]:
        """Those of all sets of variables, by elimination."""
        sets = range(1 << len(self.spaces))
        return [rank([vector for place, space in enumerate(self.spaces) if number >> place & 1 for vector in space], self.elements) for number in sets]

    def functions(self) -> list[list[Vector]]:
        """Those that are told of each variable."""
        return [fewest(space, self.elements) for space in self.spaces]

    def value(self) -> dict[str, Any]:
        """The `code` of a report's line (docs/reference/reports.md)."""
        functions = self.functions()
        symbols = max((len(vector) for of in functions for vector in of), default=0)
        return {"field": self.elements, "functions": functions, "symbols": symbols, "times": self.times}

    def text(self, names: Sequence[str], taken: Sequence[str]) -> str:
        """`over GF(2): X = (a), Y = (b), Z = (a + b)`, with letters for the symbols that are no names."""
        letters = [letter for letter in (*LETTERS, *(2 * letter for letter in LETTERS)) if letter not in taken]
        parts = []
        for name, of in zip(names, self.functions()):
            functions = ", ".join(written(vector, letters) for vector in of)
            parts.append(f"{name} = ({functions})" if functions else f"{name} constant")
        return f"over GF({self.elements}): {', '.join(parts)}" + (f"; the point is {self.times} times its ranks" if self.times > 1 else "")


def told(answer: dict[str, Any]) -> tuple[str, str]:
    """What is said of the point of a no; and where that is a code the no with it, a line of a report that is to be judged."""
    lines = [line.replace(",", " ").split() for line in answer["question"].splitlines()]
    names = lines[0][1:]
    rates = [name for word, *listed in lines if word == "rates" for name in listed]
    entropies = [0, *(int(value) for value in answer["point"][: (1 << len(names)) - 1])]
    four = without_code(entropies, len(names))
    if four:
        first, second, third, fourth = (names[place] for place in four)
        return f"no linear code: Ingleton's inequality fails for {first}, {second}; {third}, {fourth}", ""
    code = code_at(entropies, len(names))
    if not code or code.times > MOST_TIMES:
        return NONE, ""
    return code.text(names, [*names, *rates]), json.dumps({**answer, "code": code.value()})


def without_code(h: Ranks, variables: int) -> tuple[int, ...]:
    """Four variables for which Ingleton's inequality fails (A. W. Ingleton, 1971), if there are some: then no multiple of the values has a code."""
    for four in combinations([1 << place for place in range(variables)], 4):
        for a, b in combinations(four, 2):
            c, d = (one for one in four if one not in (a, b))
            if h[a] + h[b] + h[a | b | c] + h[a | b | d] + h[c | d] > h[a | b] + h[a | c] + h[a | d] + h[b | c] + h[b | d]:
                return tuple(one.bit_length() - 1 for one in (a, b, c, d))
    return ()


def code_at(h: Ranks, variables: int, fields: Sequence[int] = FIELDS) -> Optional[Code]:
    """A code over one of the fields whose ranks are the values, but for a number of times. None where none is found in time."""
    times = gcd(*h) or 1
    ranks = [value // times for value in h]
    end = monotonic() + SECONDS
    for elements in fields:
        try:
            spaces = _Search(ranks, variables, elements, end).run() if elements ** ranks[-1] <= MOST_MESSAGES else None
        except Late:
            return None
        if spaces:
            code = Code(elements, spaces, times)
            return code if code.ranks() == ranks else None
    return None


# Spaces


def reduced(vector: Vector, space: Space, q: int) -> Vector:
    """The vector less those of a space, so that it has no number where one of them begins."""
    for own in space:
        number = vector[own.index(1)]
        if number:
            vector = tuple((x - number * y) % q for x, y in zip(vector, own))
    return vector


def joined(space: Space, vectors: Sequence[Vector], q: int) -> Space:
    """The space of both, in echelon form.

    >>> joined((), [(1, 1), (1, 2), (2, 0)], 3)
    ((1, 0), (0, 1))
    """
    for vector in vectors:
        vector = reduced(vector, space, q)
        first = next(filter(None, vector), 0)
        if first:
            vector = tuple(first * x % q for x in vector)  # (1 and 2 are their own inverses)
            space = (*(reduced(own, (vector,), q) for own in space), vector)
    return space


def rank(vectors: Sequence[Vector], q: int) -> int:
    return len(joined((), vectors, q))


def meet(space: Space, other: Space, q: int) -> Space:
    """What is in both: the vectors of one, beside themselves, less those of the other (H. Zassenhaus)."""
    if not space or not other:
        return ()
    size = len(space[0])
    both = joined((), [*(own + own for own in space), *(own + (0,) * size for own in other)], q)
    return joined((), [vector[size:] for vector in both if not any(vector[:size])], q)


def subspaces(space: Space, dimension: int, q: int) -> Iterator[Space]:
    """Each subspace of a dimension once, by its own echelon form in the space's basis.

    >>> [len(list(subspaces(((1, 0, 0), (0, 1, 0), (0, 0, 1)), rank, 2))) for rank in range(4)]
    [1, 7, 7, 1]
    """
    for leads in combinations(range(len(space)), dimension):
        free = [[place for place in range(lead + 1, len(space)) if place not in leads] for lead in leads]
        for numbers in product(*(product(range(q), repeat=len(places)) for places in free)):
            rows = zip(leads, free, numbers)
            yield tuple(total([(1, space[lead]), *zip(chosen, (space[place] for place in places))], q) for lead, places, chosen in rows)


def total(terms: Sequence[Tuple[int, Vector]], q: int) -> Vector:
    return tuple(sum(x * vector[place] for x, vector in terms) % q for place in range(len(terms[0][1])))


def fewest(space: Space, q: int) -> list[Vector]:
    """A basis in the fewest letters, those that come first before others."""
    vectors = [total(list(zip(numbers, space)), q) for numbers in product(range(q), repeat=len(space))] if space else []
    chosen: List[Vector] = []
    found: Space = ()
    first_ones = (one for one in vectors if next(filter(None, one), 0) == 1)
    for vector in sorted(first_ones, key=lambda one: (len(one) - one.count(0), sum(one), [-x for x in one])):
        if len(found) < len(space) and len(joined(found, [vector], q)) > len(found):
            chosen.append(vector)
            found = joined(found, [vector], q)
    return chosen


def written(vector: Vector, letters: Sequence[str]) -> str:
    """A vector that begins with a 1, as a sum of letters."""
    parts = [(" + " if x == 1 else " - ") + letter for x, letter in zip(vector, letters) if x]
    return "".join(parts)[len(" + ") :]


# The search


class _Search:
    """Spaces for the variables one after the other, greatest first, depth first.

    What a variable has outside of the span of those before it are new symbols: all choices of it are alike, by a change of the basis. So
    only its part inside is chosen, and this within each span that holds all of the variable. Of the second variable all choices are
    alike too.
    """

    def __init__(self, ranks: Ranks, variables: int, elements: int, end: float) -> None:
        self.ranks, self.q, self.end = ranks, elements, end
        self.order = sorted(range(variables), key=lambda place: -ranks[1 << place])
        self.symbols = ranks[-1]

    def run(self) -> Optional[list[Space]]:
        """The spaces, none where no code over this field has the ranks."""
        found = self._longer({}, {0: ()})
        return [found[place] for place in range(len(self.order))] if found is not None else None

    def _longer(self, chosen: Dict[int, Space], spans: Dict[int, Space]) -> Optional[Dict[int, Space]]:
        """The choice so far with all that come after it; the spans are those of all sets of chosen variables."""
        if len(chosen) == len(self.order):
            return chosen
        variable = self.order[len(chosen)]
        for space in self._choices(variable, spans):
            if monotonic() > self.end:
                raise Late
            more = self._more_spans(variable, space, spans)
            found = self._longer({**chosen, variable: space}, {**spans, **more}) if more else None
            if found is not None or len(chosen) < 2:
                return found
        return None

    def _choices(self, variable: int, spans: Dict[int, Space]) -> Iterator[Space]:
        bit, everything = 1 << variable, max(spans)
        known = self.ranks[everything]  # symbols
        new = [tuple(int(place == symbol) for place in range(self.symbols)) for symbol in range(known, self.ranks[everything | bit])]
        around = spans[everything]
        for number, span in spans.items():
            if self.ranks[number | bit] == self.ranks[number]:
                around = meet(around, span, self.q)
        inside = self.ranks[bit] - len(new)
        return (joined((), [*part, *new], self.q) for part in subspaces(around, inside, self.q))

    def _more_spans(self, variable: int, space: Space, spans: Dict[int, Space]) -> Dict[int, Space]:
        """The spans with one variable more; none where one of them has another rank than it should."""
        more: Dict[int, Space] = {}
        for number, span in spans.items():
            both = number | 1 << variable
            more[both] = joined(span, space, self.q)
            if len(more[both]) != self.ranks[both]:
                return {}
        return more
