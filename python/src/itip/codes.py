"""Linear codes over two elements at a point: random variables in the place of a polymatroid."""

from __future__ import annotations

import random
from collections.abc import Callable, Iterable, Iterator, Mapping, Sequence
from dataclasses import dataclass, field
from fractions import Fraction
from typing import TYPE_CHECKING, Optional, Tuple

from .evidence import Point, subset
from .linear import code_at as code_of_ranks
from .linear import subspaces as subspaces_of
from .linear import without_code
from .notation import Assumption, Constraint, Key, Sum

if TYPE_CHECKING:
    from . import linear

Space = Tuple[int, ...]  # a basis: vectors as bits, with different leading ones
Chosen = Mapping[str, Space]
MOST_BITS = 8  # subspaces are listed
STEPS_BEFORE_A_NEW_START = 10_000


def joined(spaces: Iterable[Space]) -> Space:
    """A basis of what the spaces span together.

    >>> len(joined([(0b01,), (0b10,), (0b11,)]))
    2
    """
    found: list[int] = []
    for space in spaces:
        for vector in space:
            for own in found:
                vector = min(vector, vector ^ own)
            if vector:
                found.append(vector)
                found.sort(reverse=True)
    return tuple(found)


def bits_of(space: linear.Space) -> Space:
    """The same space with vectors as bits: their first number is the greatest bit."""
    return tuple(sum(number << place for place, number in enumerate(reversed(vector))) for vector in space)


def subspaces(dimension: int, rank: int) -> Iterator[Space]:
    """Each subspace once.

    >>> [len(list(subspaces(3, rank))) for rank in range(4)]
    [1, 7, 7, 1]
    """
    whole = tuple(tuple(int(place == other) for other in range(dimension)) for place in range(dimension))
    return map(bits_of, subspaces_of(whole, rank, 2))


@dataclass(frozen=True)
class Code:
    """Variables as sums of independent fair bits b1, b2, ..: their joint entropies are ranks."""

    bits: int
    spaces: Chosen = field(hash=False)

    def entropy(self, names: Iterable[str]) -> int:
        return len(joined(self.spaces[name] for name in names))

    def __str__(self) -> str:
        return ", ".join(f"{name} = {self._written(space)}" for name, space in self.spaces.items())

    def _written(self, space: Space) -> str:
        sums = [" + ".join(f"b{bit + 1}" for bit in range(self.bits) if vector >> bit & 1) for vector in reversed(space)]
        return sums[0] if len(sums) == 1 else f"({', '.join(sums)})" if sums else "0"


class _Search:
    """Chooses a space for one name after the other in random order, depth first, as long as each choice fits those before it."""

    def __init__(self, spaces: Mapping[str, Sequence[Space]], fits: Callable[[Chosen, str], bool], seed: int) -> None:
        self.spaces = spaces
        self.names = tuple(spaces)
        self.fits = fits
        self.shuffle = random.Random(seed)
        self.left = 0  # steps; below 0 where they were too few

    def run(self, steps: int) -> Optional[Chosen]:
        self.left = steps
        return self._completed({})

    def _completed(self, chosen: Chosen) -> Optional[Chosen]:
        if len(chosen) == len(self.names):
            return chosen
        name = self.names[len(chosen)]
        spaces = self.spaces[name]
        for space in self.shuffle.sample(spaces, len(spaces)):
            self.left -= 1
            if self.left < 0:
                return None
            longer = {**chosen, name: space}
            found = self._completed(longer) if self.fits(longer, name) else None
            if found is not None:
                return found
        return None


def code_at(point: Point) -> Optional[Code]:
    """A code that has just the point's entropies. None where there is none, or none is found in time.

    With it the point is one of random variables: a relation that fails at the point fails for them.
    """
    names = point.variables
    entropies = [point.values[key] if key else 0 for key in (frozenset(subset(names, number)) for number in range(2 ** len(names)))]
    if without_code(entropies, len(names)):
        return None
    found = code_of_ranks(entropies, len(names), fields=(2,))
    if found is None:
        return None
    once = [bits_of(space) for space in found.spaces]
    symbols = entropies[-1] // found.times
    # as many codes side by side, each with bits of its own, as the point is times the ranks
    copies = [symbols * number for number in reversed(range(found.times))]
    return Code(entropies[-1], {name: tuple(vector << by for by in copies for vector in space) for name, space in zip(names, once)})


@dataclass(frozen=True)
class _Requirement:
    """A sum that has a value, or, without `is_equation`, at least this value."""

    row: Mapping[Key, Fraction]
    value: Fraction
    is_equation: bool

    def holds(self, chosen: Chosen, point: Point) -> bool:
        total = -self.value
        for key, number in self.row.items():
            total += number * (point.values[key] if isinstance(key, str) else len(joined(chosen[name] for name in key)))
        return total == 0 or (total > 0 and not self.is_equation)


def code_for(point: Point, given: Sequence[Assumption], keep: Sequence[Sum] = (), steps: int = 400_000, seed: int = 1) -> Optional[Code]:
    """A code that makes what is given true, with the point's rates, in which single variables and the sums to keep have its values.

    Sets of several variables may have other entropies, so this finds codes where `code_at` has none. Variables that are independent have
    bits of their own, and the spaces of the others are tried in random order, anew every 10,000 steps.
    """
    sizes, bits = _sizes(point)
    if bits > MOST_BITS:
        return None
    own = _own_bits(given, sizes, bits)
    spaces = {name: own[name] if name in own else list(subspaces(bits, size)) for name, size in sizes.items()}
    spaces = dict(sorted(spaces.items(), key=lambda item: len(item[1])))
    names = tuple(spaces)
    due: dict[str, list[_Requirement]] = {name: [] for name in names}  # by the variable with which they can be judged
    for one in _requirements(point, given, keep):
        named = {name for key in one.row if not isinstance(key, str) for name in key}
        if named:
            due[max(named, key=names.index)].append(one)
    search = _Search(spaces, lambda chosen, name: all(one.holds(chosen, point) for one in due[name]), seed)
    for _ in range(0, steps, STEPS_BEFORE_A_NEW_START):
        found = search.run(STEPS_BEFORE_A_NEW_START)
        if found is not None:
            return Code(bits, {name: found[name] for name in point.variables})
        if search.left >= 0:
            return None  # all choices were tried
    return None


def _sizes(point: Point) -> tuple[dict[str, int], int]:
    """The entropies of single variables, and of all together."""
    return {name: point.values[frozenset([name])] for name in point.variables}, point.values[frozenset(point.variables)]


def _own_bits(given: Sequence[Assumption], sizes: Mapping[str, int], bits: int) -> dict[str, list[Space]]:
    found: dict[str, list[Space]] = {}
    used = 0
    for line in given:
        for name in (name for part in line.lists for name in part) if isinstance(line, Constraint) and line.word == "indep" else ():
            if name not in found and used + sizes[name] <= bits:
                found[name] = [tuple(1 << bit for bit in reversed(range(used, used + sizes[name])))]
                used += sizes[name]
    return found


def _requirements(point: Point, given: Sequence[Assumption], keep: Sequence[Sum]) -> Iterator[_Requirement]:
    for what in keep:
        yield _Requirement(what.joint(), point[what], True)
    for line in given:
        sums, is_equation = (line.sums(), True) if isinstance(line, Constraint) else ((line.target(),), line.sign == "=")
        for says in sums:
            yield _Requirement(says.joint(), Fraction(0), is_equation)
