"""Random variables, rates, and what is said of them: entropies, sums, relations and constraints.

>>> X, Y, Z = rv("X Y Z")
>>> I(X, Y & Z) <= 2 * H(X, Y | Z)
I(X,Y;Z) <= 2 H(X,Y|Z)
>>> markov(X, Y, Z)
markov X -> Y -> Z

Each object is written in the notation of question files (docs/reference/grammar.md) by `text()`, and for a paper by `latex()`.
"""

from __future__ import annotations

import re
from collections.abc import Iterable, Iterator, Sequence
from dataclasses import dataclass
from fractions import Fraction
from typing import NoReturn, Optional, Tuple, Union

from .errors import NotationError
from .latex import Names as LatexNames, formula

Names = Tuple[str, ...]
Key = Union[str, "frozenset[str]"]  # a rate's name, or the names of a joint entropy
NAME = re.compile(r"[A-Za-z][A-Za-z0-9_]{0,15}")


class Written:
    """What has a text and a LaTeX form; notebooks show the latter."""

    def text(self) -> str:
        raise NotImplementedError

    def latex(self) -> str:
        return formula(self.text())

    def __repr__(self) -> str:
        return self.text()

    def _repr_latex_(self) -> str:
        return f"${self.latex()}$"


# Variables, and what stands in the brackets of H and I


class Inside:
    """A part of what stands in brackets: `X + Y` lists variables, `&` stands for the semicolon, `|` before a condition.

    Python takes `X, Y & Z | W` for X, (Y & Z) | W. Read from left to right that is the paper's X, Y; Z | W, wherever the commas are,
    so all that is kept of an operator is its sign, in its place.
    """

    def tokens(self) -> tuple[Variable | str, ...]:
        raise NotImplementedError

    def _joined(self, sign: str, other: object) -> Inside:
        if not isinstance(other, Inside):
            raise NotationError(f"variables alone are joined here, as in H(X + Y), I(X & Y | Z), not {other!r}")
        return Listed((*self.tokens(), sign, *other.tokens()))

    def __add__(self, other: Inside) -> Inside:
        return self._joined("+", other)

    def __and__(self, other: Inside) -> Inside:
        return self._joined("&", other)

    def __or__(self, other: Inside) -> Inside:
        return self._joined("|", other)

    def __repr__(self) -> str:
        return " ".join(token if isinstance(token, str) else token.name for token in self.tokens())


@dataclass(frozen=True, repr=False)
class Variable(Inside, Written):
    """A random variable; two with the same name are the same."""

    name: str

    def __post_init__(self) -> None:
        checked_name(self.name)

    def tokens(self) -> tuple[Variable | str, ...]:
        return (self,)

    def text(self) -> str:
        return self.name


@dataclass(frozen=True, repr=False)
class Listed(Inside):
    """Several variables, and the signs between them."""

    parts: tuple[Variable | str, ...]

    def tokens(self) -> tuple[Variable | str, ...]:
        return self.parts


Variables = Union[Inside, Sequence[Inside]]


def names_of(what: Variables) -> Names:
    """The names of a variable, of X + Y, or of (X, Y)."""
    names = []
    for part in [what] if isinstance(what, Inside) else what:
        for token in part.tokens() if isinstance(part, Inside) else (part,):
            if isinstance(token, Variable):
                names.append(token.name)
            elif token != "+":
                raise NotationError(f"variables alone stand here, as X or X + Y, not {token!r}")
    return tuple(names)


def checked_name(name: str) -> str:
    if not NAME.fullmatch(name):
        raise NotationError(f"{name!r} is no name: a letter, then letters, digits and _, at most 16 of them, as X, X1, X_n")
    if name in ("H", "I"):
        raise NotationError(f"{name} is the word for an entropy or an information: choose another name")
    return name


def rv(names: str) -> tuple[Variable, ...]:
    """Random variables: X, Y = rv("X Y"), or rv("X, Y"). One alone is X, = rv("X")."""
    return tuple(Variable(name) for name in names.replace(",", " ").split())


def rates(names: str) -> tuple[Sum, ...]:
    """Rates, numbers of any sign that are no entropies: R, S = rates("R S")."""
    return tuple(Sum([(Fraction(1), Rate(checked_name(name)))]) for name in names.replace(",", " ").split())


# Sums


@dataclass(frozen=True, repr=False)
class Entropy(Written):
    """H(left | condition), or, with a second side, I(left; right | condition)."""

    left: Names
    right: Names = ()
    condition: Names = ()

    def text(self) -> str:
        right = ";" + ",".join(self.right) if self.right else ""
        condition = "|" + ",".join(self.condition) if self.condition else ""
        return f"{'I' if self.right else 'H'}({','.join(self.left)}{right}{condition})"

    def names(self) -> Names:
        return self.left + self.right + self.condition

    def joint(self) -> Iterator[tuple[int, Key]]:
        """The same as joint entropies with their coefficients."""
        left, right, condition = frozenset(self.left), frozenset(self.right), frozenset(self.condition)
        yield 1, left | condition
        if right:
            yield 1, right | condition
            yield -1, left | right | condition
        if condition:
            yield -1, condition


@dataclass(frozen=True, repr=False)
class Rate(Written):
    name: str

    def text(self) -> str:
        return self.name

    def joint(self) -> Iterator[tuple[int, Key]]:
        yield 1, self.name


Atom = Union[Entropy, Rate]
Term = Tuple[Fraction, Atom]


class Sum(Written):
    """Entropies, informations and rates with exact coefficients. `==`, `<=` and `>=` make a relation of two sums."""

    __hash__ = object.__hash__
    terms: tuple[Term, ...]

    def __init__(self, terms: Iterable[Term]) -> None:
        merged: dict[Atom, Fraction] = {}
        for number, atom in terms:
            merged[atom] = merged[atom] + number if atom in merged else number
        self.terms = tuple((number, atom) for atom, number in merged.items() if number)

    def __add__(self, other: object) -> Sum:
        return Sum(self.terms + as_sum(other).terms)

    __radd__ = __add__

    def __neg__(self) -> Sum:
        return -1 * self

    def __sub__(self, other: object) -> Sum:
        return self + -as_sum(other)

    def __rsub__(self, other: object) -> Sum:
        return as_sum(other) - self

    def __mul__(self, factor: object) -> Sum:
        number = _number(factor)
        if number is None:
            raise NotationError("entropies are multiplied by numbers alone")
        return Sum((number * own, atom) for own, atom in self.terms)

    __rmul__ = __mul__

    def __truediv__(self, divisor: object) -> Sum:
        number = _number(divisor)
        if not number:
            raise NotationError("entropies are divided by numbers alone, and not by 0")
        return self * (1 / number)

    def __le__(self, other: object) -> Relation:
        return Relation(self, "<=", as_sum(other))

    def __ge__(self, other: object) -> Relation:
        return Relation(self, ">=", as_sum(other))

    def __eq__(self, other: object) -> Relation:  # type: ignore[override]
        return Relation(self, "=", as_sum(other))

    def __ne__(self, other: object) -> NoReturn:
        raise NotationError("the signs are <=, >= and ==")

    __lt__ = __gt__ = __ne__

    def __bool__(self) -> NoReturn:
        raise NotationError("a sum of entropies is neither true nor false")

    def atoms(self) -> Iterator[Atom]:
        return (atom for _, atom in self.terms)

    def joint(self) -> dict[Key, Fraction]:
        """The same as joint entropies, by the set of their names, and rates, by name."""
        out: dict[Key, Fraction] = {}
        for number, atom in self.terms:
            for count, key in atom.joint():
                out[key] = out.get(key, Fraction(0)) + count * number
        return {key: number for key, number in out.items() if number}

    def same(self, other: Sum) -> bool:
        """Whether both are the same joint entropies and rates, as I(X & Y) and H(X) - H(X | Y) are."""
        return not (self - other).joint()

    def text(self) -> str:
        parts: list[str] = []
        for number, atom in self.terms:
            sign = "- " if number < 0 else "+ " if parts else ""
            size = abs(number)
            parts.append(sign + ("" if size == 1 else f"{size} ") + atom.text())
        return " ".join(parts) or "0"


def _number(value: object) -> Optional[Fraction]:
    if isinstance(value, float):
        raise NotationError(f"{value} is a float, and all numbers are exact here: write H(X) / 2, or Fraction('{value}') * H(X)")
    return Fraction(value) if isinstance(value, (int, Fraction)) else None


def as_sum(what: object) -> Sum:
    if isinstance(what, Sum):
        return what
    if isinstance(what, Inside):
        raise NotationError(f"{what!r} is a variable: its entropy is H({what!r})")
    number = _number(what)
    if number is None:
        raise NotationError(f"{what!r} is no sum of entropies and rates")
    if number:
        raise NotationError(f"a number stands alone only as 0: name what is constant by a rate, c, = rates('c'), in place of {what}")
    return Sum(())


def entropy(left: Names, right: Names = (), condition: Names = ()) -> Sum:
    return Sum([(Fraction(1), Entropy(left, right, condition))])


H_IS = "H has one set and maybe a condition, last: H(X, Y), H(X, Y | Z)"
I_IS = "I has two sets with & between them and maybe a condition, last: I(X & Y), I(X, Y & Z | W)"


def _in_brackets(items: Sequence[Inside], sides: int, what_it_is: str) -> Sum:
    """The entropy of what stands in the brackets, with one side or two before the condition."""
    before: list[list[str]] = [[]]
    condition: list[str] = []
    part = before[0]
    is_conditioned = False
    for item in items:
        if not isinstance(item, Inside):
            raise NotationError(f"{item!r} is no random variable: declare it by rv")
        for token in item.tokens():
            if isinstance(token, Variable):
                part.append(token.name)
            elif is_conditioned and token != "+":
                raise NotationError(what_it_is)
            elif token == "|":
                is_conditioned, part = True, condition
            elif token == "&":
                part = []
                before.append(part)
    if len(before) != sides or not all(before) or (is_conditioned and not condition):
        raise NotationError(what_it_is)
    right = tuple(before[1]) if sides == 2 else ()
    return entropy(tuple(before[0]), right, tuple(condition))


def H(*items: Inside) -> Sum:
    """A joint entropy: H(X), H(X, Y | Z, W), or with + in place of commas."""
    return _in_brackets(items, 1, H_IS)


def I(*items: Inside) -> Sum:  # noqa: E743
    """A mutual information: I(X & Y), I(X, Y & Z | W), as on paper, with & for the semicolon."""
    return _in_brackets(items, 2, I_IS)


# What is assumed or asked


@dataclass(frozen=True, eq=False, repr=False)
class Relation(Written):
    """left <= right, left >= right or left = right. By itself it is neither true nor false: ask `prove(relation)`."""

    left: Sum
    sign: str
    right: Sum

    def __bool__(self) -> NoReturn:
        raise NotationError("a relation is neither true nor false before it is asked, by prove(..). A chain a <= b <= c is two relations")

    def text(self) -> str:
        return f"{self.left.text()} {self.sign} {self.right.text()}"

    def target(self) -> Sum:
        """What the relation says is at least 0; for an equation, what is 0."""
        return self.right - self.left if self.sign == "<=" else self.left - self.right

    def atoms(self) -> Iterator[Atom]:
        yield from self.left.atoms()
        yield from self.right.atoms()


@dataclass(frozen=True, repr=False)
class Constraint(Written):
    """A Markov chain, an independence or a function, in the words of question files."""

    word: str
    lists: tuple[Names, ...]
    condition: Names = ()

    def text(self) -> str:
        between = {"markov": " -> ", "indep": "; ", "func": " of "}[self.word]
        condition = " | " + ",".join(self.condition) if self.condition else ""
        return f"{self.word} {between.join(map(','.join, self.lists))}{condition}"

    def latex(self) -> str:
        if self.word == "func":
            return (self.sums()[0] == 0).latex()
        names = LatexNames()
        parts = [formula(",".join(part), names) for part in self.lists]
        grouped = [tex if len(part) == 1 else f"({tex})" for tex, part in zip(parts, self.lists)]
        condition = r" \mid " + formula(",".join(self.condition), names) if self.condition else ""
        return (r" \to " if self.word == "markov" else r" \perp ").join(grouped) + condition

    def atoms(self) -> Iterator[Atom]:
        for part in (*self.lists, self.condition):
            yield Entropy(part)

    def sums(self) -> tuple[Sum, ...]:
        """What it says is 0, in the order of reports."""
        if self.word == "func":
            return (entropy(self.lists[0], condition=self.lists[1]),)
        if self.word == "indep":
            together = tuple(name for part in self.lists for name in part)
            each = [(Fraction(1), Entropy(part, (), self.condition)) for part in self.lists]
            return (Sum(each) - entropy(together, condition=self.condition),)
        pasts = [tuple(name for part in self.lists[:count] for name in part) for count in range(1, len(self.lists) - 1)]
        return tuple(entropy(past, last, now) for past, now, last in zip(pasts, self.lists[1:], self.lists[2:]))


Assumption = Union[Relation, Constraint]


def markov(*lists: Variables) -> Constraint:
    """markov(X, Y, Z) or markov(U, X, Y + Z): each depends on those before it through the one directly before it alone."""
    if len(lists) < 3:
        raise NotationError("a Markov chain has three lists or more; that two are independent is indep(X, Y)")
    return Constraint("markov", tuple(map(names_of, lists)))


def indep(*lists: Variables, given: Variables = ()) -> Constraint:
    """indep(X, Y, Z), or indep(X, Y, given=Z)."""
    if len(lists) < 2:
        raise NotationError("two or more are independent: indep(X, Y)")
    return Constraint("indep", tuple(map(names_of, lists)), names_of(given))


def func(what: Variables, of: Variables) -> Constraint:
    """func(Z, of=X + Y): Z is a function of X and Y."""
    return Constraint("func", (names_of(what), names_of(of)))
