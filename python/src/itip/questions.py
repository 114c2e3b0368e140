"""Questions as objects: what is assumed and what is asked, and their text in a question file."""

from __future__ import annotations

from collections.abc import Iterable, Mapping, Sequence
from dataclasses import dataclass
from functools import cached_property
from typing import Optional, Union

from .errors import NotationError
from .notation import Assumption, Constraint, Names, Rate, Relation, Sum
from .reading import Reader, assumption, relation

Given = Union[None, str, Assumption, "Iterable[Union[str, Assumption]]"]


@dataclass(frozen=True)
class Prove:
    relation: Relation

    def lines(self) -> list[str]:
        return [f"prove {self.relation.text()}"]


@dataclass(frozen=True)
class Eliminate:
    rates: Names

    def lines(self) -> list[str]:
        return ["eliminate " + ", ".join(self.rates)]


@dataclass(frozen=True)
class Side:
    """One of the two regions of a containment, with its auxiliary variables."""

    auxiliaries: Names = ()
    given: tuple[Assumption, ...] = ()
    rows: tuple[Relation, ...] = ()

    def lines(self) -> list[str]:
        auxiliaries = ["aux " + ", ".join(self.auxiliaries)] if self.auxiliaries else []
        return ["region", *auxiliaries, *_assumed(self.given, self.rows)]


@dataclass(frozen=True)
class Contain:
    """Whether the first region lies in the second, with substitutions to try first."""

    first: Side
    second: Side
    tries: tuple[Mapping[str, Names], ...] = ()

    def lines(self) -> list[str]:
        tries = ["try " + "; ".join(f"{name} := {','.join(of) or '0'}" for name, of in attempt.items()) for attempt in self.tries]
        return [*self.first.lines(), *self.second.lines(), *tries, "contain"]


@dataclass(frozen=True)
class Question:
    """One question of a file."""

    variables: Names
    rates: Names
    given: tuple[Assumption, ...]
    rows: tuple[Relation, ...]
    goal: Union[Prove, Eliminate, Contain]
    source: Optional[str] = None

    def text(self) -> str:
        """As it was given, or as a file has it."""
        return self._written if self.source is None else self.source

    @cached_property
    def _written(self) -> str:
        rates = ["rates " + ", ".join(self.rates)] if self.rates else []
        lines = ["vars " + ", ".join(self.variables), *rates, *_assumed(self.given, self.rows), *self.goal.lines()]
        return "\n".join(lines) + "\n"


def _assumed(given: Sequence[Assumption], rows: Sequence[Relation]) -> list[str]:
    return [f"given {part.text()}" for part in given] + [f"row {part.text()}" for part in rows]


def has_rates(part: Assumption) -> bool:
    return any(isinstance(atom, Rate) for atom in part.atoms())


def without_rates(parts: Iterable[Assumption]) -> tuple[Assumption, ...]:
    return tuple(part for part in parts if not has_rates(part))


def with_rates(parts: Iterable[Assumption]) -> tuple[Relation, ...]:
    return tuple(part for part in parts if isinstance(part, Relation) and has_rates(part))


def listed(what: Given) -> tuple[Assumption, ...]:
    """One assumption or several, as objects or as lines in the notation of question files."""
    if what is None:
        return ()
    if isinstance(what, (Relation, Constraint)):
        return (what,)
    if isinstance(what, str):
        return tuple(assumption(line) for line in what.splitlines() if line.strip())
    return tuple(one for part in what for one in listed(part))


def as_relation(what: Union[str, Relation]) -> Relation:
    if isinstance(what, str):
        return relation(what)
    if isinstance(what, Relation):
        return what
    raise NotationError(f"{what!r} is no relation, as H(X | Y) <= H(X) is")


def named(parts: Iterable[Union[Assumption, Sum]]) -> tuple[Names, Names]:
    """The variables and the rates that are named, each in the order in which they first are."""
    variables: dict[str, None] = {}
    rates: dict[str, None] = {}
    for part in parts:
        for atom in part.atoms():
            if isinstance(atom, Rate):
                rates[atom.name] = None
            else:
                variables.update(dict.fromkeys(atom.names()))
    for name in rates:
        if name in variables:
            raise NotationError(f"{name} is a variable and a rate: choose another name for one of them")
    return tuple(variables), tuple(rates)


def question(
    goal: Union[Prove, Eliminate], given: Sequence[Assumption], rows: Sequence[Relation] = (), about: Sequence[Union[Assumption, Sum]] = ()
) -> Question:
    """Assumptions that name a rate become rows, before the others. `about` has what else names variables and rates.

    Variables stand in the order in which what is given, the rows, and then what is asked name them, as one would write it by hand.
    """
    variables, rates = named([*given, *rows, *about])
    if not variables:
        variables = ("X" if "X" not in rates else "Y",)  # a question has one at least
    return Question(variables, rates, without_rates(given), with_rates(given) + tuple(rows), goal)


def parse(source: str) -> Question:
    """Reads one question of a file that the program has read; its relations have whole coefficients."""
    variables, rates = (), ()  # type: Names, Names
    sides = [Side()]  # what stands before the regions, then the regions
    tries: list[dict[str, Names]] = []
    goal: Union[Prove, Eliminate, None] = None
    for line in source.splitlines():
        reader = Reader(line.partition("#")[0].strip(), is_whole=True)
        word = reader.look() and reader.take()
        side = sides[-1]
        if word == "vars":
            variables = reader.names()
        elif word == "rates":
            rates = reader.names()
        elif word == "region":
            sides.append(Side())
        elif word == "aux":
            sides[-1] = Side(reader.names())
        elif word == "given":
            sides[-1] = Side(side.auxiliaries, (*side.given, reader.assumption()), side.rows)
        elif word == "row":
            sides[-1] = Side(side.auxiliaries, side.given, (*side.rows, reader.relation()))
        elif word == "try":
            tries.append(_substitution(reader))
        elif word == "prove":
            goal = Prove(reader.relation())
        elif word == "eliminate":
            goal = Eliminate(reader.names())
    shared = sides[0]
    return Question(variables, rates, shared.given, shared.rows, goal or Contain(sides[1], sides[2], tuple(tries)), source)


def _substitution(reader: Reader) -> dict[str, Names]:
    found: dict[str, Names] = {}
    is_more = True
    while is_more:
        name = reader.name()
        reader.take(":=")
        found[name] = () if reader.takes("0") else reader.names()
        is_more = bool(reader.takes(";"))
    return found
