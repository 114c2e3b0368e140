"""Rate regions: rows, the elimination of rates, and one region in another."""

from __future__ import annotations

from collections.abc import Mapping, Sequence
from dataclasses import dataclass, field
from typing import Any, Optional, Union

from .answers import Answer, Contained, Open, Projected, Undecided, read
from .asking import answers_to
from .bounds import OuterBound, outer_bound
from .errors import Forged, ItipError, NotationError
from .latex import WIDTH, aligned
from .notation import Assumption, Names, Rate, Relation, Sum, Variable, Variables, names_of
from .outer import rate_sums
from .polygons import Polygon, Values, polygon
from .program import Budget, Itip, default
from .questions import Contain, Eliminate, Given, Prove, Question, Side, as_relation, listed, named, question, with_rates, without_rates


@dataclass(frozen=True)
class Region:
    """Rows over rates and entropies, under what is given. A containment may choose the `auxiliaries`.

    A region that was eliminated has the `answer` that says so.
    """

    rows: tuple[Relation, ...]
    given: tuple[Assumption, ...] = ()
    auxiliaries: Names = ()
    answer: Optional[Projected] = field(default=None, repr=False)

    @property
    def marks(self) -> Names:
        """Of each row of an elimination `needed` or `unsettled`; nothing where the rows are as you wrote them."""
        return self.answer.marks if self.answer is not None else ()

    def rates(self) -> Names:
        return named(self.rows)[1]

    def side(self) -> Side:
        return Side(self.auxiliaries, self.given, self.rows)

    def eliminate(self, *rates: Sum, most_rows: int = 512, pivots: Budget = "usual", program: Optional[Itip] = None) -> Region:
        """The region without these rates, eliminated one after the other; a step may leave `most_rows` rows."""
        at = program or default()
        asked = question(Eliminate(tuple(map(_rate_name, rates))), self.given, self.rows)
        line, = at.report([asked.text()], pivots, ["--rows", str(most_rows)])
        answer = read(asked, line, at)
        if isinstance(answer, Undecided):
            raise ItipError(f"{answer.word}: raise most_rows, or eliminate in another order")
        if not isinstance(answer, Projected):
            raise Forged(f"{answer.word} is no answer to an elimination")
        return Region(answer.rows, self.given, self.auxiliaries, answer)

    def outer_bound(self, *kept: Sum, **settings: Any) -> OuterBound:
        """All that Shannon's inequalities say of these sums in the region, without any of its rates (`bounds.outer_bound`)."""
        return outer_bound(*(kept or rate_sums(self.rates())), given=[*self.given, *self.rows], **settings)

    def why_needed(self, row: int, pivots: Budget = "usual", program: Optional[Itip] = None) -> Answer:
        """Whether a row, by its number from 0, follows from the others: where it is needed, a `no` with a point that shows it."""
        variables, rates = named([*self.given, *self.rows])
        others = self.rows[:row] + self.rows[row + 1 :]
        return answers_to([Question(variables, rates, self.given, others, Prove(self.rows[row]))], pivots, program)[0]

    def at(self, values: Values, *order: Sum) -> Polygon:
        """The polygon of the region's two rates where entropies have these values: those of `entropies` or `gaussian`, a `Point`, or
        just those of the informations that the rows have, {I(X & Y): 1}. `order` may say which rate goes which way."""
        names = tuple(map(_rate_name, order)) or self.rates()
        if len(names) != 2:
            raise NotationError(f"two rates are drawn, and these are {', '.join(names) or 'none'}")
        return polygon(self.rows, names, values)

    def __str__(self) -> str:
        marks = self.marks or ("",) * len(self.rows)
        return "\n".join(row.text() + ("  # unsettled" if mark == "unsettled" else "") for row, mark in zip(self.rows, marks))

    def latex(self, width: int = WIDTH) -> str:
        return aligned(self.rows, width)

    def _repr_html_(self) -> str:
        marks = self.marks or ("",) * len(self.rows)
        return "<br>".join(f"${row.latex()}$" + (" (unsettled)" if mark == "unsettled" else "") for row, mark in zip(self.rows, marks))


def _rate_name(rate: Sum) -> str:
    if isinstance(rate, Sum) and len(rate.terms) == 1:
        number, atom = rate.terms[0]
        if number == 1 and isinstance(atom, Rate):
            return atom.name
    raise NotationError(f"{rate!r} is no rate: declare rates by rates(..)")


def region(*rows: Union[str, Relation], given: Given = None, aux: Variables = ()) -> Region:
    """A region by its rows, under what is given: region(R <= I(U & Y), given=markov(U, X, Y), aux=U). What is given of rates is a row.

    >>> from itip import *
    >>> R, = rates("R")
    >>> region("R >= H(X|Y)", given="R >= 0")
    Region(rows=(R >= H(X|Y), R >= 0), given=(), auxiliaries=())
    """
    assumed = listed(given)
    return Region(tuple(map(as_relation, rows)) + with_rates(assumed), without_rates(assumed), names_of(aux))


def contained(
    first: Region,
    second: Region,
    given: Given = None,
    *,
    attempts: Sequence[Mapping[Variable, Variables]] = (),
    tries: int = 256,
    pivots: Budget = "usual",
    program: Optional[Itip] = None,
) -> Union[Contained, Open]:
    """Whether the first region lies in the second, for whatever choice of its auxiliaries.

    What is `given` holds for both. `attempts` are substitutions for the second one's auxiliaries to try first, as {U: X + Y, V: ()};
    `tries` is how many substitutions are tried at most.
    """
    at = program or default()
    shared = listed(given)
    variables: dict[str, None] = {}
    rates: dict[str, None] = {}
    for parts, own in ((shared, ()), ((*first.given, *first.rows), first.auxiliaries), ((*second.given, *second.rows), second.auxiliaries)):
        names, rate_names = named(parts)
        variables.update(dict.fromkeys(name for name in names if name not in own))
        rates.update(dict.fromkeys(rate_names))
    proposals = tuple({name.name: names_of(of) for name, of in attempt.items()} for attempt in attempts)
    goal = Contain(first.side(), second.side(), proposals)
    asked = Question(tuple(variables), tuple(rates), without_rates(shared), with_rates(shared), goal)
    line, = at.report([asked.text()], pivots, ["--tries", str(tries)])
    answer = read(asked, line, at)
    if not isinstance(answer, (Contained, Open)):
        raise Forged(f"{answer.word} is no answer to a containment")
    return answer
