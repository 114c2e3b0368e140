"""Answers. Each keeps the line of the report that it was read from, which `itip check` judges."""

from __future__ import annotations

import html
from collections.abc import Mapping
from dataclasses import dataclass
from functools import cached_property
from typing import Any, NoReturn, Optional

from .codes import Code, code_at
from .errors import Forged, NotationError, UndecidedError
from .evidence import Certificate, Point, Proof, certificates, point, row, subset
from .latex import WIDTH, aligned
from .notation import Names, Relation, Sum
from .program import Itip
from .questions import Contain, Eliminate, Prove, Question
from .reading import relation
from .reports import decoded


@dataclass(frozen=True, eq=False, repr=False)
class Answer:
    """An answer of the program: to which question, and the line of the report that says it."""

    asked: Question
    report: str
    program: Itip

    @property
    def word(self) -> str:
        raise NotImplementedError

    @property
    def question(self) -> str:
        """The text that was answered."""
        return self.asked.text()

    def check(self) -> str:
        """The verdict of `itip check`, which trusts nothing of the solver: `valid`, or `skipped` where it judges nothing."""
        verdict = self.program.check([self.report])[0]
        if verdict.startswith("invalid"):
            raise Forged(verdict)
        return verdict

    def tell(self, short: bool = False, steps: bool = False) -> tuple[str, ...]:
        """What `tell` writes below the answer's first line; with the shortest proofs that it finds, or with their steps."""
        words = [word for word, is_wanted in (("--short", short), ("--steps", steps)) if is_wanted]
        first, *below = self.program.tell([self.report], words)[0]
        if first.startswith("invalid"):
            raise Forged(first)
        return tuple(below)

    @cached_property
    def told(self) -> tuple[str, ...]:
        return self.tell()

    @property
    def formulas(self) -> tuple[Relation, ...]:
        """The told lines that are relations."""
        return tuple(found for found in map(_formula, self.told) if found is not None)

    def latex(self, width: int = WIDTH) -> str:
        """The told lines as align*, for the package amsmath; those that are no relation stand before it as comments."""
        others = [f"% {line}" for line in self.told if _formula(line) is None]
        return "\n".join(others + ([aligned(self.formulas, width)] if self.formulas else []))

    def __repr__(self) -> str:
        return self.word

    def __str__(self) -> str:
        return "\n".join([self.word, *("  " + line for line in self.told)])

    def _repr_html_(self) -> str:
        return "<br>".join([f"<b>{html.escape(self.word)}</b>", *map(_line_html, self.told)])


def _formula(line: str) -> Optional[Relation]:
    """A told line as a relation, without its comment, if it is one."""
    try:
        return relation(line.partition("  #")[0])
    except NotationError:
        return None


def _line_html(line: str) -> str:
    formula, comment = _formula(line), line.partition("  #")[2]
    if formula is None:
        return f"<code>{html.escape(line)}</code>"
    return f"$\\displaystyle {formula.latex()}$" + (f" ({html.escape(comment.strip())})" if comment else "")


@dataclass(frozen=True, eq=False, repr=False)
class Yes(Answer):
    """The relation holds at every polymatroid that makes what is given true."""

    relation: Relation
    proofs: tuple[Proof, ...]

    @property
    def word(self) -> str:
        return "yes"

    @cached_property
    def certificates(self) -> tuple[Certificate, ...]:
        """The proofs with the names of what they add up: one, or of an equation two, forward and back."""
        return tuple(certificates(self.asked, self.relation, self.proofs))

    @property
    def certificate(self) -> Certificate:
        return self.certificates[0]

    @property
    def proof(self) -> tuple[Relation, ...]:
        """The told proofs, as equations that are true of every map of sets to numbers."""
        return self.formulas

    def __bool__(self) -> bool:
        return True

    def __repr__(self) -> str:
        return "yes " + " and ".join(one.text() for one in self.certificates)


@dataclass(frozen=True, eq=False, repr=False)
class No(Answer):
    """The relation doesn't follow from Shannon's inequalities: it fails at `point`, a polymatroid that makes what is given true."""

    relation: Relation
    point: Point
    side: str

    @property
    def word(self) -> str:
        return "no"

    def code(self) -> Optional[Code]:
        """Random variables at which the relation fails: a linear code with just the point's entropies, where one is found."""
        return code_at(self.point)

    def __bool__(self) -> bool:
        return False

    def __repr__(self) -> str:
        return f"no {self.point}"


@dataclass(frozen=True, eq=False, repr=False)
class Undecided(Answer):
    """Neither: the run used up its steps, or a number passed 2**127 - 1 (docs/guide/answers.md)."""

    cause: str
    at: str

    @property
    def word(self) -> str:
        return "undecided scale" if self.cause == "scale" else f"undecided {self.cause} {self.at}"

    def again(self, pivots: Optional[int] = None) -> Answer:
        """Asks once more, without a budget or with this one."""
        return read(self.asked, self.program.report([self.question], pivots)[0], self.program)

    def __bool__(self) -> NoReturn:
        more = ": ask again without a budget, by .again(), which may take long" if self.cause == "pivots" else ""
        raise UndecidedError(f"{self.word} is neither yes nor no{more}")


@dataclass(frozen=True, eq=False, repr=False)
class Projected(Answer):
    """A region without the eliminated rates. `sums` are what its rows say is at least 0, and `marks` which of them are `needed`."""

    sums: tuple[Sum, ...]
    marks: Names

    @property
    def word(self) -> str:
        return f"region {len(self.marks)}"

    @property
    def rows(self) -> tuple[Relation, ...]:
        """The rows as `tell` writes them."""
        found = [_formula(line) for line in self.told]
        return tuple(total >= 0 if told is None else told for told, total in zip(found, self.sums))

    def __bool__(self) -> NoReturn:
        raise NotationError("a region is neither true nor false")


@dataclass(frozen=True, eq=False, repr=False)
class Contained(Answer):
    """The first region lies in the second, with these sets in place of the second one's auxiliaries."""

    substitution: Mapping[str, Names]

    @property
    def word(self) -> str:
        return " ".join(["contained", *(f"{name}:={','.join(of) or '0'}" for name, of in self.substitution.items())])

    def __bool__(self) -> bool:
        return True


@dataclass(frozen=True, eq=False, repr=False)
class Open(Answer):
    """No substitution was proved out of `tried`. This is no `no`."""

    tried: int

    @property
    def word(self) -> str:
        return f"open {self.tried}"

    def __bool__(self) -> NoReturn:
        raise UndecidedError(f"{self.word} is neither yes nor no: try more, propose a substitution, or ask without a budget")


def read(asked: Question, line: str, program: Itip) -> Answer:
    """The answer that a line of a report gives to the question that was asked."""
    found = decoded(line)
    if found.get("question") != asked.text():
        raise Forged("the report answers another question")
    try:
        return _answer(asked, line, program, found)
    except (KeyError, ValueError, TypeError, IndexError, AttributeError):
        raise Forged(f"no line of a report has this shape: {line[:200]}") from None


def _answer(asked: Question, line: str, program: Itip, found: Mapping[str, Any]) -> Answer:
    word, goal = found["answer"], asked.goal
    if word == "undecided" and not isinstance(goal, Contain):
        return Undecided(asked, line, program, str(found["cause"]), str(found["at"]))
    if isinstance(goal, Prove):
        if word == "yes":
            proofs = tuple(map(_proof, found["proofs"]))
            if len(proofs) == (2 if goal.relation.sign == "=" else 1):
                return Yes(asked, line, program, goal.relation, proofs)
        if word == "no":
            values = point([int(value) for value in found["point"]], asked.variables, asked.rates)
            return No(asked, line, program, goal.relation, values, str(found["side"]))
    elif isinstance(goal, Eliminate):
        if word == "region":
            rows = [[(int(place), int(number)) for place, number in one["row"]] for one in found["rows"]]
            sums = tuple(row(pairs, asked.variables, asked.rates) for pairs in rows)
            return Projected(asked, line, program, sums, tuple(str(one["mark"]) for one in found["rows"]))
    elif word == "contained":
        names = asked.variables + goal.first.auxiliaries
        sets = [subset(names, int(part)) for part in found["parts"]]
        return Contained(asked, line, program, dict(zip(goal.second.auxiliaries, sets)))
    elif word == "open":
        return Open(asked, line, program, int(found["tried"]))
    raise Forged(f"{word!r} is no answer to this question")


def _proof(found: Mapping[str, Any]) -> Proof:
    return int(found["scale"]), tuple((int(number), int(weight)) for number, weight in found["weights"])
