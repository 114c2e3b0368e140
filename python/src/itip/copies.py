"""Copies of variables, with which relations beyond Shannon's have proofs (docs/guide/copies.md)."""

from __future__ import annotations

from collections.abc import Sequence
from dataclasses import dataclass, replace

from .errors import NotationError
from .evidence import subset
from .notation import Assumption, Names, Variable, Variables, entropy, names_of
from .questions import Question
from .reading import Reader


@dataclass(frozen=True, repr=False)
class Copy:
    """`name` has with the set `over` the distribution that `of` has with it, and is independent, given the set, of all variables before."""

    name: str
    of: str
    over: Names

    def text(self) -> str:
        """As the head of a file of mode `copy` has it."""
        return f"copy {self.name} of {self.of} over {', '.join(self.over) or '0'}"

    def given(self, before: Names) -> list[Assumption]:
        """What it adds to a question with these variables before it, in the order of mode `copy`."""
        over = tuple(name for name in before if name in self.over)
        rest = tuple(name for name in before if name not in self.over)
        sets = [subset(over, number) for number in range(2 ** len(over))]
        same: list[Assumption] = [entropy((self.name, *part)) == entropy((self.of, *part)) for part in sets]
        return [*same, entropy((self.name,), rest, over) == 0]

    def __repr__(self) -> str:
        return self.text()


def copy(name: Variable, of: Variable, over: Variables = ()) -> Copy:
    """copy(R, of=A, over=C + D)."""
    return Copy(name.name, of.name, names_of(over))


def read_copies(head: str) -> list[Copy]:
    """The copies of a head that the program has read, in the form in which `cut` hands it out.

    >>> read_copies("copy R of A over C, D\\ncopy S of R over 0\\n")
    [copy R of A over C, D, copy S of R over 0]
    """
    found = []
    for line in head.splitlines():
        reader = Reader(line)
        reader.take("copy")
        name = reader.name()
        reader.take("of")
        of = reader.name()
        reader.take("over")
        found.append(Copy(name, of, () if reader.takes("0") else reader.names()))
    return found


def copied(question: Question, copies: Sequence[Copy]) -> Question:
    """The question with copies of its variables, as mode `copy` makes it."""
    variables, given = question.variables, question.given
    for one in copies:
        if one.name in (*variables, *question.rates) or one.of in one.over:
            raise NotationError(f"{one}: the copy has a name of its own, and the variable isn't in the set")
        missing = [name for name in (one.of, *one.over) if name not in variables]
        if missing:
            raise NotationError(f"{one}: the question has no variable {missing[0]}; name it by about=[H({missing[0]})]")
        given += tuple(one.given(variables))
        variables += (one.name,)
    source = None if question.source is None else _with_lines(question, variables, given[len(question.given) :])
    return replace(question, variables=variables, given=given, source=source)


def _with_lines(question: Question, variables: Names, given: Sequence[Assumption]) -> str:
    """The text of the question with these variables, and with these lines before the last one."""
    _, *lines, goal = question.text().splitlines()
    return "\n".join(["vars " + ", ".join(variables), *lines, *(f"given {part.text()}" for part in given), goal]) + "\n"
