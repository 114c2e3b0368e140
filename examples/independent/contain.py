"""Containment of regions: the plan of candidates, their obligations, and the first candidate that is proved.

A candidate has a set of the first region's variables for each auxiliary of the second. The plan is the `try` lines, then the candidate
that was proved last (in an earlier question of the file) where it has the right shape, then all tuples of sets of at most one variable,
then all tuples of sets, each in lexicographic order. A candidate is proved where each obligation, an own constraint of the second region
read by it, has a proof under the first region's constraints, by the run as it is defined. Proofs and counterexamples are verified by their
definitions.
"""

from itertools import chain, islice, product

from defined import outcome
from eliminate import row_text
from questions import Generator, Scope, row_of


def row_by(row, place):
    """The row with each coordinate read as another one."""
    return row_of([(c, place(at)) for at, c in row.items()])


def given_first(constraints):
    return sorted(constraints, key=lambda g: not g.given)


class Containment:
    """The first region as a scope with all lines that speak of it, and the second region's own constraints."""

    def __init__(self, question):
        first, second = question.regions
        self.question, self.second = question, second
        self.common, self.n, self.m = (len(scope.names) for scope in (question, first, second))
        self.first = Scope(first.names, question.rates)
        common = [Generator(g.name, row_by(g.row, self.from_question), g.equation, g.given) for g in question.constraints]
        self.first.constraints = given_first(common + first.constraints)

    def from_question(self, at):
        """A rate's coordinate stands after all sets."""
        return at if at < 2**self.common else at - 2**self.common + 2**self.n

    def obligations(self, parts):
        sets = [2**i for i in range(self.common)] + list(parts)

        def place(at):
            if at >= 2**self.m:
                return at - 2**self.m + 2**self.n
            union = 0
            for i, found in enumerate(sets):
                union |= found if at >> i & 1 else 0
            return union

        return [row_by(row, place) for constraint in given_first(self.second.constraints) for row in constraint.least()]

    def plan(self, kept):
        """`kept` is the candidate that was proved last, or None."""
        count = self.second.auxiliaries
        fits = kept is not None and len(kept) == count and all(part < 2**self.n for part in kept)
        small = [0] + [2**i for i in range(self.n)]
        return chain(
            map(tuple, self.question.tries), [kept] if fits else [], product(small, repeat=count), product(range(2**self.n), repeat=count)
        )

    def proofs(self, parts, pivots):
        """The certificates of the obligations, or None where one of them isn't proved."""
        found = []
        for target in self.obligations(parts):
            end, rest, _ = outcome(self.first, target, pivots)
            if end != "yes":
                return None
            found.append(rest)
        return found

    def answer(self, pivots, tries, kept):
        """("contained", (parts, proofs)) or ("open", how many were tried)."""
        tried = 0
        for parts in islice(self.plan(kept), tries):
            tried += 1
            proofs = self.proofs(parts, pivots)
            if proofs is not None:
                return "contained", (parts, proofs)
        return "open", tried

    def lines(self, number, end, found):
        """The line of the answer to a `contain` question."""
        if end == "open":
            return [f"{number} open {found}"]
        parts = zip(self.second.auxiliary_names(), found[0])
        return [f"{number} contained" + "".join(f" {name}:={self.first.set_text(part) or '0'}" for name, part in parts)]


def proof_lines(number, scope, targets, proofs):
    """The lines of `--format proof` after an answer: each generator with its weight and row, then the target's row."""
    generators, lines = scope.generators(), []
    for target, (scale, weights) in zip(targets, proofs):
        for i in sorted(weights):
            if weights[i]:
                text = row_text(scope, generators[i].row)
                text = text.removesuffix(" >= 0") + " = 0" if generators[i].equation else text
                lines.append(f"{number} proof {weights[i]} {generators[i].name} : {text}")
        lines.append(f"{number} sum {scale} : {row_text(scope, target)}")
    return lines
