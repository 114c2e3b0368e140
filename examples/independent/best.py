"""The best factor between the sides of `prove E >= F`: the least c with c E >= F wherever the constraints are met. Three runs as they are
defined, over all sets, in numbers that refuse what passes 2**127 - 1; and the line that they give.
"""

from math import gcd

from defined import Table, Wide, check_sums, check_values, common_scale, fit, multiply, scaled, subtract, sum_text, values_text
from questions import ENTRIES, negated, row_of
from verify import point_fault, sum_fault, value


class Undecided(Exception):
    """The cause is the text of it."""


class Part:
    """One of the three runs: unknowns, each a row and whether it is free of sign, that are to make a target."""

    def __init__(self, unknowns, target, size):
        self.target, self.size = target, size
        self.columns, self.first = [], []
        for row, free in unknowns:
            self.first.append((len(self.columns), free))
            self.columns += [row, negated(row)] if free else [row]

    def entries(self):
        """Rows times columns, with the artificial ones."""
        return self.size * (len(self.columns) + self.size)

    def end(self, number, budget):
        """("weights", a number for each unknown) or ("point", a value for each row); `number` is the part's, from 1."""
        try:
            end, found = Table(range(1, self.size + 1), self.columns, self.target).end(budget)
        except Wide:
            end, found = "width", 0
        if end in ("pivots", "width"):
            raise Undecided(f"{end} {found} in {number}")
        return end, found

    def numbers(self, weights):
        """The number of each unknown by the weights of its columns."""
        at = lambda j: weights.get(j, (0, 1))
        return [subtract(at(j), at(j + 1)) if free else at(j) for j, free in self.first]


class Best:
    def __init__(self, question, budget):
        self.question, self.budget = question, budget
        self.sign, self.left, self.right = question.sides
        self.generators, self.size = question.generators(), question.size()
        self.count = len(self.generators)

    def first(self):
        turned = [(negated(g.row), g.equation) for g in self.generators]
        return Part([(self.left, True)] + turned, self.right, self.size)

    def second(self):
        return Part([(g.row, g.equation) for g in self.generators], negated(self.left), self.size)

    def third(self):
        """Further coordinates: one for each generator, one for the value of the left side, and one for that of the right side."""
        at_left, at_right = self.size + self.count + 1, self.size + self.count + 2
        unknowns = [({**self.left, at_right: -1}, True)] + [(negated(g.row), g.equation) for g in self.generators]
        for i in range(1, self.size + 1):
            terms = [(g.row.get(i, 0), self.size + 1 + j) for j, g in enumerate(self.generators)]
            row = row_of(terms + [(self.left.get(i, 0), at_left), (self.right.get(i, 0), at_right)])
            unknowns.append((row, i >= 2 ** len(self.question.names)))
        unknowns += [({self.size + 1 + j: -1}, False) for j, g in enumerate(self.generators) if not g.equation]
        return Part(unknowns, {**self.right, at_left: 1}, at_right)

    # What stands at the end

    def proof(self, target, weights):
        """The certificate of a row by the weights of the generators."""
        scale = common_scale(weights)
        whole = {i: scaled(weight, scale) for i, weight in enumerate(weights) if weight[0]}
        check_sums(self.question, target, scale, whole)
        assert not sum_fault(self.question, target, scale, whole)
        return scale, whole

    def factor_proof(self, factor, weights):
        """That of num times the left side less den times the right one."""
        num, den = factor
        weights = [multiply(weight, (den, 1)) for weight in weights]
        parts = [(fit(num * self.left.get(i, 0)), fit(den * self.right.get(i, 0)), i) for i in range(1, self.size + 1)]
        return self.proof(row_of([(fit(a - b), i) for a, b, i in parts]), weights)

    def values(self, numbers, sign=1):
        scale = common_scale(numbers)
        values = {at: sign * scaled(number, scale) for at, number in enumerate(numbers, 1)}
        check_values([g.row for g in self.generators] + [self.left, self.right], values)
        assert not point_fault(self.question, values)
        return values

    def never(self, point):
        values = self.values(point, -1)
        assert value(self.left, values) == 0 < value(self.right, values)
        return "none", values

    def unbounded(self, numbers, below):
        factor, *weights = numbers
        proof = self.factor_proof(factor, weights)
        return "unbounded", (factor, proof, self.proof(negated(self.left), below))

    def least(self, numbers):
        factor, weights, values = numbers[0], numbers[1 : self.count + 1], numbers[self.count + 1 : self.count + 1 + self.size]
        proof, values = self.factor_proof(factor, weights), self.values(values)
        left, right = value(self.left, values), value(self.right, values)
        assert left > 0 and fit(factor[0] * left) == fit(factor[1] * right) and gcd(*factor) == 1
        return "best", (factor, proof, values)

    def answer(self):
        """The word of the line, and what was found: ("best", (factor, proof, values)), ("none", values), ("unbounded", (factor, proof, proof
        of the left side turned)), ("undecided", the cause)."""
        try:
            third = self.third()
            if third.entries() > ENTRIES:
                return "undecided", "size"
            first = self.first()
            end, found = first.end(1, self.budget)
            if end == "point":
                return self.never(found)
            second = self.second()
            end, below = second.end(2, self.budget)
            if end == "weights":
                return self.unbounded(first.numbers(found), second.numbers(below))
            end, found = third.end(3, self.budget)
            assert end == "weights"
            return self.least(third.numbers(found))
        except Undecided as cause:
            return "undecided", str(cause)
        except Wide:
            return "undecided", "scale"


def ratio(factor):
    return f"{factor[0]}/{factor[1]}"


def asks_factor(question):
    return question.verb == "prove" and question.sides[0] == ">="


def text(question, end, found):
    """What stands after the word."""
    if end == "none":
        return values_text(question, found)
    if end == "undecided":
        return found
    factor, proof, other = found
    shown = f"{ratio(factor)} {sum_text(question, *proof)}"
    return f"{shown} at {values_text(question, other)}" if end == "best" else f"{shown} and {sum_text(question, *other)}"


def line(number, question, budget=20000):
    """The line of mode `best`; of any other question but `prove E >= F` it is `other`."""
    if not asks_factor(question):
        return f"{number} other"
    end, found = Best(question, budget).answer()
    return f"{number} {end} {text(question, end, found)}"
