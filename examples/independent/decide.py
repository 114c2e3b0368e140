"""Decides a target over exact numbers, by a linear program of its own: over all sets, without closures.

Equations are free columns that enter first. Then the column with the greatest worth enters (Dantzig's rule) and the
lexicographic rule says which row leaves, so the run ends. Whatever comes out is checked by `verify` from the definitions.
"""

from fractions import Fraction
from math import gcd, lcm


class Row:
    """A row of the table with its right side: whole numbers, told up to a positive factor."""

    def __init__(self, entries, right):
        self.entries, self.right = entries, right

    def at(self, column):
        return self.entries.get(column, 0)

    def negate(self):
        self.entries = {j: -v for j, v in self.entries.items()}
        self.right = -self.right

    def clear(self, column, other):
        """Takes off what makes the entry at the column 0; the other row's is above 0."""
        p, q = other.at(column), self.at(column)
        entries = {j: p * v for j, v in self.entries.items()} if p != 1 else self.entries
        for j, v in other.entries.items():
            left = entries.get(j, 0) - q * v
            if left:
                entries[j] = left
            else:
                entries.pop(j, None)
        right = p * self.right - q * other.right
        common = gcd(right, *entries.values()) or 1
        self.entries = {j: v // common for j, v in entries.items()} if common != 1 else entries
        self.right = right // common


class Program:
    """Asks for weights of columns that sum to the target; rows are the coordinates, each with an artificial column."""

    def __init__(self, columns, target, size):
        self.count, self.size = len(columns), size
        self.rows = []
        for at in range(1, size + 1):
            entries = {c: column[at] for c, column in enumerate(columns) if at in column}
            entries[self.count + at - 1] = 1
            self.rows.append(Row(entries, target.get(at, 0)))
        self.basic = [None] * size

    def pivot(self, r, c, cost=None):
        row = self.rows[r]
        if row.at(c) < 0:
            row.negate()
        for other in self.rows + [cost]:
            if other and other is not row and other.at(c):
                other.clear(c, row)
        self.basic[r] = c

    def enter(self, c):
        """Brings a free column in, where a row that isn't taken has it."""
        for r, row in enumerate(self.rows):
            if self.basic[r] is None and row.at(c):
                self.pivot(r, c)
                return

    def key(self, row):
        """What the lexicographic rule compares: the right side, then the artificials in order."""
        yield row.right
        for j in range(self.size):
            yield row.at(self.count + j)

    def leaving(self, rows, c):
        tied = [(self.rows[r].at(c), r, self.key(self.rows[r])) for r in rows if self.rows[r].at(c) > 0]
        while len(tied) > 1:
            ratios = [Fraction(next(key), entry) for entry, _, key in tied]
            least = min(ratios)
            tied = [row for row, ratio in zip(tied, ratios) if ratio == least]
        return tied[0][1]

    def run(self, inequalities):
        """("yes", weights by column) or ("no", a value for each coordinate)."""
        left = [r for r in range(self.size) if self.basic[r] is None]
        for r in left:
            if next(v for v in self.key(self.rows[r]) if v) < 0:
                self.rows[r].negate()
        # The sum of the rows whose artificials are in, up to a positive factor; a pivot keeps it so.
        cost = Row({}, sum(self.rows[r].right for r in left))
        for r in left:
            for j, v in self.rows[r].entries.items():
                cost.entries[j] = cost.at(j) + v
        while cost.right:
            worth, column = max(((cost.at(c), -c) for c in inequalities), default=(0, 0))
            if worth <= 0:
                # It is a sum of the first rows: no column likes its multipliers, and the target does.
                return "no", [-cost.at(self.count + j) for j in range(self.size)]
            self.pivot(self.leaving(left, -column), -column, cost)
        return "yes", {c: Fraction(self.rows[r].right, self.rows[r].at(c)) for r, c in enumerate(self.basic) if c is not None}


def decide(question, target):
    """("yes", (scale, weights by generator)) or ("no", values by coordinate), whole numbers."""
    generators = question.generators()
    program = Program([g.row for g in generators], target, question.size())
    for c, generator in enumerate(generators):
        if generator.equation:
            program.enter(c)
    end, found = program.run([c for c, g in enumerate(generators) if not g.equation])
    if end == "no":
        return end, dict(enumerate(found, 1))
    scale = lcm(*(weight.denominator for weight in found.values()))
    return end, (scale, {c: int(found[c] * scale) for c in sorted(found) if found[c]})
