"""Tests projections without eliminating anything: at a polymatroid that makes the `given` lines true, with whole rates that stay, an exact
linear program says whether the eliminated rates can be chosen (rationals, so whole numbers after a whole multiple of everything).

Where they can't, weights of the rows show it; where they can, the rates are shown. Both are checked here by sums.
"""

from fractions import Fraction
from random import Random

from decide import Program
from verify import value


def choose(question, values):
    """Values of the eliminated rates with which all rows are at least 0, or None."""
    gone = question.eliminated
    rows = question.system()
    # A row says that its coefficients times the rates, plus its rest, is at least 0.
    rests = [value({at: c for at, c in row.items() if at not in gone}, values) for row in rows]
    columns = [{i: row[at] for i, at in enumerate(gone, 1) if at in row} for row in rows]
    last = len(gone) + 1
    for column, rest in zip(columns, rests):
        if rest:
            column[last] = rest
    # A sum of the rows, with weights of at least 0, that has no rate and a rest below 0 shows that there are none.
    end, found = Program(columns, {last: -1}, last).run(range(len(columns)))
    if end == "yes":
        assert all(weight >= 0 for weight in found.values())
        total = {}
        for i, weight in found.items():
            for at, c in columns[i].items():
                total[at] = total.get(at, 0) + weight * c
        assert {at: c for at, c in total.items() if c} == {last: -1}
        return None
    chosen = {at: Fraction(found[i], found[last - 1]) for i, at in enumerate(gone)}
    full = {**values, **chosen}
    assert all(value(row, full) >= 0 for row in rows)
    return chosen


def ranks(vectors):
    """The dimension of the span of each set's vectors over two elements, by the set's number; each variable has a list of vectors."""
    table = [0]
    for s in range(1, 2 ** len(vectors)):
        basis = []
        for i, own in enumerate(vectors):
            for vector in own if s >> i & 1 else []:
                for other in basis:
                    vector = min(vector, vector ^ other)
                if vector:
                    basis.append(vector)
        table.append(len(basis))
    return table


class Points:
    """Points on the coordinates that stay: polymatroids that make the `given` lines true, with small rates or with rates next to a row's
    border."""

    def __init__(self, question, rows, seed):
        self.question, self.rows, self.random = question, rows, Random(seed)
        self.n = len(question.names)
        self.rates = [at for at in range(2**self.n, question.size() + 1) if at not in question.eliminated]
        self.parts = [table for table in self.tables() if self.meets(table)]

    def tables(self):
        """A bit that all variables of a set know, and entropies of sums of random bits."""
        for t in range(1, 2**self.n):
            yield [int(s & t > 0) for s in range(2**self.n)]
        for _ in range(600 if self.n < 6 else 150):
            bits = self.random.choice([2, 2, 3])
            sizes = [self.random.choice([0, 1, 1, 1, 2]) for _ in range(self.n)]
            yield ranks([[self.random.randrange(2**bits) for _ in range(size)] for size in sizes])

    def meets(self, table):
        for constraint in self.question.constraints:
            found = value(constraint.row, table)
            if found < 0 or constraint.equation and found:
                return False
        return True

    def small(self):
        """A sum of multiples of such polymatroids, each of which makes the lines true: so does the sum."""
        parts = [(self.random.randint(1, 4), self.random.choice(self.parts)) for _ in range(self.random.randint(1, 4)) if self.parts]
        values = {s: sum(c * table[s] for c, table in parts) for s in range(1, 2**self.n)}
        return values | {at: self.random.randint(-2, 6) for at in self.rates}

    def bordering(self):
        """A point at which one row of the projection is 0 or just short of it, by the choice of one rate."""
        values = self.small()
        rows = [row for row in self.rows if any(at in row for at in self.rates)]
        if rows:
            row = self.random.choice(rows)
            at = self.random.choice([at for at in self.rates if at in row])
            values[at] = 0
            rest, c = value(row, values) - self.random.choice([0, 0, 1]), abs(row[at])
            if rest % c:
                values = {key: c * v for key, v in values.items()}
                rest *= c
            values[at] = -rest // row[at]
        return values

    def next(self):
        return self.random.choice([self.small, self.bordering, self.bordering])()


def test(question, rows, count, seed=1):
    """How many points extend and how many don't; an assertion where the projection says another thing."""
    points = Points(question, rows, seed)
    assert not any(at in row for row in rows for at in question.eliminated)
    extend = 0
    for _ in range(count):
        values = points.next()
        inside = all(value(row, values) >= 0 for row in rows)
        assert inside == (choose(question, values) is not None), values
        extend += inside
    return extend, count - extend
