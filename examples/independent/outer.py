"""The outer bound of a question that ends with `eliminate`: the cone of the rates that stay at which some polymatroid, with some rates that
go, makes all lines true. It is found from outside (Benson, "An outer approximation algorithm for generating all efficient extreme
points", 1998): of the rows that are known the double description method gives the rays, and a linear program says of each ray whether it
is attained, or gives a row that cuts it off. Once each ray is attained the cone is the projection.

The programs are over closed sets, without what equations express. Whatever comes out is checked by `verify` over all sets: the points
that attain the rays, and of each row a certificate.
"""

from fractions import Fraction
from math import gcd, lcm

from closures import closure, dependences
from cones import echelon, generators, lowest, normal, product, reduced, rows_of
from eliminate import row_text
from questions import Scope, row_of
from verify import near_point_fault, sum_fault


def with_all_lines(question):
    """The question's names with all its lines as constraints, `row` lines too."""
    scope = Scope(question.names, question.rates)
    scope.constraints = question.constraints + question.rows
    return scope


def kept_rates(question):
    """The coordinates of the rates that stay."""
    return [at for at in range(2 ** len(question.names), question.size() + 1) if at not in question.eliminated]


# how many columns are priced at once
BLOCK = 64


class Certificate:
    """Weights of generators that are to make a scale's multiple of a row, over all sets."""

    def __init__(self, scope, found):
        self.scope, self.found, self.weights, self.generators = scope, found, {}, scope.generators()
        self.places = {tuple(g.row.items()): i for i, g in enumerate(scope.elementals())}
        self.first = len(self.places)

    def add(self, at, weight):
        self.weights[at] = self.weights.get(at, 0) + weight

    def add_entropy(self, weight, one, given):
        """The entropy of one variable given a set, by elemental inequalities."""
        whole = 2 ** len(self.scope.names) - 1
        self.add(self.places[tuple(row_of([(1, whole), (-1, whole ^ one)]).items())], weight)
        for other in bits(whole ^ one ^ given):
            self.add_mutual(weight, one, other, given)
            given |= other

    def add_mutual(self, weight, one, other, given):
        row = row_of([(1, one | given), (1, other | given), (-1, one | other | given), (-1, given)])
        self.add(self.places[tuple(row.items())], weight)

    def add_rise(self, weight, low, high):
        """h(high) - h(low), of a set and one that lies in it."""
        for one in bits(high ^ low):
            self.add_entropy(weight, one, low)
            low |= one

    def add_submodular(self, weight, a, b):
        """h(a) + h(b) - h(a and b together) - h(what is in both)."""
        given = a & b
        for one in bits(a & ~b):
            within = given
            for other in bits(b & ~a):
                self.add_mutual(weight, one, other, within)
                within |= other
            given |= one

    def add_closing(self, weight, a):
        """h(a) - h(closure of a), by the dependences that lead there."""
        while True:
            d = next((d for d in self.found if d.at | a == a and d.to | a != a), None)
            if d is None:
                return
            self.add_submodular(weight, a, d.to)
            self.add_rise(weight, d.at, a & d.to)
            self.add(self.first + d.generator, weight if d.turned else -weight)
            a |= d.to

    def add_rest(self, row, scale):
        """What is left to make the row, which is nothing once each set is told by its closure, and the empty set's closure by the empty set."""
        terms = [(scale * c, at) for at, c in row.items()]
        for i, weight in self.weights.items():
            terms += [(-weight * c, at) for at, c in self.generators[i].row.items()]
        for at, c in row_of(terms).items():
            closed = closure(self.found, at)
            is_constant = closed == closure(self.found, 0)
            if c > 0 and is_constant:
                self.add_rise(c, 0, at)
            elif c > 0:
                self.add_closing(c, at)
            else:
                self.add_rise(-c, at, closed)
            if c < 0 and is_constant:
                self.add_closing(-c, 0)


def bits(a):
    while a:
        yield a & -a
        a &= a - 1


class Depth:
    """How much of some rates d, which are attained, has to be added to rates x until they are attained: the simplex method on the dual. Weights
    of at least 0 of inequalities speak of no value, have at d together at most 1, and at x as little as may be; the prices are values, how
    much of d, turned, and a multiple of x, which make true the inequalities that entered. A row of the inverse, with its right side last, and the
    prices are told up to a positive factor. In each equation a weight of its own may be missing, at a price."""

    def __init__(self, columns, prices):
        """Of each inequality its coefficients by place, and what it is at d and at x."""
        self.slack = len(prices)
        self.columns = [[(at, -c) for at, c in [*own, (self.slack, -at_d), (self.slack + 1, at_x)] if c] for own, at_d, at_x in columns]
        self.basic = [None] * (self.slack + 1)
        self.inverse = [[int(i == j) for j in range(self.slack + 1)] + [0, int(i == self.slack)] for i in range(self.slack + 1)]
        self.prices, self.next = [*prices, 0, 1, 0], 0

    def entry(self, row, column):
        total = 0
        for at, c in column:
            total += row[at] * c
        return total

    def entering(self):
        """The column that is worth most among the next ones of which one is worth something, and what it is worth; nothing where none is."""
        count = len(self.columns)
        for passed in range(0, count, BLOCK):
            block = [(self.next + i) % count for i in range(passed, min(passed + BLOCK, count))]
            worth, column = max((self.entry(self.prices, self.columns[j]), -j) for j in block)
            if worth > 0:
                self.next = (block[-1] + 1) % count
                return -column, worth
        return None, 0

    def leaving(self, entries):
        """By the lexicographic rule, so that the run ends: the right side first. None where nothing bounds the column's weight."""
        rows, at = [r for r, entry in enumerate(entries) if entry > 0], -1
        while len(rows) > 1:
            ratios = [Fraction(self.inverse[r][at], entries[r]) for r in rows]
            least = min(ratios)
            rows = [r for r, ratio in zip(rows, ratios) if ratio == least]
            at += 1
        return rows[0] if rows else None

    def pivot(self, column, worth, entries, r):
        row, entry = self.inverse[r], entries[r]
        clear = lambda other, q: lowest_list([entry * x - q * y for x, y in zip(other, row)])
        self.inverse = [clear(other, q) if q and other is not row else other for other, q in zip(self.inverse, entries)]
        self.prices = clear(self.prices, worth)
        self.basic[r] = column

    def own(self, r):
        """The entry of a row at the column that it determines: 1 of the inverse's own."""
        return self.entry(self.inverse[r], self.columns[self.basic[r]]) if self.basic[r] is not None else self.inverse[r][r]

    def weights(self, at):
        """The weight in each row by the numbers of one column, those of inequalities; None where weights were missing."""
        found = {}
        for r, row in enumerate(self.inverse):
            weight = Fraction(at(r, row), self.own(r))
            if weight and self.basic[r] is not None:
                found[self.basic[r]] = weight
            elif weight and r != self.slack:
                return None
        return found

    def run(self):
        """("point", values and the multiple of x), ("cut", a weight of each inequality, values, how much of d and the multiple of x), where
        nothing of d is enough only the weights; or ("missing", None)."""
        while True:
            column, worth = self.entering()
            if column is None:
                break
            entries = [self.entry(row, self.columns[column]) for row in self.inverse]
            r = self.leaving(entries)
            if r is None:
                weights = self.weights(lambda r, _: -entries[r])
                return ("missing", None) if weights is None else ("cut", ({**weights, column: Fraction(1)}, None))
            self.pivot(column, worth, entries, r)
        *values, turned, multiple, _ = self.prices
        if turned == 0:
            return "point", (values, multiple)
        weights = self.weights(lambda _, row: row[-1])
        return ("missing", None) if weights is None else ("cut", (weights, (values, -turned, multiple)))


def lowest_list(numbers):
    divisor = gcd(*numbers)
    return [x // divisor for x in numbers] if divisor > 1 else numbers


class Projection:
    """Rows may have tags, coordinates past all others: the tag of a generator in a row is the weight that it has there."""

    def __init__(self, question):
        self.scope, self.kept = with_all_lines(question), kept_rates(question)
        self.found = dependences(self.scope.constraints)
        self.n, self.size = len(question.names), question.size()
        self.closed = [closure(self.found, a) for a in range(2**self.n)]
        self.equations, self.inequalities = [], {}
        self.express()
        self.free = sorted({at for row in self.inequalities.values() for at in row if at <= self.size and at not in self.kept})

    def place(self, at):
        if at >= 2**self.n:
            return at
        return 0 if self.closed[at] == self.closed[0] else self.closed[at]

    def express(self):
        """Equations solved for sets and rates that go, as far as they have some, and what is left of each inequality."""
        tagged = []
        for i, g in enumerate(self.scope.generators()):
            row = row_of([(c, self.place(at)) for at, c in g.row.items()])
            if row:
                tagged.append((g.equation, {**row, self.size + 1 + i: 1}))
        for row in [row for equation, row in tagged if equation]:
            row = self.expressed(row)
            own = [at for at in row if at <= self.size]
            if own:
                at = min(own, key=lambda at: (at in self.kept, abs(row[at])))
                self.equations = [(other, self.cleared(of, at, row)) for other, of in self.equations] + [(at, row)]
        for row in [self.expressed(row) for equation, row in tagged if not equation]:
            own = {at: c for at, c in sorted(row.items()) if at <= self.size}
            if own:
                divisor = gcd(*own.values())
                self.inequalities.setdefault(tuple((at, c // divisor) for at, c in own.items()), row)

    def cleared(self, row, at, equation):
        """A positive multiple of the row plus a multiple of the equation, without a coordinate."""
        if at not in row:
            return row
        p, q = equation[at], row[at]
        p, q = (p, q) if p > 0 else (-p, -q)
        return row_of([(p * c, of) for of, c in row.items()] + [(-q * c, of) for of, c in equation.items()])

    def expressed(self, row):
        for at, equation in self.equations:
            row = self.cleared(row, at, equation)
        return row

    def vector(self, row):
        return tuple(row.get(at, 0) for at in self.kept)

    def first_rows(self):
        """The rows that equations between the rates that stay give, and lines without anything else."""
        equations = [row for at, row in self.equations if at in self.kept]
        turned = [{at: -c for at, c in row.items()} for row in equations]
        plain = [row for row in self.inequalities.values() if not any(at in self.free for at in row)]
        return equations + turned + plain

    def prices(self, factor):
        """Values with which a run begins: those of sets are strictly submodular in the number of their variables."""
        size = lambda at: at.bit_count() if at < 2**self.n else 1
        return [factor * size(at) * (2 * self.n + 1 - size(at)) for at in self.free]

    def attain(self, x, d):
        """A point with rates that are a multiple of x, or None, a point with rates between x and d, or None, and a row with tags that x violates."""
        places, at_x, at_d = {at: i for i, at in enumerate(self.free)}, dict(zip(self.kept, x)), dict(zip(self.kept, d))
        rows, factor = list(self.inequalities.values()), 1 + max(map(abs, x))
        columns = []
        for row in rows:
            own = [(places[at], c) for at, c in row.items() if at in places]
            columns.append((own, *(sum(c * rates[at] for at, c in row.items() if at in rates) for rates in (at_d, at_x))))
        end = "missing"
        while end == "missing":
            end, found = Depth(columns, self.prices(factor)).run()
            factor *= 16
        if end == "point":
            values, multiple = found
            assert multiple > 0
            return self.whole_point(values, [multiple * c for c in x]), None, None
        weights, point = found
        if point:
            values, depth, multiple = point
            point = self.whole_point(values, [multiple * c + depth * e for c, e in zip(x, d)])
        scale = lcm(*(weight.denominator for weight in weights.values()))
        row = row_of([(int(weight * scale) * c, at) for j, weight in weights.items() for at, c in rows[j].items()])
        assert product(self.vector(row), x) < 0
        return None, point, row

    def whole_point(self, values, rates):
        """All values by those of the coordinates that are free and the rates that stay; checked by the definitions."""
        values = dict(zip(self.free + self.kept, [*values, *rates]))
        for at, row in self.equations:
            if at not in values:
                values[at] = Fraction(-sum(c * values.get(of, 0) for of, c in row.items() if at != of <= self.size), row[at])
        scale = lcm(*(Fraction(value).denominator for value in values.values()))
        whole = {at: int(values.get(self.place(at), 0) * scale) for at in range(1, self.size + 1)}
        assert not near_point_fault(self.scope, whole)
        return whole

    def certificate(self, row):
        """The scale and the weights of a row in lowest terms; checked by the definitions."""
        scale = gcd(*self.vector(row))
        target = {at: c // scale for at, c in row.items() if at in self.kept}
        certificate = Certificate(self.scope, self.found)
        for at, c in row.items():
            if at > self.size:
                certificate.add(at - self.size - 1, c)
        certificate.add_rest(target, scale)
        assert not sum_fault(self.scope, target, scale, certificate.weights)
        return scale, certificate.weights


def shadow(question):
    """The equations and the rows of the bound by another way, for few variables: of all that generates the cone over sets and rates."""
    scope, kept, size = with_all_lines(question), kept_rates(question), question.size()
    rows = [row for generator in sorted(scope.generators(), key=lambda g: not g.equation) for row in generator.least()]
    lines, rays = generators([tuple(row.get(at, 0) for at in range(1, size + 1)) for row in rows], size)
    lines, rays = ([tuple(x[at - 1] for at in kept) for x in vectors] for vectors in (lines, rays))
    return rows_of(lines, rays, len(kept))


class Bound:
    """The projection: `rows` and `equations`, `rays` and `lines`, over the rates that stay; and how it was found. Of what is determined up to
    equations or lines alone one form is told."""

    def __init__(self, question):
        self.question, self.kept = question, kept_rates(question)
        projection = Projection(question)
        self.programs, dimension = 0, len(self.kept)
        rows, attained, inside = projection.first_rows(), set(), []
        cut = True
        while cut:
            cut = False
            self.lines, self.rays = generators([projection.vector(row) for row in rows], dimension)
            for x in self.rays + [tuple(s * c for c in line) for line in self.lines for s in (1, -1)]:
                if x in attained or any(product(projection.vector(row), x) < 0 for row in rows):
                    continue
                self.programs += 1
                point, other, row = projection.attain(x, [sum(of) for of in zip(*inside)] or x)
                if point:
                    attained.add(x)
                else:
                    rows.append(row)
                    cut = True
                if point or other:
                    vector = lowest([(point or other)[at] for at in self.kept])
                    inside += [vector] if any(reduced(vector, echelon(inside))) else []
        self.certified = [projection.certificate(row) for row in rows]
        self.equations, self.rows = rows_of(self.lines, self.rays, dimension)
        assert all(lowest(x) == x for x in self.rays + self.rows)

    def told(self, number):
        """What is told of the bound: rays and rows in lowest terms, in the order of their numbers."""
        rate = lambda at: self.question.coordinate_text(at)
        rates = lambda x: " ".join(f"{rate(at)}={c}" for at, c in zip(self.kept, x))
        row = lambda x: row_text(self.question, {at: c for at, c in zip(self.kept, x) if c})
        lines = [f"cone {len(self.equations)} equations {len(self.rows)} rows {len(self.lines)} lines {len(self.rays)} rays"]
        lines += [f"equation {row(x).removesuffix(' >= 0')} = 0" for x in normal(self.equations)]
        lines += [f"row {row(x)}" for x in sorted(self.rows, reverse=True)]
        lines += [f"line {rates(x)}" for x in normal(self.lines)]
        lines += [f"ray {rates(x)}" for x in sorted(self.rays, reverse=True)]
        return [f"{number} {line}" for line in lines]
