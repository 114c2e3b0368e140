"""The run of `prove` as it is defined, in numbers that refuse what passes 2**127 - 1, and the line that it gives. A budget of None is
none.

The simplex method with Bland's rule on the columns over closed sets; the weights are then lifted to all sets.
"""

import atexit
from functools import cache, cached_property
from math import gcd
from pathlib import Path
from subprocess import DEVNULL, PIPE, CalledProcessError, run
from tempfile import TemporaryDirectory

from closures import closure, dependences
from questions import negated
from verify import point_fault, sum_fault, value

# every number of the product is at most this in absolute value
LIMIT = 2**127 - 1

# a table of more rows than this is run by `steps.rs`, as far as its numbers are below this and stay short there
LARGE, SHORT = 25, 2**32


@cache
def program():
    """`steps.rs`, built by `rustc` in a folder that is removed at the end."""
    folder = TemporaryDirectory()
    atexit.register(folder.cleanup)
    built = Path(folder.name) / "steps"
    run(["rustc", "--edition", "2021", "-O", "-o", built, Path(__file__).parent / "steps.rs"], check=True)
    return built


class Wide(Exception):
    """A number passes 2**127 - 1."""


def fit(number):
    if abs(number) > LIMIT:
        raise Wide
    return number


def lowest_terms(num, den):
    g = gcd(num, den)
    return (num // g, den // g) if den > 0 else (-num // g, -den // g)


def multiply(a, b):
    if a[1] == b[1] == 1:
        return fit(a[0] * b[0]), 1
    num, den = lowest_terms(a[0] * b[0], a[1] * b[1])
    return fit(num), fit(den)


def divide(a, b):
    return multiply(a, (b[1], b[0]) if b[0] > 0 else (-b[1], -b[0]))


def subtract(a, b):
    """Knuth, The Art of Computer Programming, volume 2, 4.5.1: each number on the way counts."""
    if a[1] == b[1] == 1:
        return fit(a[0] - b[0]), 1
    g = gcd(a[1], b[1])
    t = fit(fit(a[0] * (b[1] // g)) - fit(b[0] * (a[1] // g)))
    g2 = gcd(t, g)
    return t // g2, fit((a[1] // g) * (b[1] // g2))


# Whole numbers

def common_scale(numbers):
    """The least common multiple of the denominators."""
    scale = 1
    for _, den in numbers:
        scale = fit(scale * (den // gcd(scale, den)))
    return scale


def scaled(number, scale):
    return fit(number[0] * (scale // number[1]))


def check_sums(question, target, scale, weights):
    """Forms each number of the check that the weights add up to the target."""
    generators = question.generators()
    for at in range(1, question.size() + 1):
        fit(scale * target.get(at, 0))
        total = 0
        for number in sorted(weights):
            if weights[number]:
                total = fit(total + fit(weights[number] * generators[number].row.get(at, 0)))


def check_values(rows, values):
    """Forms each number of the values of the rows."""
    for row in rows:
        total = 0
        for at in sorted(row):
            total = fit(total + fit(row[at] * values[at]))


# The run

class Table:
    """The table of the simplex method for weights of columns that sum to a target, a row for each of the coordinates."""

    def __init__(self, places, columns, target):
        self.columns, self.steps = len(columns), 0
        self.rows, self.right, self.sign = [], [], []
        by_place = {at: {} for at in places}
        for j, column in enumerate(columns):
            for at, c in column.items():
                by_place[at][j] = (c, 1)
        for i, at in enumerate(places):
            sign = -1 if target.get(at, 0) < 0 else 1
            row = {j: (sign * v[0], 1) for j, v in by_place[at].items()}
            row[self.columns + i] = (1, 1)
            self.rows.append(row)
            self.right.append((sign * target.get(at, 0), 1))
            self.sign.append(sign)
        self.basic = [self.columns + i for i in range(len(places))]
        self.cost, total = {}, 0
        for row, right in zip(self.rows, self.right):
            for j, v in row.items():
                self.cost[j] = (fit(self.cost.get(j, (0, 1))[0] - v[0]), 1)
            total = fit(total - right[0])
        self.cost = {j: v for j, v in self.cost.items() if v[0]}
        self.cost_right = (total, 1)

    def step(self, c):
        best = None
        for i, row in enumerate(self.rows):
            if row.get(c, (0, 1))[0] > 0:
                ratio = divide(self.right[i], row[c])
                if best is None or ratio[0] * best[0][1] < best[0][0] * ratio[1] or ratio == best[0] and self.basic[i] < best[1]:
                    best = ratio, self.basic[i], i
        r = best[2]
        leaving, right, p = self.rows[r], self.right[r], self.rows[r][c]

        def reduced(row, value):
            q = divide(row[c], p)
            for j, v in leaving.items():
                new = subtract(row.get(j, (0, 1)), multiply(v, q))
                if new[0]:
                    row[j] = new
                else:
                    row.pop(j, None)
            return subtract(value, multiply(right, q)) if right[0] else value

        for i, row in enumerate(self.rows):
            if i != r and c in row:
                self.right[i] = reduced(row, self.right[i])
        self.cost_right = reduced(self.cost, self.cost_right)
        self.rows[r] = {j: divide(v, p) for j, v in leaving.items()}
        self.right[r] = divide(right, p)
        self.basic[r] = c

    def end(self, budget):
        """("weights", by column), ("point", by row), ("pivots", steps) or ("width", step)."""
        if len(self.rows) > LARGE:
            end = self.end_by_program(budget)
            if end:
                return end
        while True:
            if self.cost_right[0] == 0:
                return "weights", {j: self.right[i] for i, j in enumerate(self.basic) if j < self.columns and self.right[i][0]}
            c = min((j for j, v in self.cost.items() if j < self.columns and v[0] < 0), default=None)
            if c is None:
                costs = [self.cost.get(self.columns + i, (0, 1)) for i in range(len(self.rows))]
                return "point", [(sign * v[0], v[1]) for sign, v in zip(self.sign, costs)]
            if self.steps == budget:
                return "pivots", self.steps
            try:
                self.step(c)
            except Wide:
                return "width", self.steps + 1
            self.steps += 1

    def end_by_program(self, budget):
        """The same by `steps.rs`, which is told the table; None where its numbers grow too long for it."""
        numbers = [v[0] for row in self.rows for v in row.values()] + [v[0] for v in self.right]
        if max(map(abs, numbers)) >= SHORT:
            return None
        lines = [f"{self.columns} {len(self.rows)}" + ("" if budget is None else f" {budget}")]
        lines += [" ".join(f"{j} {v[0]}" for j, v in sorted(row.items()) if j < self.columns) for row in self.rows]
        lines.append(" ".join(str(v[0]) for v in self.right))
        try:
            told = run([program()], input="\n".join(lines) + "\n", text=True, check=True, stdout=PIPE, stderr=DEVNULL).stdout.splitlines()
        except CalledProcessError:
            return None
        steps, end = told[0].split()
        self.steps = int(steps)
        numbers = [[int(word) for word in line.split()] for line in told[1:]]
        if end == "pivots":
            return end, self.steps
        if end == "weights":
            return end, {j: lowest_terms(num, den) for j, num, den in numbers}
        return end, [lowest_terms(sign * num, den) for sign, (num, den) in zip(self.sign, numbers)]


class Run:
    def __init__(self, question, target, budget):
        self.question, self.target, self.budget = question, target, budget
        self.n = len(question.names)
        self.generators = question.generators()
        self.dependences = dependences(question.constraints, len(self.generators) - len(question.constraints))
        self.closures = [closure(self.dependences, a) for a in range(2**self.n)]
        self.steps = 0

    def place(self, at):
        if at >= 2**self.n:
            return at
        return 0 if self.closures[at] == self.closures[0] else self.closures[at]

    def collapse(self, row):
        new = {}
        for at in sorted(row):
            if self.place(at):
                new[self.place(at)] = fit(new.get(self.place(at), 0) + row[at])
        return {at: c for at, c in new.items() if c}

    def system(self):
        """The places of the rows, the columns and the target."""
        rates = range(2**self.n, self.question.size() + 1)
        self.places = [a for a in range(1, 2**self.n) if self.closures[a] == a and a != self.closures[0]] + list(rates)
        columns, self.column_of = [], []
        for number, generator in enumerate(self.generators):
            row = self.collapse(generator.row)
            columns.append(row)
            self.column_of.append((number, 1))
            if generator.equation:
                columns.append(negated(row))
                self.column_of.append((number, -1))
        return self.places, columns, self.collapse(self.target)

    def table(self):
        return Table(*self.system())

    def end(self):
        """("weights", by column), ("point", by place), ("pivots", steps) or ("width", step)."""
        try:
            table = self.table()
        except Wide:
            return "width", 0
        end = table.end(self.budget)
        self.steps = table.steps
        return end

    def answer(self):
        """("yes", scale, weights), ("no", values by coordinate), ("undecided", cause)."""
        end, found = self.end()
        if end in ("pivots", "width"):
            return "undecided", f"{end} {found}"
        try:
            if end == "weights":
                scale, weights = self.certificate(found)
                weights = self.lift(scale, weights)
                check_sums(self.question, self.target, scale, weights)
                return "yes", scale, weights
            values = self.point(found)
            check_values([g.row for g in self.generators] + [self.target], values)
            return "no", values
        except Wide:
            return "undecided", "scale"

    # What stands at the end

    def certificate(self, found):
        scale = common_scale([found[j] for j in sorted(found)])
        weights = {}
        for j in sorted(found):
            number, sign = self.column_of[j]
            weights[number] = weights.get(number, 0) + sign * scaled(found[j], scale)
        return scale, weights

    def point(self, found):
        scale = common_scale(found)
        at_place = {at: scaled(v, scale) for at, v in zip(self.places, found)}
        return {at: at_place.get(self.place(at), 0) for at in range(1, self.question.size() + 1)}

    # The lift

    @cached_property
    def indexes(self):
        return {g.name: i for i, g in enumerate(self.generators)}

    def expand_conditional(self, a, k):
        """Inequalities that sum to H(a|k)."""
        listed, whole = [], 2**self.n - 1
        for x in members(a):
            listed.append(self.question.entropy_text(x, whole - x))
            given = k
            for y in members(whole - (whole & (k | x))):
                listed.append(self.mutual(x, y, given))
                given |= y
            k |= x
        return [self.indexes[name] for name in listed]

    def expand_mutual(self, a, b, c):
        """Inequalities that sum to I(a;b|c)."""
        listed, before = [], c
        for x in members(a):
            given = before
            for y in members(b):
                listed.append(self.mutual(x, y, given))
                given |= y
            before |= x
        return [self.indexes[name] for name in listed]

    def mutual(self, x, y, given):
        return self.question.mutual_text(min(x, y), max(x, y), given)

    def excess(self, scale, weights):
        e = {}
        for s in range(1, 2**self.n):
            e[s] = fit(scale * self.target.get(s, 0))
            for number in sorted(weights):
                e[s] = fit(e[s] - fit(weights[number] * self.generators[number].row.get(s, 0)))
        e[0] = 0
        for s in range(1, 2**self.n):
            if self.closures[s] == self.closures[0]:
                e[0] = fit(e[0] - e[s])
        return e

    def lift(self, scale, weights):
        if not self.dependences:
            return weights
        e = self.excess(scale, weights)
        lifted = dict(weights)

        def add(numbers, amount):
            for number in numbers:
                lifted[number] = lifted.get(number, 0) + amount

        for s in range(2**self.n):
            if self.closures[s] == s:
                continue
            if e[s] < 0:
                add(self.expand_conditional(self.closures[s] & ~s, s), -e[s])
            elif e[s] > 0:
                a = s
                while self.closures[a] != a:
                    d = next(d for d in self.dependences if d.at | a == a and d.to | a != a)
                    add(self.expand_mutual(d.to & ~a, a & ~d.to, a & d.to), e[s])
                    add(self.expand_conditional(a & d.to & ~d.at, d.at), e[s])
                    add([d.generator], e[s] if d.turned else -e[s])
                    a |= d.to
        for weight in lifted.values():
            fit(weight)
        return lifted


def members(a):
    return [2**i for i in range(a.bit_length()) if a >> i & 1]


# Lines

def sum_text(question, scale, weights):
    names = [g.name for g in question.generators()]
    parts = [f"{weights[i]} {names[i]}" for i in sorted(weights) if weights[i]]
    return f"{scale} : {' + '.join(parts) or '0'}"


def values_text(question, values):
    n = len(question.names)
    sets = [f"h({question.set_text(s)})={values[s]}" for s in range(1, 2**n)]
    return " ".join(sets + [f"{name}={values[2**n + r]}" for r, name in enumerate(question.rates)])


def lines(number, question, end, found):
    """The line of the answer to a `prove` question."""
    if end == "yes":
        return [f"{number} yes {' and '.join(sum_text(question, *proof) for proof in found)}"]
    if end == "no":
        return [f"{number} no {values_text(question, found[1])}"]
    return [f"{number} undecided {end}" + (f" {found}" if end != "scale" else "")]


def outcome(scope, target, budget):
    """The answer of the run about one target, and its steps; what it shows is verified by its definition."""
    run = Run(scope, target, budget)
    end, *found = run.answer()
    if end == "yes":
        assert not sum_fault(scope, target, *found)
    elif end == "no":
        assert not point_fault(scope, found[0]) and value(target, found[0]) < 0
    return end, found, run.steps


def prove(question, budget=20000):
    """("yes", proofs), ("no", (side, values)) or (cause, at), and the steps of the runs."""
    proofs, steps = [], 0
    for side, target in zip(("forward", "back"), question.targets):
        run = Run(question, target, budget)
        end, *found = run.answer()
        steps += run.steps
        if end == "no":
            return end, (side, found[0]), steps
        if end == "undecided":
            return *(found[0].split(" ") + ["0"])[:2], steps
        proofs.append(found)
    return "yes", proofs, steps
