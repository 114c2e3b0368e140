#!/usr/bin/env python3
"""Systems of the simplex method, with their answers in exact fractions.

Each system is a list of columns and a target over the coordinates 1 to m, and a budget of steps. The run is made as a textbook
has it (first phase of the simplex method, Bland's rule), over dense rows of `fractions.Fraction`, and stops before a step of which
a number passes 2^127 - 1: the ratios of the entering column, then for each other row its quotient, its products and differences,
and the quotients of the row that leaves. `python3 bench/simplex_systems.py systems` prints a line for each system with its budget,
with the steps that its run makes and one less, and without a budget, as they stand in examples/vectors/systems.txt (the form of a
line: crates/bench/src/systems.rt); `ends` prints which engine answers each run, and how it ends, as in systems.out.

The engine is `narrow` where there are 64 rows or more and all whole numbers that are kept of the run fit rows in 32 bits, `wide`
where they fit rows in 64 bits, and else `exact`, by fractions.
"""
import random
import sys
from fractions import Fraction
from math import gcd

LARGEST = 2**127 - 1
IN_32_BITS = 2**31 - 1
IN_64_BITS = 2**63 - 1
# with fewer rows no run is tried in 32 bits
FEW_ROWS = 64


class Wide(Exception):
    pass


def narrow(q):
    if abs(q.numerator) > LARGEST or q.denominator > LARGEST:
        raise Wide
    return q


def product(x, y):
    return narrow(x * y)


def difference(x, y):
    a, b, c, d = x.numerator, x.denominator, -y.numerator, y.denominator
    g = gcd(b, d)
    total = a * (d // g) + c * (b // g)
    for number in (a * (d // g), c * (b // g), total, (b // g) * (d // gcd(total, g))):
        if abs(number) > LARGEST:
            raise Wide
    return x - y


def start(columns, target):
    rows = []
    signs = []
    for k in range(len(target)):
        sign = 1 if target[k] >= 0 else -1
        unit = [1 if i == k else 0 for i in range(len(target))]
        rows.append([Fraction(sign * c[k]) for c in columns] + [Fraction(u) for u in unit] + [Fraction(sign * target[k])])
        signs.append(sign)
    cost = []
    for j in range(len(columns) + len(target) + 1):
        total = Fraction(0)
        for row in rows:
            total = narrow(total + row[j])
        cost.append(-total)
    return rows, signs, cost


def step(rows, cost, basis, entering):
    candidates = [(narrow(row[-1] / row[entering]), basis[i], i) for i, row in enumerate(rows) if row[entering] > 0]
    _, _, leaving = min(candidates)
    pivot = rows[leaving][entering]
    old = rows[leaving]
    for row in rows + [cost]:
        if row is not old:
            q = narrow(row[entering] / pivot)
            row[:] = [difference(entry, product(by, q)) for entry, by in zip(row, old)]
    old[:] = [narrow(entry / pivot) for entry in old]
    basis[leaving] = entering


def solve(columns, target, budget):
    """The end of the run with what it carries, and the number of steps that were made."""
    m, n = len(target), len(columns)
    try:
        rows, signs, cost = start(columns, target)
    except Wide:
        return "Width", 0, 0
    basis = [n + k for k in range(m)]
    for k in range(budget + 1):
        if cost[-1] == 0:
            weights = sorted((basis[i], rows[i][-1]) for i in range(m) if basis[i] < n and rows[i][-1] != 0)
            return "Weights", weights, k
        entering = next((j for j in range(n) if cost[j] < 0), None)
        if entering is None:
            return "Point", [signs[i] * cost[n + i] for i in range(m)], k
        if k == budget:
            return "Pivots", k, k
        try:
            step(rows, cost, basis, entering)
        except Wide:
            return "Width", k + 1, k


def checked(columns, target, outcome):
    """What the answers are to show, tested apart from the run."""
    kind, value, _ = outcome
    if kind == "Weights":
        assert all(w > 0 for _, w in value)
        for k in range(len(target)):
            assert sum(w * columns[j][k] for j, w in value) == target[k]
    if kind == "Point":
        assert all(sum(c * x for c, x in zip(column, value)) >= 0 for column in columns)
        assert sum(c * x for c, x in zip(target, value)) < 0


def systems():
    """The systems, with the budget of each."""
    draw = random.Random(1997)
    big = 2**64 - 1
    yield [[1, 0, 0], [0, big, 0], [0, 0, big - 1]], [0, 1, 1], 20000
    yield [[1, 0, 0], [0, big, 1], [0, 1, big]], [0, 1, 1], 2
    yield [[1, 0, 0], [0, big, 1], [0, 1, big]], [0, 1, 1], 1
    yield [[1, 0, 0]], [0, 0, 0], 1
    yield [[0, -1, 1], [-1, 0, 1], [1, 1, -1]], [1, 0, -1], 100
    yield [], [0, 0], 0
    yield [], [0, -3], 0
    yield [[1, 1]], [2**126, 2**126], 5
    yield [[2**126, 2**126]], [1, 1], 5
    # a run that comes back to its first basis where ties are broken by the row, or by the most negative cost
    yield [[1, 0, 0], [0, 1, 0], [0, 0, 1], [1, -32, -4], [4, -8, -1], [-1, 4, 0], [36, 0, 1]], [0, 0, 1], 50
    for rows, columns, size in [(2, 3, 3), (2, 5, 3), (3, 4, 2), (3, 6, 2), (4, 6, 2), (4, 8, 3), (5, 8, 2), (6, 10, 2), (6, 12, 3)]:
        for kind in ("free", "inside", "degenerate", "short"):
            matrix = [[draw.randint(-size, size) for _ in range(rows)] for _ in range(columns)]
            target = [draw.randint(-size, size) for _ in range(rows)]
            if kind != "free":
                weights = [draw.choice((0, 0, 1, 2)) for _ in range(columns)]
                target = [sum(w * c[k] for w, c in zip(weights, matrix)) for k in range(rows)]
            if kind == "degenerate":
                target = [t if draw.random() < 0.3 else 0 for t in target]
            yield matrix, target, draw.randint(0, 3) if kind == "short" else 1000
    for rows, columns in [(2, 4), (3, 5), (4, 6), (5, 7)]:
        matrix = [[draw.randint(-(2**62), 2**62) for _ in range(rows)] for _ in range(columns)]
        target = [draw.randint(-(2**62), 2**62) for _ in range(rows)]
        yield matrix, target, 1000


class Lost(Exception):
    pass


def reduced(row, bottom):
    shared = gcd(bottom, *row)
    return [x // shared for x in row], bottom // shared


def whole_steps(columns, target, budget, largest):
    """The steps that the run on whole numbers up to the largest makes before one is too large; None where it comes to its end."""
    m, n = len(target), len(columns)
    signs = [1 if t >= 0 else -1 for t in target]
    terms = [[(k, signs[k] * c[k]) for k in range(m) if c[k] != 0] for c in columns]
    norm = max([1] + [sum(abs(x) for _, x in column) for column in terms])
    if norm > IN_64_BITS:
        return 0
    limit = min(largest, IN_64_BITS // norm)
    rows = [[1 if i == k else 0 for i in range(m)] + [signs[k] * target[k]] for k in range(m)]
    rows.append([-sum(row[j] for row in rows) for j in range(m + 1)])
    bottoms = [1] * (m + 1)
    basis = [n + k for k in range(m)]
    if any(abs(x) > limit for row in rows for x in row):
        return 0

    def price(j, row):
        return sum(x * row[k] for k, x in terms[j])

    for k in range(budget):
        if rows[m][m] == 0:
            return None
        entering = next((j for j in range(n) if price(j, rows[m]) < 0), None)
        if entering is None:
            return None
        entries = [price(entering, row) for row in rows]
        leaving = min((i for i in range(m) if entries[i] > 0), key=lambda i: (Fraction(rows[i][m], entries[i]), basis[i]))
        own, pivot = reduced(rows[leaving], entries[leaving])
        for i in range(m + 1):
            if i != leaving and entries[i] != 0:
                shared = gcd(pivot, entries[i])
                a, b = pivot // shared, entries[i] // shared
                rows[i] = [x * a - y * b for x, y in zip(rows[i], own)]
                bottoms[i] *= a
                # a row that doesn't fit 32 bits is tried over its least denominator
                if largest == IN_32_BITS and bottoms[i] <= IN_64_BITS:
                    rows[i], bottoms[i] = reduced(rows[i], bottoms[i])
                if bottoms[i] > IN_64_BITS or any(abs(x) > limit for x in rows[i]):
                    return k
                if bottoms[i] > 2**16:
                    rows[i], bottoms[i] = reduced(rows[i], bottoms[i])
        rows[leaving], bottoms[leaving] = own, pivot
        basis[leaving] = entering
    return None


def takeovers():
    """Systems whose run on whole numbers stops half-way: one for each end, the last steps of Width and Pivots after the first."""
    draw = random.Random(1977)
    wanted = ["Weights", "Point", "Width", "Pivots"]
    while wanted:
        rows, columns, bits = draw.choice([(3, 5, 14), (3, 5, 24), (4, 6, 16), (4, 7, 22)])
        matrix = [[draw.randint(-(2**bits), 2**bits) for _ in range(rows)] for _ in range(columns)]
        target = [draw.randint(-(2**bits), 2**bits) for _ in range(rows)]
        budget = 1000
        lost = whole_steps(matrix, target, budget, IN_64_BITS)
        kind, value, steps = solve(matrix, target, budget)
        if lost is None or lost == 0:
            continue
        if wanted[0] == "Pivots" and steps > lost + 1:
            budget = steps - 1
            kind = "Pivots"
        if kind == wanted[0] and steps > lost:
            yield matrix, target, budget, lost
            wanted.pop(0)


def tall():
    """Systems of 64 rows whose columns have few entries, with the budgets that are tried: two that rows in 32 bits hold, one of these
    with a row less, one whose start only rows in 64 bits hold, and one that rows in 32 bits hold for some steps and rows in 64 for
    some more."""
    draw = random.Random(1957)

    def column(entries, size):
        places = draw.sample(range(FEW_ROWS), entries)
        return [draw.randint(-size, size) if k in places else 0 for k in range(FEW_ROWS)]

    def inside(columns):
        weights = [draw.choice((0, 1, 2)) for _ in columns]
        return [sum(w * x for w, x in zip(weights, row)) for row in zip(*columns)]

    columns = [column(6, 3) for _ in range(16)]
    target = inside(columns)
    for one in target, column(6, 3):
        yield columns, one, [solve(columns, one, UNBOUNDED)[2] - 1, None]
    yield [c[:-1] for c in columns], target[:-1], [None]
    yield columns, [2**40 * x for x in target], [None]
    lost = [None]
    while None in lost:
        columns = [column(8, 2**10) for _ in range(8)]
        target = inside(columns)
        lost = [whole_steps(columns, target, UNBOUNDED, largest) for largest in (IN_32_BITS, IN_64_BITS)]
    yield columns, target, lost + [None]


def wide_ratios():
    """A system at whose third step the ratio of a right side and an entry passes the limit, before any other number does."""
    yield [[730424, 559829877149, 0], [0, 2478510918770994165, 3], [1, 0, 1]], [0, 3, 464282409129639], [2, None]


def lines():
    """The systems, each with the budgets that are tried: None is none."""
    for columns, target, budget in systems():
        steps = solve(columns, target, budget)[2]
        yield columns, target, sorted({budget, max(steps - 1, 0), min(steps, budget)}) + [None]
    for columns, target, budget, lost in takeovers():
        yield columns, target, [lost, budget, None]
    yield from tall()
    yield from wide_ratios()


# no run here makes more steps
UNBOUNDED = 5000


def row(numbers):
    return ",".join(f"{k + 1}:{x}" for k, x in enumerate(numbers) if x != 0) or "-"


def engine(columns, target, steps):
    """The engine that answers."""
    if len(target) >= FEW_ROWS and whole_steps(columns, target, steps, IN_32_BITS) is None:
        return "narrow"
    if whole_steps(columns, target, steps, IN_64_BITS) is None:
        return "wide"
    return "exact"


def told(columns, target, budget):
    steps = UNBOUNDED if budget is None else budget
    kind, value, made = solve(columns, target, steps)
    checked(columns, target, (kind, value, made))
    assert budget is not None or kind != "Pivots"
    by = engine(columns, target, steps)
    if kind == "Weights":
        return " ".join([by, "weights"] + [f"{j}:{w.numerator}/{w.denominator}" for j, w in value])
    if kind == "Point":
        return " ".join([by, "point"] + [f"{x.numerator}/{x.denominator}" for x in value])
    return f"{by} {kind.lower()} {value}"


def units(count, budget):
    """Each column has one coordinate, and the target has all: one step for each."""
    if sys.argv[1] == "ends":
        return f"narrow pivots {budget}" if budget < count else " ".join(["narrow weights"] + [f"{j}:1/1" for j in range(count)])
    return " ".join([str(budget), str(count), row([1] * count)] + [f"{k}:1" for k in range(1, count + 1)])


if __name__ == "__main__":
    print(units(255, 254))
    print(units(255, 255))
    for columns, target, budgets in lines():
        for budget in budgets:
            if sys.argv[1] == "ends":
                print(told(columns, target, budget))
            else:
                print("none" if budget is None else budget, len(target), row(target), *map(row, columns))
