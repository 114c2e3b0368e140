"""Functional dependences, closed sets, and the size of the table with which a run starts.

A constraint has a `row`, and says whether it is an `equation` and whether its line is a `given` one.
"""

from math import comb


class Dependence:
    """Of a given equation h(to) - h(at) = 0, or its negation, with `at` strictly inside `to`."""

    def __init__(self, at, to, generator, turned):
        self.at, self.to, self.generator, self.turned = at, to, generator, turned


def dependences(constraints, first=0):
    """Those of a list of constraints, in its order; the number of the first constraint is `first`."""
    found = []
    for number, constraint in enumerate(constraints, first):
        row = constraint.row
        if not (constraint.given and constraint.equation) or sorted(row.values()) not in ([-1, 1], [1], [-1]):
            continue
        plus = next((at for at, c in row.items() if c == 1), 0)
        minus = next((at for at, c in row.items() if c == -1), 0)
        if plus | minus == plus:
            found.append(Dependence(minus, plus, number, False))
        elif plus | minus == minus:
            found.append(Dependence(plus, minus, number, True))
    return found


def closure(found, a):
    while True:
        before = a
        for d in found:
            if d.at | a == a:
                a |= d.to
        if a == before:
            return a


def table_shape(variables, rates, constraints):
    """Rows and columns of the first table. A row for each closed set but the closure of the empty set, and for each rate; a column for
    each elemental inequality, for each inequality of the constraints, two for each equation, and an artificial one for each row."""
    found = dependences(constraints)
    closed = {closure(found, a) for a in range(2**variables)}
    rows = len(closed) - 1 + rates
    elementals = variables + comb(variables, 2) * 2**variables // 4
    return rows, elementals + sum(2 if g.equation else 1 for g in constraints) + rows


def table_size(variables, rates, constraints):
    rows, columns = table_shape(variables, rates, constraints)
    return rows * columns
