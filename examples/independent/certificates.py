"""Certificates and points, judged as a report's verdicts tell it: the words of the first thing that is wrong, or None.

A certificate is judged by its scale, its weights in order and its sums coordinate by coordinate, a point by the generators in order and
then the target. A number past 2**127 - 1 on the way is told too.
"""

from operator import lt

from defined import LIMIT, Wide, fit


def total(products):
    partial = 0
    for a, b in products:
        partial = fit(partial + fit(a * b))
    return partial


def added(partial, a, b):
    """A partial sum with one more product, None where a number on the way is wide."""
    try:
        return None if partial is None else fit(partial + fit(a * b))
    except Wide:
        return None


def sum_verdict(question, target, scale, weights):
    """The first thing that is wrong with a certificate, or None. The sums are those at the coordinates of the target and of the
    generators with weights: at any other one both sides are 0."""
    if scale < 1:
        return f"scale {scale}"
    sums, taken = dict.fromkeys(target, 0), []
    for index, weight in weights:
        generator = question.generator(index)
        if generator is None:
            return f"generator {index}"
        if weight < 0 and not generator.equation:
            return f"negative {index}"
        taken.append((weight, generator.row))
    for weight, row in taken:
        for at, c in row.items():
            sums[at] = added(sums.get(at, 0), weight, c)
    for at in sorted(sums):
        left, right = added(0, scale, target.get(at, 0)), sums[at]
        if left is None or right is None:
            return f"width {at}"
        if left != right:
            return f"mismatch {question.coordinate_text(at)} {left} {right}"
    return None


def value(row, values):
    """What a row has at a point."""
    return total((row[at], values[at]) for at in sorted(row))


def first_negative(n, h):
    """The number and the value of the first elemental inequality that is negative at h, a list by sets; None where none is.
    I(Xi;Xj|K) is what h gains by Xi at K less what it gains by it at K and Xj."""
    whole, number = 2**n - 1, n
    for i in range(n):
        if h[whole] < h[whole - 2**i]:
            return i, h[whole] - h[whole - 2**i]
    for i in range(n):
        # by the sets of the other variables, where those after Xi have one place less
        gains = [h[s] - h[s - 2**i] for s in range(2**n) if s >> i & 1]
        for j in range(i, n - 1):
            for first in range(0, 2 ** (n - 1), 2 ** (j + 1)):
                without, with_it = gains[first : first + 2**j], gains[first + 2**j : first + 2 ** (j + 1)]
                if any(map(lt, without, with_it)):
                    at = next(at for at in range(2**j) if without[at] < with_it[at])
                    return number + first // 2 + at, without[at] - with_it[at]
            number += 2 ** (n - 2)
    return None


def elemental_verdict(question, values):
    """The first elemental inequality that is negative at values or whose value is wide, or None."""
    n = len(question.names)
    if all(abs(values[s]) <= LIMIT // 4 for s in range(1, 2**n)):
        found = first_negative(n, [0] + [values[s] for s in range(1, 2**n)])
        return f"elemental {found[0]} {found[1]}" if found else None
    return first_of(((i, question.generator(i)) for i in range(question.elemental_count())), values, "elemental")


def first_of(generators, values, what):
    """The first generator, of pairs with its number, that isn't met at values or whose value is wide, or None."""
    for index, generator in generators:
        try:
            found = value(generator.row, values)
        except Wide:
            return f"width {index}"
        if found < 0 or generator.equation and found:
            return f"{what} {index} {found}"
    return None


def met_verdict(question, values):
    """The first thing that keeps values from being a polymatroid and rates that meet the constraints, or None."""
    constraints = enumerate(question.constraints, question.elemental_count())
    return elemental_verdict(question, values) or first_of(constraints, values, "constraint")


def point_verdict(question, target, values):
    """The first thing that is wrong with a counterexample, or None."""
    wrong = met_verdict(question, values)
    if wrong:
        return wrong
    try:
        found = value(target, values)
    except Wide:
        return f"width {question.elemental_count() + len(question.constraints)}"
    return f"target {found}" if found > -1 else None
