"""Fourier-Motzkin elimination over numbers without bounds, with a reduction after each rate, its causes, and the lines that it gives.

A list of rows is put in order by dividing each row by the greatest common divisor of its coefficients and leaving out zero rows and
rows that equal an earlier one. It is reduced by visiting its rows in order: the run of each, as it is defined, under the `given` lines and
all other rows that still stand says whether it goes (a proof), stays as needed (a point) or as unsettled (a cause). Proofs and points are
verified by their definitions.
"""

from math import gcd

from defined import outcome
from questions import Generator, Scope

# every number of the product is at most this in absolute value
LIMIT = 2**127 - 1


def ordered_rows(rows):
    """The rows in order: in lowest terms, without zero rows and doubles."""
    kept = {}
    for row in rows:
        divisor = gcd(*row.values())
        terms = tuple(sorted((at, c // divisor) for at, c in row.items()))
        if terms:
            kept[terms] = dict(terms)
    return list(kept.values())


def cancelled_row(up, down, rate):
    """The sum of multiples of two rows without the rate, and whether a number of it passes 2**127 - 1."""
    p, q = up[rate], -down[rate]
    g = gcd(p, q)
    row, wide = {}, False
    for at in sorted(set(up) | set(down)):
        if at != rate:
            first, second = q // g * up.get(at, 0), p // g * down.get(at, 0)
            wide = wide or max(abs(first), abs(second), abs(first + second)) > LIMIT
            if first + second:
                row[at] = first + second
    return row, wide


def list_after(rows, rate):
    """The list after the rate, and whether a pair of it is wide."""
    pairs = [cancelled_row(up, down, rate) for up in rows if up.get(rate, 0) > 0 for down in rows if down.get(rate, 0) < 0]
    flat = [row for row in rows if rate not in row]
    return ordered_rows(flat + [row for row, _ in pairs]), any(wide for _, wide in pairs)


def with_rows(question, rows):
    """The question's `given` lines, and rows after them."""
    scope = Scope(question.names, question.rates)
    scope.constraints = question.constraints + [Generator(f"row {i}", row) for i, row in enumerate(rows, 1)]
    return scope


def follows(question, rows, target):
    """Whether a row follows from Shannon's inequalities, the `given` lines and other rows: a verified proof or point tells."""
    if target in rows:
        return True
    end, _, _ = outcome(with_rows(question, rows), target, None)
    assert end in ("yes", "no")
    return end == "yes"


def reduce(question, rows, pivots, steps, drops):
    """The rows that stay, each with its mark. The number of steps of each row's run goes to `steps`, and of each row that goes its number in
    the list as it stands, the scale and the weights go to `drops`."""
    kept = []
    for number, row in enumerate(rows):
        others = [other for _, other in kept] + rows[number + 1 :]
        end, found, made = outcome(with_rows(question, others), row, pivots)
        steps.append(made)
        if end == "yes":
            drops.append((len(kept), *found))
        else:
            kept.append(("needed" if end == "no" else "unsettled", row))
    return kept


def plain_rows(question):
    """The rows that plain elimination leaves, without a reduction and without a budget."""
    rows = ordered_rows(question.system())
    for rate in question.eliminated:
        rows, _ = list_after(rows, rate)
    return rows


def eliminate(question, most=512, pivots=20000):
    """("region", rows with their marks), or ("width", rate) or ("rows", rate) for the first rate with a cause; and the number of steps of
    each run."""
    rows, steps = ordered_rows(question.system()), []
    for rate in question.eliminated:
        rows, wide = list_after(rows, rate)
        if wide:
            return "width", rate, steps
        if len(rows) > most:
            return "rows", rate, steps
        kept = reduce(question, rows, pivots, steps, [])
        rows = [row for _, row in kept]
    return "region", kept, steps


def row_text(question, row):
    text = ""
    for at in sorted(row):
        c = row[at]
        text += (" - " if c < 0 else " + ") if text else "-" if c < 0 else ""
        text += (f"{abs(c)} " if abs(c) != 1 else "") + question.coordinate_text(at)
    return f"{text or '0'} >= 0"


def lines(number, question, end, found):
    """The lines of the answer to an `eliminate` question."""
    if end != "region":
        return [f"{number} undecided {end} {question.coordinate_text(found)}"]
    return [f"{number} region {len(found)}"] + [f"{number} row {mark} {row_text(question, row)}" for mark, row in found]
