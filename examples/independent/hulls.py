"""The hull of rays over the rates that stay, made in steps: each adds one more ray, and then drops rows that follow from the others.

A hull is a list of rows. Where a row a.x is to hold at one more ray r, a.x - (a.r) t takes its place, for some t of at least 0, and t, which
stands at the first rate that goes, is eliminated. The drops of a step have certificates, so that no search is needed to judge them.
"""

from certificates import Wide, sum_verdict, value
from eliminate import list_after, ordered_rows, with_rows
from questions import Generator, Scope

# the most rows that a judged step may leave before its drops
MOST = 4096


class Wrong(Exception):
    """What is wrong with steps: the words of the verdict."""


def first_rows(kept):
    """The hull of no rays: each rate that stays is 0."""
    return [{at: sign} for at in kept for sign in (1, -1)]


def rows_with(question, hull, ray):
    """The rows of the hull with one more ray; `Wide` where a number passes 2**127 - 1."""
    at, lifted = question.eliminated[0], []
    for row in hull:
        rest = value(row, ray)
        lifted.append({**row, at: -rest} if rest else row)
    rows, wide = list_after(ordered_rows([*lifted, {at: 1}]), at)
    if wide:
        raise Wide
    return rows


def constants(question, count):
    """The names and rates of a question where each of its first `count` variables, and no other, is constant."""
    scope = Scope(question.names[:count], question.rates)
    scope.constraints = [Generator(f"given {i + 1}", {2**i: 1}, True, True) for i in range(count)]
    return scope


def after_drops(number, scope, rows, drops):
    """The rows that are left of those that a ray leaves; the drops are (the row's number in the list as it stands, scale, weights)."""
    for place, (at, *certificate) in enumerate(drops):
        others = rows[:at] + rows[at + 1 :]
        if at >= len(rows) or sum_verdict(with_rows(scope, others), rows[at], *certificate):
            raise Wrong(f"drop {number} {place}")
        rows = others
    return rows


def hull_of(question, kept, steps):
    """The hull that steps make, each a ray and its drops; `Wrong` where a step fails."""
    hull, scope = first_rows(kept), constants(question, len(question.names))
    for number, (ray, drops) in enumerate(steps):
        try:
            rows = rows_with(question, hull, ray)
        except Wide:
            raise Wrong(f"wide {number}") from None
        if len(rows) > MOST:
            raise Wrong(f"many {number}")
        hull = after_drops(number, scope, rows, drops)
    return hull


def hull_verdict(question, kept, steps, rows):
    """The first thing that is wrong with rows that are said to be the hull of the rays of steps, or None."""
    try:
        hull = hull_of(question, kept, steps)
    except Wrong as wrong:
        return str(wrong)
    most = max(len(hull), len(rows))
    place = next((i for i in range(most) if hull[i : i + 1] != rows[i : i + 1]), None)
    return None if place is None else f"hull {place}"
