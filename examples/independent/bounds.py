"""The search for outer bounds as it is defined, from inside: the hull of rays, whose rows are proved or refuted one after the other, and the
lines, or the line of a report, that it gives. A point that refutes a row is one more ray. The search is made twice, the second time from the
extreme rays that it found first. Runs are as they are defined; a row that is proved isn't asked again.
"""

from math import gcd

from certificates import Wide, value
from closures import table_size
from defined import outcome, sum_text, values_text
from eliminate import reduce, row_text
from hulls import constants, first_rows, rows_with
from outer import kept_rates, with_all_lines
from questions import ENTRIES
from reports import misfit_json, outer_json


class Undecided(Exception):
    """The cause is the text of it."""


class Search:
    def __init__(self, question, rows, tries, pivots):
        self.question, self.scope, self.kept = question, with_all_lines(question), kept_rates(question)
        self.most, self.tries, self.pivots = rows, tries, pivots
        self.proved, self.runs = {}, 0

    def reduced(self, rows, drops):
        """Rows over rates with their marks, without those that follow, of which `drops` gets what a report tells. A run in which all variables
        are constant is over rates alone, so one variable stands for all of them."""
        first, gone = 2 ** len(self.scope.names), []
        moved = [{at - first + 2: c for at, c in row.items()} for row in rows]
        kept = reduce(constants(self.scope, 1), moved, self.pivots, [], gone)
        # before the rows stand all elemental inequalities and one line a variable, where here one of each is
        shift = len(self.scope.elementals()) + len(self.scope.names) - 2
        drops += [(at, scale, {j + shift: weight for j, weight in weights.items() if weight}) for at, scale, weights in gone]
        return [(mark, {at - 2 + first: c for at, c in row.items()}) for mark, row in kept]

    def value(self, row, ray):
        try:
            return value(row, ray)
        except Wide:
            raise Undecided("width") from None

    def with_ray(self, hull, ray, drops):
        """The hull with one more ray."""
        try:
            rows = rows_with(self.question, hull, ray)
        except Wide:
            raise Undecided("width") from None
        if len(rows) > self.most:
            raise Undecided("rows")
        return [row for _, row in self.reduced(rows, drops)]

    def refuted(self, hull):
        """The point that refutes the first row without a proof; None where all are proved."""
        for row in hull:
            key = tuple(sorted(row.items()))
            if key in self.proved:
                continue
            end, found, _ = outcome(self.scope, row, self.pivots)
            self.runs += 1
            if end == "no":
                return found[0]
            if end == "undecided":
                raise Undecided(f"{found[0]} in {row_text(self.question, row)}")
            self.proved[key] = found
        return None

    def hull_and_rays(self, rays):
        """The end of a pass that begins with rays."""
        hull, rays = first_rows(self.kept), list(rays)
        for ray in rays:
            hull = self.with_ray(hull, ray, [])
        while True:
            ray = self.refuted(hull)
            if ray is None:
                return hull, rays
            if len(rays) >= self.tries:
                raise Undecided(f"rays {self.tries}")
            hull = self.with_ray(hull, ray, [])
            rays.append(ray)

    def extreme(self, hull, rays):
        """The rays whose tight rows aren't all tight, with others, at another ray that isn't tight at all rows; the greatest rates first."""
        tight = [{i for i, row in enumerate(hull) if self.value(row, ray) == 0} for ray in rays]
        wanted = [ray for ray, own in zip(rays, tight) if not any(own < other and len(other) < len(hull) for other in tight)]
        return sorted(wanted, key=lambda ray: list(self.direction(ray).values()), reverse=True)

    def direction(self, ray):
        """The rates that stay in lowest terms; not all of them are 0, since a row of theirs is violated."""
        divisor = gcd(*(ray[at] for at in self.kept))
        return {at: ray[at] // divisor for at in self.kept}

    def bound(self):
        """Rows with their marks and proofs, and rays; `Undecided` where there are none."""
        if table_size(len(self.scope.names), len(self.scope.rates), self.scope.constraints) > ENTRIES:
            raise Undecided("size")
        hull, rays = self.hull_and_rays(self.extreme(*self.hull_and_rays([])))
        marked = self.reduced(hull, [])
        marks = [mark for mark, _ in marked] if len(marked) == len(hull) else ["unsettled"] * len(hull)
        return [(mark, row, self.proved[tuple(sorted(row.items()))]) for mark, row in zip(marks, hull)], rays

    def steps(self, rays):
        """Each ray with its drops, by which the hull is made; `Undecided` where it isn't."""
        hull, steps = first_rows(self.kept), []
        for ray in rays:
            drops = []
            hull = self.with_ray(hull, ray, drops)
            steps.append((ray, drops))
        return steps


def report(question, rows=512, tries=256, pivots=20000):
    """The line of a report of mode `outer`."""
    if question.verb != "eliminate":
        return misfit_json(question.about, "other")
    search = Search(question, rows, tries, pivots)
    try:
        found, rays = search.bound()
    except Undecided as cause:
        return misfit_json(question.about, f"undecided {cause}")
    try:
        steps = search.steps(rays)
    except Undecided:
        return misfit_json(question.about, "undecided drops")
    return outer_json(question.about, question, [(row, proof) for _, row, proof in found], steps)


def lines(number, question, rows=512, tries=256, pivots=20000):
    """The lines of mode `outer`."""
    if question.verb != "eliminate":
        return [f"{number} other"]
    search = Search(question, rows, tries, pivots)
    try:
        found, rays = search.bound()
    except Undecided as cause:
        return [f"{number} undecided {cause}"]
    told = [f"{number} outer {len(found)} {len(rays)}"]
    told += [f"{number} row {mark} {row_text(question, row)} by {sum_text(search.scope, *proof)}" for mark, row, proof in found]
    for ray in rays:
        rates = " ".join(f"{question.coordinate_text(at)}={c}" for at, c in search.direction(ray).items())
        told.append(f"{number} ray {rates} at {values_text(question, ray)}")
    return told
