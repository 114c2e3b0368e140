"""Judges the lines of mode `outer` by the definitions: each row has a certificate, each ray a polymatroid with rates that makes all lines true,
rows and rays generate the same cone, and no row that is marked as needed follows from the others."""

import re
from math import gcd

from cones import generators, product, rows_of
from eliminate import row_text
from outer import kept_rates, with_all_lines
from questions import VARIABLES, row_of
from verify import near_point_fault, read_sum, sum_fault

TERM = re.compile(r"( \+ | - |^-|^)(?:([0-9]+) )?([A-Za-z]\w*)")
WORDS = re.compile(r"size|rows|width|rays \d+|(pivots \d+|width \d+|scale) in .* >= 0")


class Wrong(Exception):
    """What is wrong with the lines."""


def wanted(kept, text):
    if not kept:
        raise Wrong(text)


def read_row(question, text):
    """The row that a text tells."""
    sum_text = text.removesuffix(" >= 0")
    terms, at = [], 0
    while at < len(sum_text):
        term = TERM.match(sum_text, at) if at else TERM.match(sum_text)
        wanted(term and term[3] in question.rates, f"no row: {text}")
        c = int(term[2] or 1) * (-1 if "-" in term[1] else 1)
        terms.append((c, 2 ** len(question.names) + question.rates.index(term[3])))
        at = term.end()
    row = row_of(terms)
    wanted(row_text(question, row) == text, f"no row: {text}")
    return row


def read_shown(text, what):
    """The names that a text tells, each with its value."""
    shown = [part.rsplit("=", 1) for part in text.split(" ")] if text else []
    wanted(all(len(pair) == 2 and re.fullmatch("0|-?[1-9][0-9]*", pair[1]) for pair in shown), f"{what}: no whole number")
    return [(name, int(value)) for name, value in shown]


def read_values(names, text, what):
    """The values of these names, in their order."""
    shown = read_shown(text, what)
    wanted([name for name, _ in shown] == names, f"{what}: other coordinates")
    return [value for _, value in shown]


def read_point(question, text, what):
    """The values of a point by coordinate. With more names than usual the text has those of rates and of closed sets alone, which each
    further variable raises: any other set has the least value of the sets around it."""
    names = {question.coordinate_text(at): at for at in range(1, question.size() + 1)}
    if len(question.names) <= VARIABLES:
        return dict(enumerate(read_values(list(names), text, what), 1))
    shown, variables = read_shown(text, what), len(question.names)
    wanted(all(name in names for name, _ in shown), f"{what}: other coordinates")
    values = {names[name]: value for name, value in shown}
    wanted(2**variables - 1 in values, f"{what}: other coordinates")
    around = {s: [s | 1 << i for i in range(variables) if not s >> i & 1] for s in range(1, 2**variables)}
    for s in sorted(around, reverse=True):
        values.setdefault(s, min((values[t] for t in around[s]), default=0))
    told = [name for name, at in names.items() if all(values[t] > values[at] for t in around.get(at, ()))]
    wanted([name for name, _ in shown] == told, f"{what}: other coordinates")
    return values


class Judge:
    """The rows and rays of an answer, over the rates that stay."""

    def __init__(self, question):
        self.question, self.scope, self.kept = question, with_all_lines(question), kept_rates(question)
        self.rows, self.needed, self.rays = [], [], []

    def vector(self, row):
        return tuple(row.get(at, 0) for at in self.kept)

    def read_row(self, what, text):
        line = re.fullmatch(r"row (needed|unsettled) (.* >= 0) by (.*)", text)
        wanted(line, f"{what}: no line of a row")
        row = read_row(self.question, line[2])
        wanted(set(row) <= set(self.kept), f"{what}: a rate that goes")
        try:
            scale, weights = read_sum(self.scope, line[3])
        except (AssertionError, KeyError, ValueError):
            raise Wrong(f"{what}: no proof") from None
        fault = sum_fault(self.scope, row, scale, weights)
        wanted(not fault, f"{what}: {fault}")
        self.rows.append(self.vector(row))
        self.needed.append(line[1] == "needed")

    def read_ray(self, what, text):
        line = re.fullmatch(r"ray (.*) at (.*)", text)
        wanted(line, f"{what}: no line of a ray")
        rates = read_values([self.question.coordinate_text(at) for at in self.kept], line[1], what)
        values = read_point(self.question, line[2], what)
        fault = near_point_fault(self.scope, values)
        wanted(not fault, f"{what}: {fault}")
        own = [values[at] for at in self.kept]
        wanted(rates == [x // (gcd(*own) or 1) for x in own], f"{what}: not its rates in lowest terms")
        self.rays.append(tuple(rates))

    def fit(self):
        """Rows and rays generate the same cone."""
        dimension = len(self.kept)
        for i, row in enumerate(self.rows, 1):
            for j, ray in enumerate(self.rays, 1):
                wanted(product(row, ray) >= 0, f"row {i} is violated at ray {j}")
        equations, rows = rows_of([], self.rays, dimension)
        lines, rays = generators(self.rows, dimension)
        for x in lines + [tuple(-c for c in line) for line in lines] + rays:
            inside = all(product(row, x) >= 0 for row in rows) and not any(product(row, x) for row in equations)
            wanted(inside, f"the rows allow {self.text(x)}, which the rays don't span")

    def are_needed(self):
        for i, row in enumerate(self.rows):
            if self.needed[i]:
                lines, rays = generators(self.rows[:i] + self.rows[i + 1 :], len(self.kept))
                follows = all(product(row, ray) >= 0 for ray in rays) and not any(product(row, line) for line in lines)
                wanted(not follows, f"row {i + 1} follows from the others")

    def text(self, x):
        return rates_text(self.question, x)


def rates_text(question, x):
    return " ".join(f"{question.coordinate_text(at)}={c}" for at, c in zip(kept_rates(question), x))


def judged(number, question, lines):
    """The lines of an answer, by a judge where it is a bound, else None; `Wrong` where they don't answer rightly."""
    wanted(lines and all(line.startswith(f"{number} ") for line in lines), "no answer")
    front, *rest = [line.split(" ", 1)[1] for line in lines]
    if question.verb != "eliminate":
        wanted(front == "other" and not rest, "the answer isn't `other`")
        return None
    if front.startswith("undecided "):
        wanted(WORDS.fullmatch(front.removeprefix("undecided ")) and not rest, "no line of an undecided question")
        return None
    counts = re.fullmatch(r"outer (\d+) (\d+)", front)
    wanted(counts and len(rest) == int(counts[1]) + int(counts[2]), "another number of lines")
    judge = Judge(question)
    for i, text in enumerate(rest[: int(counts[1])], 1):
        judge.read_row(f"row {i}", text)
    for i, text in enumerate(rest[int(counts[1]) :], 1):
        judge.read_ray(f"ray {i}", text)
    judge.fit()
    judge.are_needed()
    return judge


def verdict(number, question, lines):
    """The verdict on an answer: `valid` of a bound and of what gets `other`, `skipped` of an undecided one, else what is wrong."""
    try:
        judge = judged(number, question, lines)
    except Wrong as fault:
        return f"{number} invalid {fault}"
    return f"{number} {'valid' if judge or question.verb != 'eliminate' else 'skipped'}"
