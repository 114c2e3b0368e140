"""Where the rows of a region come from: whether the lines that are named behind each told row add up to the report's row, exactly.

A told row stands for the report's row at its place, once those of fewer rates come first, and those of as many by which rates these are. The
lines are read from the question's text; only equations may be taken with a minus.
"""

import json
import re
from fractions import Fraction

from outer import with_all_lines
from questions import read

NAME = r"(?:given|row) [0-9]+(?:\.[0-9]+)?"
SUM = re.compile(rf"((?:- )?(?:[0-9]+ )?{NAME}(?: [+-] (?:[0-9]+ )?{NAME})*)(?:, by given .*)?")
WEIGHT = re.compile(rf"([+-] )?(?:([0-9]+) )?({NAME})")


def ordered(question, rows):
    """The rows as they are told."""
    first = 2 ** len(question.names)

    def rates(row):
        return [at for at in sorted(row) if at >= first]

    return sorted(rows, key=lambda row: (len(rates(row)), rates(row)))


def weights_of(line):
    """The weights that a told row's first comment has, by the names of lines; None where it has none."""
    found = SUM.fullmatch([*line.split("  # "), ""][1])
    return found and [(name, (-1 if sign.startswith("-") else 1) * int(times or 1)) for sign, times, name in WEIGHT.findall(found[1])]


def is_sum(question, row, weights):
    """Whether a positive multiple of the row is the sum of the question's lines with these weights."""
    lines, total = {line.name: line for line in with_all_lines(question).constraints}, {}
    for name, weight in weights:
        if name not in lines or not weight or (weight < 0 and not lines[name].equation):
            return False
        for at, c in lines[name].row.items():
            total[at] = total.get(at, 0) + weight * c
    total = {at: c for at, c in total.items() if c}
    if not row or set(total) != set(row):
        return row == total
    at = min(row)
    scale = Fraction(total[at], row[at])
    return scale > 0 and all(total[at] == scale * c for at, c in row.items())


def told_lines(told):
    """The lines below the first one of each answer, by its number."""
    found, number = {}, 0
    for line in told.splitlines():
        if line.startswith("  "):
            found[number].append(line[2:])
        else:
            number = int(line.split(" ")[0])
            found[number] = []
    return found


def judge(report, told):
    """How many rows of regions there are, behind how many of them lines are named, and which of these don't add up."""
    rows, named, faults, found = 0, 0, [], told_lines(told)
    for number, text in enumerate(report.splitlines(), 1):
        value = json.loads(text)
        if value.get("answer") != "region":
            continue
        question = read(value["question"])[0]
        wanted = ordered(question, [{at: int(c) for at, c in row["row"]} for row in value["rows"]])
        if len(wanted) != len(found[number]):
            faults.append(f"{number}: {len(found[number])} rows are told, and {len(wanted)} are there")
        rows += len(wanted)
        for row, line in zip(wanted, found[number]):
            weights = weights_of(line)
            named += weights is not None
            if weights is not None and not is_sum(question, row, weights):
                faults.append(f"{number}: {line}")
    return rows, named, faults
