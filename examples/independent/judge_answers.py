"""Judges a report as the answers to a question file: each line has to be about the file's question of its place, and to show what it says.

What a line shows is judged by the definitions alone, as `reports` has it: a certificate by the signs of its weights and its sums at all
sets, a point by all elemental inequalities and the question's lines. There is no list of generators, so that questions of sixteen names can
be judged. `right_and_forged` has lines of sixteen names with the verdicts that they are due, and `changed` makes wrong lines of right ones.
"""

import json
from itertools import combinations

from answers import asked, limits_of, lines_of_report
from reports import NoReading, judge, reading

NAMES = 16


def verdicts(words, source, report):
    """The verdict line of each line of a report, bytes, that is said to answer the questions of a file by a call with these words."""
    questions, lines = asked(words, source), lines_of_report(report)
    found = [verdict(number, line, question, limits_of(words)) for number, (line, question) in enumerate(zip(lines, questions), 1)]
    if len(lines) != len(questions):
        found.append(f"{len(found) + 1} invalid: {len(lines)} lines for {len(questions)} questions")
    return found


def verdict(number, line, question, limits):
    """The verdict line of a report's line. Of an undecided question nothing is claimed, whatever the cause."""
    try:
        value = reading(line)
    except NoReading:
        return f"{number} invalid json"
    if not isinstance(value, dict) or any(value.get(key) != text for key, text in question.about.items()):
        return f"{number} invalid: about another question"
    return f"{number} skipped" if value.get("answer") == "undecided" else judge(number, line, limits)


# One number changed

def changed(line, question, most):
    """Wrong lines that are made of a right one by another number in one place, at most so many for each of its proofs and for its point,
    each with what is changed. Another weight of a generator gives another sum. A set with more than all variables, or all variables
    with less than a set, is no polymatroid."""
    value = json.loads(line)
    for proof in value.get("proofs", []):
        for pair in some(proof["weights"], most):
            yield f"the weight of generator {pair[0]}", with_number(value, pair, 1, int(pair[1]) + 1)
    point, whole = value.get("point"), 2 ** len(question.names) - 1
    for s in some(range(1, whole), most if point else 0):
        yield f"the value at {question.coordinate_text(s)}", with_number(value, point, s - 1, int(point[whole - 1]) + 1)
    if point and whole > 1:
        yield "the value at all variables", with_number(value, point, whole - 1, int(point[whole // 2 - 1]) - 1)


def some(items, most):
    """At most so many of the items, from the first one on, with the same distance."""
    return items[:: max(1, -(-len(items) // most))] if most else []


def with_number(value, place, at, number):
    """The line with another number in one place of its value."""
    kept, place[at] = place[at], str(number)
    line = line_of(value)
    place[at] = kept
    return line


def line_of(value):
    return json.dumps(value, separators=(",", ":"), sort_keys=True).encode()


# Lines of sixteen names, by formulas

X = [f"X{i}" for i in range(1, NAMES + 1)]
HEAD = f"vars {', '.join(X)}\n"
ALL = f"H({','.join(X)})"
SUM = f"{HEAD}prove {' + '.join(f'H({x})' for x in X)} >= {ALL}\n"
# Any eight of the variables are independent and give the others.
UNIFORM = (
    f"{HEAD}rates R\ngiven func {','.join(X[8:])} of {','.join(X[:8])}\ngiven indep {'; '.join(X[:8])}\n"
    f"row R = H(X1,X2)\nprove {ALL} + R >= {' + '.join(f'H({x})' for x in X[:11])}\n"
)
# All that is said of R is that it isn't below 0.
RATE = f"{HEAD}rates R, S\nrow R = {ALL}\neliminate S\n"


def mutual(i, j, k):
    """The number of I(Xi;Xj|K), i below j, variables counted from 0. K is told as a set of the variables but these two, which are
    counted without them. The generators H(X|others) come before."""
    return NAMES + list(combinations(range(NAMES), 2)).index((i, j)) * 2 ** (NAMES - 2) + k


def proof(weights):
    """Weights of generators as a report has them, with the scale 1."""
    return {"scale": "1", "weights": [[at, str(w)] for at, w in sorted(weights.items())]}


def chain():
    """That the sum of all H(Xj) isn't below H(X1,..,X16), by all I(Xi;Xj|X1..X(i-1)): those of one j are I(Xj;X1..X(j-1)), the sum of
    H(Xj) and H(X1..X(j-1)) less H(X1..Xj)."""
    return {mutual(i, j, 2**i - 1): 1 for i, j in combinations(range(NAMES), 2)}


def turned():
    """The same sum with weights below 0: I(X1;X2) + I(X1;X3|X2) is I(X1;X3) + I(X1;X2|X3). X3 is the first variable other than X1 and
    X2, and so is X2 of those other than X1 and X3."""
    weights = chain()
    for at, weight in ((mutual(0, 1, 0), 1), (mutual(0, 2, 1), 1), (mutual(0, 2, 0), -1), (mutual(0, 1, 1), -1)):
        weights[at] = weights.get(at, 0) + weight
    return weights


def of_all():
    """H(X1,..,X16) by H(Xi|others) and all I(Xi;Xj|X1..X(j-1) but Xi): those of one i make of H(Xi|others) H(Xi|X1..X(i-1))."""
    return {i: 1 for i in range(NAMES)} | {mutual(i, j, 2 ** (j - 1) - 1): 1 for i, j in combinations(range(NAMES), 2)}


def yes(weights):
    return line_of({"answer": "yes", "proofs": [proof(weights)], "question": SUM})


def values(most, *rates):
    """A point: a set of k variables has the lesser of k and `most`."""
    return [str(min(s.bit_count(), most)) for s in range(1, 2**NAMES)] + [str(rate) for rate in rates]


def uniform(more_at=None):
    """A no, with 8 for the most and R of 2; at one coordinate there is 1 more."""
    point = values(8, 2)
    if more_at is not None:
        point[more_at - 1] = str(int(point[more_at - 1]) + 1)
    return line_of({"answer": "no", "point": point, "question": UNIFORM, "side": "forward"})


def best(factor):
    """The least factor of SUM: independent variables make both sides equal."""
    return line_of({"answer": "best", "factor": factor, "point": values(NAMES), "proofs": [proof(chain())], "question": SUM})


def outer(rate):
    """The outer bound of RATE, with one ray: equal variables, and R of 1."""
    weights = of_all() | {NAMES + len(list(combinations(range(NAMES), 2))) * 2 ** (NAMES - 2): 1}
    rays = [{"drops": [], "point": values(1, rate, 0)}]
    return line_of({"answer": "outer", "proofs": [proof(weights)], "question": RATE, "rays": rays, "rows": [{"row": [[2**NAMES, "1"]]}]})


def right_and_forged():
    """Lines with why they are as they are, the file that they answer and the verdict that is due: `valid`, or the word of the fault."""
    yield "a sum of 120 elemental inequalities", SUM, "valid", yes(chain())
    yield "the same sum with a weight below 0", SUM, "negative", yes(turned())
    yield "a generator that isn't there", SUM, "generator", yes(chain() | {mutual(14, 15, 2**14): 1})
    yield "a least factor", SUM, "valid", best(["1", "1"])
    yield "another factor", SUM, "mismatch", best(["1", "2"])
    yield "an outer bound", RATE, "valid", outer(1)
    yield "another ray", RATE, "constraint", outer(2)
    yield "eight of sixteen", UNIFORM, "valid", uniform()
    # one more at a set: two of its members have less than 0 together, given its others, or two others, given the set, or one has,
    # given all others
    for size in (1, 2, 8, 9, 15, 16):
        yield f"one more at a set of {size}", UNIFORM, "elemental", uniform(2**NAMES - 2 ** (NAMES - size))
    yield "one more for the rate", UNIFORM, "constraint", uniform(2**NAMES)
