"""Reports: the line that an answer gets in JSON, and the verdict on any line, from the format's definition and `verify`'s meaning.

A line is judged key by key; a certificate by its scale, its weights in order and its sums coordinate by coordinate; a point by the
generators in order and then the target; a region by the certificates of its rows, where it has some; an outer bound by its certificates, its points and the hull of its rays. Numbers are told as they
are written, so `1.0` and `1e0` are no whole numbers.
"""

import json
import re
from functools import partial

from certificates import Wide, fit, met_verdict, point_verdict, sum_verdict
from certificates import value as row_value
from contain import Containment
from copies import Misfit, extended, read_with_head
from defined import LIMIT
from hulls import hull_verdict
from linear_codes import first_other
from outer import kept_rates, with_all_lines
from questions import USUAL, Fault, read
from sharing import TooMany, made

ANSWERS = {"prove": ("yes", "no", "undecided"), "eliminate": ("region", "undecided", "outer"), "contain": ("contained", "open")}
# those about the factors of `prove E >= F`; an `undecided` with a phase is one of them
FACTORS = ("best", "none", "unbounded")


# a whole number as decimal text
DECIMAL = re.compile("-?[0-9]{1,39}")


class Written(str):
    """A number of a line, as it is written."""


class Shape(Exception):
    """The key that is missing or of another shape."""


class NoReading(Exception):
    """The line isn't JSON."""


# Writing

def answer_json(question, end, found):
    """The line of an answer to a question of a file: ("yes", [(scale, weights by generator)]), ("no", (side, values)), ("region", rows
    with their marks), ("contained", (parts, proofs)), ("open", tried), (cause, at)."""
    return report_json({"question": question.text}, question, end, found)


def misfit_json(about, cause):
    """The line of a question that can't be had, by what it is about and the words of the reason."""
    return line_of(about | {"answer": "misfit", "cause": cause})


def report_json(about, question, end, found):
    """The line of an answer, by what it is about."""
    value = dict(about)
    if end == "yes":
        value |= {"answer": end, "proofs": [proof_value(*proof) for proof in found]}
    elif end == "no":
        side, values = found
        value |= {"answer": end, "point": [str(values[at]) for at in range(1, question.size() + 1)], "side": side}
    elif end == "region":
        rows = [{"mark": mark, "row": row_pairs(row)} for mark, row in found]
        value |= {"answer": end, "rows": rows}
    elif end == "contained":
        value |= {"answer": end, "parts": list(found[0]), "proofs": [proof_value(*proof) for proof in found[1]]}
    elif end == "open":
        value |= {"answer": end, "tried": found}
    else:
        at = question.coordinate_text(found) if isinstance(found, int) else found
        value |= {"answer": "undecided", "cause": end, "at": at}
    return line_of(value)


def best_json(about, question, end, found):
    """The line of what was found of factors, as `Best` of best.py gives it."""
    value = about | {"answer": end}
    if end in ("best", "none"):
        values = found[2] if end == "best" else found
        value["point"] = [str(values[at]) for at in range(1, question.size() + 1)]
    if end in ("best", "unbounded"):
        value["factor"] = [str(number) for number in found[0]]
        value["proofs"] = [proof_value(*proof) for proof in (found[1:2] if end == "best" else found[1:])]
    if end == "undecided":
        cause, at, phase = (re.fullmatch("(.*) (.*) in (.*)", found) or re.fullmatch("(.*)()()", found)).groups()
        value |= {"cause": cause, "at": at or "0", "phase": int(phase or 0)}
    return line_of(value)


def outer_json(about, question, rows, steps):
    """The line of an outer bound: rows with their certificates, and rays, each with its drops."""
    size = question.size()
    rays = [
        {"drops": [{"row": at, **proof_value(*proof)} for at, *proof in drops], "point": [str(ray[at]) for at in range(1, size + 1)]}
        for ray, drops in steps
    ]
    return line_of(about | {
        "answer": "outer",
        "rows": [{"row": row_pairs(row)} for row, _ in rows],
        "proofs": [proof_value(*proof) for _, proof in rows],
        "rays": rays,
    })


def line_of(value):
    return json.dumps(value, separators=(",", ":"), sort_keys=True, ensure_ascii=False)


def row_pairs(row):
    return [[at, str(row[at])] for at in sorted(row)]


def proof_value(scale, weights):
    return {"scale": str(scale), "weights": [[i, str(weights[i])] for i in sorted(weights) if weights[i]]}


# Reading JSON

def number(text):
    """A number; one that no 64-bit float comes near has no reading."""
    if float(text) in (float("inf"), float("-inf")):
        raise NoReading
    return Written(text)


def refuse(text):
    raise NoReading


def depth(text):
    """How deep arrays and objects of a JSON text are nested."""
    deepest = level = 0
    for part in re.sub(r'"(?:[^"\\]|\\.)*"', "", text):
        level += (part in "[{") - (part in "]}")
        deepest = max(deepest, level)
    return deepest


def pairs(members):
    """An object, of doubled keys the last."""
    for key, value in members:
        plain(key)
        plain(value)
    return dict(members)


def plain(value):
    """Half of a surrogate pair is no character."""
    if isinstance(value, list):
        for member in value:
            plain(member)
    elif isinstance(value, str) and not value.isascii() and re.search("[\ud800-\udfff]", value):
        raise NoReading


def reading(line):
    """The JSON value of a line of bytes."""
    try:
        text = line.decode("utf-8")
        value = json.loads(text, parse_float=number, parse_int=number, parse_constant=refuse, object_pairs_hook=pairs)
    except (ValueError, RecursionError):
        raise NoReading from None
    plain(value)
    if depth(text) > 127:
        raise NoReading
    return value


# Reading a report's line

def rule(kept, key):
    if not kept:
        raise Shape(key)


def text_at(value, key):
    found = value.get(key)
    rule(isinstance(found, str) and not isinstance(found, Written), key)
    return found


def count(value, key, most=2**32 - 1):
    """A whole number, written by digits alone."""
    rule(isinstance(value, Written) and value.isdigit() and int(value) <= most, key)
    return int(value)


def decimal(value, key):
    """A whole number as decimal text."""
    rule(isinstance(value, str) and not isinstance(value, Written) and DECIMAL.fullmatch(value), key)
    rule(abs(int(value)) <= LIMIT, key)
    return int(value)


def items(value, key, length=None):
    rule(isinstance(value, list) and length in (None, len(value)), key)
    return value


def members(value, key):
    rule(isinstance(value, dict), key)
    return value


def question_of(value, limits):
    """The question that is asked: that of the sharing file where there is one, else that of the text, with the copies of the head where
    there is one."""
    if "sharing" in value:
        question = file_of(text_at(value, "sharing"), 1048576, made, "sharing")
        rule(not isinstance(question, TooMany), "sharing")
        return question
    if "copies" in value:
        rule(isinstance(value.get("question"), str) and not isinstance(value["question"], Written), "copies")
        copies, questions = file_of(text_at(value, "copies") + value["question"], 1048577, partial(read_with_head, limits=limits), "copies")
        rule(len(questions) == 1, "copies")
        try:
            return extended(questions[0], copies, limits)
        except Misfit:
            raise Shape("copies") from None
    questions = file_of(text_at(value, "question"), 1048577, partial(read, limits=limits), "question")
    rule(len(questions) == 1, "question")
    return questions[0]


def file_of(text, most, reader, key):
    """What a reader finds in a text of at most `most` bytes."""
    text = text.encode("utf-8")
    rule(len(text) <= most, key)
    try:
        return reader(text.decode("latin-1"))
    except Fault:
        raise Shape(key) from None


def proof_of(value, key):
    """The scale and the weights of a certificate."""
    scale, weights = decimal(members(value, key).get("scale"), key), []
    for pair in items(value.get("weights"), key):
        index, weight = items(pair, key, 2)
        weights.append((count(index, key), decimal(weight, key)))
    return scale, weights


def proofs_of(value, length, key="proofs"):
    return [proof_of(proof, key) for proof in items(value.get(key), key, length)]


def row_of(value, question):
    """A row: coordinates in order, no coefficient 0."""
    found, last = {}, 0
    for pair in items(members(value, "rows").get("row"), "rows"):
        at, coefficient = items(pair, "rows", 2)
        at, coefficient = count(at, "rows"), decimal(coefficient, "rows")
        rule(last < at <= question.size() and coefficient, "rows")
        found[at], last = coefficient, at
    return found


def marked_rows(value, question):
    """The rows of a region, without their marks."""
    rows = []
    for row in items(value.get("rows"), "rows"):
        rule(members(row, "rows").get("mark") in ("plain", "needed", "unsettled"), "rows")
        rows.append(row_of(row, question))
    return rows


def step_of(value, question):
    """A ray, and the rows that go after it: the number of each in the list as it stands, with its certificate."""
    drops = []
    for drop in items(members(value, "rays").get("drops"), "rays"):
        drops.append((count(members(drop, "rays").get("row"), "rays"), *proof_of(drop, "rays")))
    return point_of(value, question, "rays"), drops


def at_of(value, question, cause):
    at = text_at(value, "at")
    if cause == "scale":
        rule(at == "0", "at")
    elif cause == "rows" or cause == "width" and at in question.rates:
        rule(at in question.rates, "at")
    else:
        rule(0 <= decimal(at, "at") < 2**32, "at")


def contained_of(value, question):
    """The first region, the obligations and their proofs."""
    containment = Containment(question)
    parts = items(value.get("parts"), "parts", containment.second.auxiliaries)
    targets = containment.obligations([count(part, "parts", 2**containment.n - 1) for part in parts])
    return containment.first, targets, proofs_of(value, len(targets))


def first_fault(scope, targets, proofs):
    """The verdict on a list of proofs: the first one that is at fault."""
    for target, proof in zip(targets, proofs):
        found = sum_verdict(scope, target, *proof)
        if found:
            return f"invalid {found}"
    return "valid"


def is_about_factors(value, answer):
    return answer in FACTORS or answer == "undecided" and "phase" in value


def factor_of(value):
    return [decimal(number, "factor") for number in items(value.get("factor"), "factor", 2)]


def point_of(value, question, key="point"):
    return dict(enumerate([decimal(v, key) for v in items(value.get("point"), key, question.size())], 1))


def combined(question, num, den):
    """The row of num times the left side less den times the right one, and the first coordinate at which a number is wide, or None."""
    _, left, right = question.sides
    row = {}
    for at in range(1, question.size() + 1):
        try:
            row[at] = fit(fit(num * left.get(at, 0)) - fit(den * right.get(at, 0)))
        except Wide:
            return {}, at
    return {at: number for at, number in row.items() if number}, None


def tight_fault(question, below, zero, values):
    """The first thing that is wrong with a point at which the problem is met, one row is -1 or less and another 0; or None."""
    found = point_verdict(question, below, values)
    if found:
        return found
    try:
        rest = row_value(zero, values)
    except Wide:
        return f"width {question.elemental_count() + len(question.constraints) + 1}"
    return f"zero {rest}" if rest else None


def best_fault(question, answer, factor, proofs, values):
    """The first thing that is wrong with what is said of factors, or None."""
    if answer == "none":
        turned, wide = combined(question, 0, 1)
        return f"width {wide}" if wide else tight_fault(question, turned, question.sides[1], values)
    if factor[1] < 1:
        return f"factor {factor[1]}"
    row, wide = combined(question, *factor)
    if wide:
        return f"width {wide}"
    turned, _ = combined(question, -1, 0)
    found = sum_verdict(question, row, *proofs[0])
    if found:
        return found
    return tight_fault(question, turned, row, values) if answer == "best" else sum_verdict(question, turned, *proofs[1])


def best_words(value, answer, limits):
    """The words about a line of factors."""
    question = question_of(value, limits)
    rule(question.verb == "prove" and question.sides[0] == ">=", "answer")
    if answer == "undecided":
        rule(text_at(value, "cause") in ("pivots", "width", "scale", "size"), "cause")
        rule(0 <= decimal(value.get("at"), "at") < 2**32, "at")
        count(value.get("phase"), "phase", 255)
        return "skipped"
    factor = factor_of(value) if answer != "none" else None
    proofs = proofs_of(value, 1 if answer == "best" else 2) if answer != "none" else []
    values = point_of(value, question) if answer != "unbounded" else None
    found = best_fault(question, answer, factor, proofs, values)
    return f"invalid {found}" if found else "valid"


def code_of(value, question):
    """A code of the question's variables: the field's elements, what a symbol counts, and the functions of each variable."""
    code = members(value["code"], "code")
    elements, symbols = count(code.get("field"), "code"), count(code.get("symbols"), "code")
    rule(elements in (2, 3) and symbols <= 12 and elements**symbols <= 4096, "code")
    variables = []
    for functions in items(code.get("functions"), "code", len(question.names)):
        functions = [items(function, "code", symbols) for function in items(functions, "code")]
        variables.append([[count(number, "code", elements - 1) for number in function] for function in functions])
    times = count(code.get("times"), "code")
    rule(times >= 1, "code")
    return elements, times, variables


def no_words(value, question):
    """The words about a no: on its point, and then on the code that this is said to be of, where there is one."""
    point = point_of(value, question)
    side = text_at(value, "side")
    rule(side == "forward" or side == "back" and len(question.targets) == 2, "side")
    code = code_of(value, question) if "code" in value else None
    found = point_verdict(question, question.targets[side == "back"], point)
    if found:
        return f"invalid {found}"
    other = first_other(*code, point) if code else 0
    return f"invalid code {question.coordinate_text(other)}" if other else "valid"


def region_words(value, question):
    """The words about a region: on the certificates from which its rows are said to come, where there are some."""
    rows = marked_rows(value, question)
    if "origins" not in value:
        return "skipped"
    return first_fault(with_all_lines(question), rows, proofs_of(value, len(rows), "origins"))


def outer_words(value, question):
    """The words about an outer bound: on its certificates, then on the points of its rays, then on its rows as the hull of the rays."""
    rows = [row_of(row, question) for row in items(value.get("rows"), "rows")]
    proofs = proofs_of(value, len(rows))
    steps = [step_of(ray, question) for ray in items(value.get("rays"), "rays")]
    scope = with_all_lines(question)
    words = first_fault(scope, rows, proofs)
    if words != "valid":
        return words
    wrong = next(filter(None, (met_verdict(scope, ray) for ray, _ in steps)), None)
    wrong = wrong or hull_verdict(question, kept_rates(question), steps, rows)
    return f"invalid {wrong}" if wrong else "valid"


def verdict(line, limits):
    """The words of a verdict, without the line's number."""
    value = reading(line)
    answer = text_at(members(value, "answer"), "answer")
    if answer == "misfit":
        return "skipped"
    if is_about_factors(value, answer):
        return best_words(value, answer, limits)
    rule(any(answer in answers for answers in ANSWERS.values()), "answer")
    question = question_of(value, limits)
    rule(answer in ANSWERS[question.verb], "answer")
    if answer == "yes":
        return first_fault(question, question.targets, proofs_of(value, len(question.targets)))
    if answer == "contained":
        return first_fault(*contained_of(value, question))
    if answer == "outer":
        return outer_words(value, question)
    if answer == "no":
        return no_words(value, question)
    if answer == "region":
        return region_words(value, question)
    if answer == "undecided":
        cause = text_at(value, "cause")
        rule(cause in ("pivots", "width", "scale", "rows"), "cause")
        at_of(value, question, cause)
    else:
        count(value.get("tried"), "tried")
    return "skipped"


def judge(number, line, limits=USUAL):
    """The verdict line of a report's line, bytes without the line feed; its question may be as large as the limits say."""
    try:
        return f"{number} {verdict(line, limits)}"
    except NoReading:
        return f"{number} invalid json"
    except Shape as shape:
        return f"{number} invalid shape {shape}"
