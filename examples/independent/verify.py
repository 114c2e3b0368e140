"""Checks an answer by the definitions: sums at each coordinate for a yes; for a no the axioms over all pairs of sets."""

from questions import row_of


def value(row, values):
    return sum(c * values[at] for at, c in row.items())


def sum_fault(question, target, scale, weights):
    """What is wrong with a certificate, or None; weights by number of the generator."""
    generators = question.generators()
    if scale < 1:
        return f"the scale is {scale}"
    for number, weight in weights.items():
        if weight < 0 and not generators[number].equation:
            return f"a negative weight on {generators[number].name}"
    terms = [(weight * c, at) for i, weight in weights.items() for at, c in generators[i].row.items()]
    if row_of(terms) != row_of([(scale * c, at) for at, c in target.items()]):
        return "the weights don't add up to the target"
    return None


def point_fault(question, values):
    """What keeps the values from being a polymatroid and rates that meet the constraints, or None."""
    h = lambda s: values[s] if s else 0
    sets = range(2 ** len(question.names))
    for s in sets:
        for t in sets:
            if s | t == t and h(s) > h(t):
                return f"h falls from {question.set_text(s)} to {question.set_text(t)}"
            if h(s) + h(t) < h(s | t) + h(s & t):
                return f"not submodular at {question.set_text(s)} and {question.set_text(t)}"
    return constraint_fault(question, values)


def near_point_fault(question, values):
    """The same, where the axioms are asked of sets next to each other alone, which is enough: h rises with each variable that comes, and
    by no more where another one came before (Yeung, "A framework for linear information inequalities", 1997)."""
    h, n = [0] + [values[s] for s in range(1, 2 ** len(question.names))], len(question.names)
    for s in range(2**n):
        for i in range(n):
            if s >> i & 1:
                continue
            if h[s] > h[s | 1 << i]:
                return f"h falls from {question.set_text(s)} to {question.set_text(s | 1 << i)}"
            for j in range(i + 1, n):
                if not s >> j & 1 and h[s | 1 << i] + h[s | 1 << j] < h[s | 1 << i | 1 << j] + h[s]:
                    return f"not submodular at {question.set_text(s | 1 << i)} and {question.set_text(s | 1 << j)}"
    return constraint_fault(question, values)


def constraint_fault(question, values):
    """What constraint isn't met, or None."""
    for constraint in question.constraints:
        found = value(constraint.row, values)
        if found < 0 or constraint.equation and found:
            return f"{constraint.name} isn't met"
    return None


def read_sum(question, text):
    """The scale and the weights of `L : w G + w G ..`; names in ascending order of generators, no weight 0."""
    names = {g.name: i for i, g in enumerate(question.generators())}
    scale, parts = text.split(" : ")
    weights = [] if parts == "0" else [part.split(" ", 1) for part in parts.split(" + ")]
    numbers = [names[name] for _, name in weights]
    assert numbers == sorted(set(numbers)), "generators that don't ascend"
    assert all(int(weight) for weight, _ in weights), "a weight of 0"
    return int(scale), {i: int(weight) for i, (weight, _) in zip(numbers, weights)}


def line_fault(number, question, line):
    """What is wrong with the line of an answer, or None; nothing is said of `undecided`."""
    front, verdict, *rest = line.split(" ", 2)
    if front != str(number):
        return "another number"
    if verdict == "yes":
        sums = rest[0].split(" and ")
        if len(sums) != len(question.targets):
            return "another number of proofs"
        for target, text in zip(question.targets, sums):
            fault = sum_fault(question, target, *read_sum(question, text))
            if fault:
                return fault
        return None
    if verdict == "no":
        shown = [part.rsplit("=", 1) for part in rest[0].split(" ")]
        n = len(question.names)
        wanted = [f"h({question.set_text(s)})" for s in range(1, 2**n)] + question.rates
        if [name for name, _ in shown] != wanted:
            return "other coordinates"
        values = {at: int(text) for at, (_, text) in enumerate(shown, 1)}
        fault = point_fault(question, values)
        if not fault and all(value(target, values) > -1 for target in question.targets):
            fault = "no target is violated"
        return fault
    return None if verdict == "undecided" else f"the answer {verdict}"
