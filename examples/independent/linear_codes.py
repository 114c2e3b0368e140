"""Linear codes of a report: the entropies of their variables, as ranks by elimination over the field."""


def rank(vectors, q):
    """How many of some vectors over the field of q elements, a prime, depend on no others."""
    vectors, found = [list(vector) for vector in vectors], 0
    for place in range(max(map(len, vectors), default=0)):
        lead = next((vector for vector in vectors if vector[place] % q), None)
        if lead is None:
            continue
        vectors.remove(lead)
        found += 1
        inverse = pow(lead[place], -1, q)
        vectors = [[(x - vector[place] * inverse * y) % q for x, y in zip(vector, lead)] for vector in vectors]
    return found


def first_other(q, times, variables, values):
    """The first set of variables, by number, whose value isn't `times` the rank of its functions; 0 where there is none."""
    for number in range(1, 1 << len(variables)):
        functions = [function for place, of in enumerate(variables) if number >> place & 1 for function in of]
        if values[number] != times * rank(functions, q):
            return number
    return 0
