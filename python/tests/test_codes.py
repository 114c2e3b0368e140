"""Linear codes at corners and counterexamples: their ranks are counted here anew."""

import doctest
import unittest
from dataclasses import replace
from fractions import Fraction
from itertools import product

import itip.codes
from itip import Constraint, Forged, H, I, caching, prove, rates, regenerating, rv

A, X, Y, Z = rv("A X Y Z")
M, R = rates("M R")


def entropy(code, names):
    """The base-2 logarithm of how many values the variables take together, over all values of the bits."""
    values = set()
    for bits in product((0, 1), repeat=code.bits):
        number = sum(bit << place for place, bit in enumerate(bits))
        values.add(tuple(bin(number & vector).count("1") % 2 for name in sorted(names) for vector in code.spaces[name]))
    return len(values).bit_length() - 1


class Codes(unittest.TestCase):
    def test_corners(self):
        """With a code at each corner the curves of the literature are what random variables can do."""
        a, b = rates("A B")
        for problem, x, y, unit in [
            (caching(2, 2, [(1, 2), (2, 1)]), M, R, H(A)),
            (caching(2, 3, [(1, 1, 2), (1, 2, 1), (2, 1, 1)]), M, R, H(A)),
            (regenerating(3, 2, 2), a, b, H(*rv("W1 W2"))),
        ]:
            curve = problem.tradeoff(x, y, unit)
            for corner, code in zip(curve.corners, curve.codes()):
                size = sum(number * entropy(code, key) for key, number in unit.joint().items())
                self.assertGreater(size, 0)
                places = {x.terms[0][1].name: corner.x * size, y.terms[0][1].name: corner.y * size}
                for line in problem.given:
                    for says in line.sums() if isinstance(line, Constraint) else (line.target(),):
                        row = says.joint().items()
                        total = sum(number * (places[key] if isinstance(key, str) else entropy(code, key)) for key, number in row)
                        self.assertTrue(total == 0 or (total > 0 and not isinstance(line, Constraint)), line)

    def test_wrong_code(self):
        curve = caching(2, 2, [(1, 2), (2, 1)]).tradeoff(M, R, H(A))
        right = curve.code(curve.corners[1])
        wrong = replace(right, spaces={**right.spaces, "Z1": right.spaces["Z2"]})
        with self.assertRaisesRegex(Forged, "constraint"):
            curve._judge(curve.corners[1], wrong)

    def test_counterexamples(self):
        code = prove(I(X & Y) >= I(X & Y | Z)).code()  # a bit, another, and their sum
        self.assertEqual([entropy(code, names) for names in ("X", "XY", "XZ", "YZ", "XYZ")], [1, 2, 2, 2, 2])
        # no linear code violates the inequality of Ingleton (1971)
        self.assertIsNone(prove("I(A;B) <= I(A;B|C) + I(A;B|D) + I(C;D)").code())
        self.assertEqual(str(prove(H(X) >= H(Y)).code()), "X = 0, Y = b1")


def load_tests(loader, tests, pattern):
    tests.addTests(doctest.DocTestSuite(itip.codes))
    return tests
