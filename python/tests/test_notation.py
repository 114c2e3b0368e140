"""Expressions: what they are written as, what they mean, and what isn't one. No program is called."""

import doctest
import unittest
from fractions import Fraction

import itip.evidence
import itip.notation
import itip.reading
import itip.reports
from itip import H, I, NotationError, aligned, assumption, func, indep, markov, rates, relation, rv
from itip.questions import parse

W, X, Y, Z = rv("W, X Y  Z")
R, S = rates("R S")


class Notation(unittest.TestCase):
    def test_written(self):
        for made, text in [
            (H(X), "H(X)"),
            (H(X, Y | Z, W), "H(X,Y|Z,W)"),
            (H(X + Y | Z + W), "H(X,Y|Z,W)"),
            (I(X & Y), "I(X;Y)"),
            (I(X, Y & Z | W), "I(X,Y;Z|W)"),
            (I(X & Y, Z | W), "I(X;Y,Z|W)"),
            (I(X + Y & Z | W + X), "I(X,Y;Z|W,X)"),
            (I(X, Y & Z, W | X, Y), "I(X,Y;Z,W|X,Y)"),
            (2 * H(X) - H(Y) / 2 + H(X), "3 H(X) - 1/2 H(Y)"),
            (-H(X) + Fraction(2, 3) * R, "- H(X) + 2/3 R"),
            (0 - H(X) + 0, "- H(X)"),
            (H(X) - H(X), "0"),
        ]:
            self.assertEqual(made.text(), text)
        for made, text in [
            (0 <= I(X & Y) - R, "I(X;Y) - R >= 0"),
            (H(X) == H(Y), "H(X) = H(Y)"),
            (markov(W, X, Y + Z), "markov W -> X -> Y,Z"),
            (indep(X, (Y, Z)), "indep X; Y,Z"),
            (indep(X, Y, given=Z + W), "indep X; Y | Z,W"),
            (func(X + Y, of=Z), "func X,Y of Z"),
        ]:
            self.assertEqual((made.text(), assumption(text).text()), (text, text))
        self.assertEqual([repr(part) for part in (X, X + Y, X & Y + Z | W)], ["X", "X + Y", "X & Y + Z | W"])

    def test_read(self):
        for text in [
            "I(X;Y) - I(X;Z) = I(X;Y|Z) - I(X;Z|Y)",
            "R1 + 2 R2 <= I(X1,U2;Y1|U1) + I(X2;Y2|U1,U2) + I(X2,U1;Y2)",
            "1/2 H(X) + 1/3 H(Y) >= 1/6 H(X,Y)",
            "- H(X) <= 0",
            "0 = 0",
            "markov >= 2 of",  # rates with the names of words
        ]:
            self.assertEqual(assumption(text).text(), text)
        self.assertEqual(relation("2H(X)-0<=+1/2 R").text(), "2 H(X) <= 1/2 R")

    def test_joint_entropies(self):
        """The terms as docs/guide/answers.md has them in joint entropies."""
        h = {names: H(*rv(" ".join(names))) for names in ("W", "X", "Y", "Z", "WX", "WY", "WZ", "XY", "XZ", "YZ", "WXY", "WXYZ", "XYZ")}
        self.assertTrue(H(X | Y).same(h["XY"] - h["Y"]))
        self.assertTrue(I(X & Y | Z).same(h["XZ"] + h["YZ"] - h["XYZ"] - h["Z"]))
        self.assertTrue(I(X & X).same(h["X"]))
        self.assertTrue(H(X | X).same(H(X) - H(X)))
        self.assertFalse(h["XY"].same(h["X"] + h["Y"]))
        first, second = markov(X, Y, Z, W).sums()
        self.assertTrue(first.same(I(X & Z | Y)) and second.same(I(X + Y & W | Z)))
        self.assertTrue(indep(X, Y, Z, given=W).sums()[0].same(h["WX"] + h["WY"] + h["WZ"] - h["WXYZ"] - 2 * h["W"]))
        self.assertTrue(func(Z, of=X).sums()[0].same(h["XZ"] - h["X"]))
        self.assertEqual((I(X & Y | Z) + R).joint()["R"], 1)

    def test_latex(self):
        self.assertEqual((H(X | Y) <= I(X & Y, Z) / 2).latex(), r"H(X\mid Y) \le \tfrac{1}{2}\,I(X;Y,Z)")
        self.assertEqual(rv("X1 X_n Key_2")[2]._repr_latex_(), r"$\mathit{Key}_{2}$")
        self.assertEqual(markov(W, X, Y + Z).latex(), r"W \to X \to (Y,Z)")
        self.assertEqual(indep(X, Y, given=Z).latex(), r"X \perp Y \mid Z")
        self.assertEqual(func(X + Y, of=Z).latex(), r"H(X,Y\mid Z) = 0")

    def test_aligned(self):
        wanted = r"""\begin{align*}
  R &\le I(X;Y) \\
  &\quad {} - H(Z) \\
  S &\ge 0
\end{align*}"""
        self.assertEqual(aligned([R <= I(X & Y) - H(Z), S >= 0], width=14), wanted)

    def test_question(self):
        """A question is written again as it was read."""
        for text in [
            "vars X, Y\nrates R, S\ngiven indep X; Y\nrow R <= H(X)\nrow 2 S >= R\nprove R + S <= H(X,Y)\n",
            "vars X\nrates R, S\nrow R + S <= H(X)\neliminate S\n",
            "vars X, Y\nrates R\nregion\nrow R <= I(X;Y)\nregion\naux U, V\ngiven markov U -> X -> Y\nrow R <= I(U;Y|V)\n"
            "try U := X,Y; V := 0\ncontain\n",
        ]:
            read = parse(text)
            self.assertEqual(type(read)(read.variables, read.rates, read.given, read.rows, read.goal).text(), text)

    def test_faults(self):
        for make, said in [
            (lambda: bool(H(X) <= H(Y)), "prove"),
            (lambda: 0 <= H(X) <= H(Y), "two relations"),
            (lambda: H(X) * 0.5, "float"),
            (lambda: H(X) <= 1, "by a rate"),
            (lambda: H(X) + X, r"its entropy is H\(X\)"),
            (lambda: I(X | Y & Z), "condition, last"),
            (lambda: H(X | Y | Z), "condition, last"),
            (lambda: I(X, Y), "with & between"),
            (lambda: I(X & Y & Z), "two sets"),
            (lambda: H(X & Y), "one set"),
            (lambda: H(), "one set"),
            (lambda: H(X) < H(Y), "signs"),
            (lambda: H(X) != H(Y), "signs"),
            (lambda: H(X) * H(Y), "numbers alone"),
            (lambda: H(X) / 0, "not by 0"),
            (lambda: bool(H(X)), "neither"),
            (lambda: X + H(Y), "variables alone"),
            (lambda: markov(X, Y), "three"),
            (lambda: markov(X, Y, Z | W), "variables alone"),
            (lambda: indep(X), "two"),
            (lambda: rv("X'"), "no name"),
            (lambda: rv("H"), "word"),
            (lambda: rv("a" * 17), "at most 16"),
            (lambda: H("X"), "declare it by rv"),
            (lambda: relation("H(X) < H(Y)"), "nothing begins with '<'\n    H.X. < H.Y.\n         \\^"),
            (lambda: relation("H(X) >= H(Y) >= 0"), "nothing more"),
            (lambda: relation("H(X) >= 1"), "a name is wanted"),
            (lambda: relation("1/0 H(X) >= 0"), "divided by 0"),
            (lambda: relation("I(X) >= 0"), "';' is wanted"),
            (lambda: assumption("markov X -> Y"), "'->' is wanted"),
        ]:
            with self.assertRaisesRegex((NotationError, TypeError), said):
                make()


def load_tests(loader, tests, pattern):
    for module in (itip.notation, itip.reading, itip.evidence, itip.reports):
        tests.addTests(doctest.DocTestSuite(module))
    return tests
