"""Polygons of regions, and pictures."""

import unittest
import xml.etree.ElementTree as ElementTree
from fractions import Fraction as F

from itip import H, I, NotationError, caching, curve_picture, entropies, gaussian, indep, prove, rates, region, rv

X1, X2, Y = rv("X1 X2 Y")
A, = rv("A")
R1, R2, M, R = rates("R1 R2 M R")
ROWS = [R1 >= 0, R2 >= 0, R1 <= I(X1 & Y | X2), R2 <= I(X2 & Y | X1), R1 + R2 <= I(X1, X2 & Y)]
CHANNEL = region(*ROWS, given=indep(X1, X2))


class Polygons(unittest.TestCase):
    # the adder channel: each sender alone has 1 bit, both together 3/2 (Ahlswede 1971; Liao 1972)
    PENTAGON = {(0, 0), (1, 0), (1, F(1, 2)), (F(1, 2), 1), (0, 1)}

    def test_adder_channel(self):
        adder = {(a, b, a + b): 1 for a in (0, 1) for b in (0, 1)}
        drawn = CHANNEL.at(entropies("X1 X2 Y", adder))
        self.assertEqual(set(drawn.corners), self.PENTAGON)
        self.assertFalse(drawn.is_cut)
        values = {I(X1 & Y | X2): 1, I(X2 & Y | X1): 1, I(X1, X2 & Y): F(3, 2)}
        self.assertEqual(set(CHANNEL.at(values).corners), self.PENTAGON)
        self.assertEqual({(y, x) for x, y in CHANNEL.at(values, R2, R1).corners}, self.PENTAGON)
        with self.assertRaisesRegex(NotationError, "don't say what"):
            CHANNEL.at({I(X1 & Y | X2): 1})
        with self.assertRaisesRegex(NotationError, "contradicts"):
            CHANNEL.at({I(X1 & Y | X2): 1, 2 * I(X1 & Y | X2): 1, I(X2 & Y | X1): 1, I(X1, X2 & Y): 1})

    def test_gaussian_channel(self):
        """Y = X1 + X2 + noise, with powers 3 and 15: log2(1 + P) / 2 each, log2(1 + 3 + 15) / 2 together."""
        drawn = CHANNEL.at(gaussian("X1 X2 Y", [[3, 0, 3], [0, 15, 15], [3, 15, 19]]))
        self.assertAlmostEqual(float(max(x for x, _ in drawn.corners)), 1)
        self.assertAlmostEqual(float(max(y for _, y in drawn.corners)), 2)
        self.assertAlmostEqual(2 ** (2 * float(max(x + y for x, y in drawn.corners))), 19)
        with self.assertRaisesRegex(NotationError, "determined"):
            gaussian("X Y", [[1, 1], [1, 1]])

    def test_point(self):
        """A polymatroid's values are as good: that of a counterexample."""
        no = prove(R1 <= I(X1 & Y), given=["R1 <= I(X1;Y|X2)", "R2 = 0", indep(X1, X2)], about=[H(X1, X2, Y)])
        drawn = CHANNEL.at(no.point)
        most = no.point[I(X1 & Y | X2)]
        self.assertIn((most, 0), drawn.corners)

    def test_open(self):
        drawn = region(R1 >= H(X1), R2 == 2 * R1).at({H(X1): 1})
        self.assertTrue(drawn.is_cut)
        self.assertIn((1, 2), drawn.corners)
        for wrong in (region(R1 >= 0), region(R1 >= M, R2 >= 0)):
            with self.assertRaisesRegex(NotationError, "two rates"):
                wrong.at({H(X1): 1})
        with self.assertRaisesRegex(NotationError, "has M too"):
            region(R1 >= M, R2 >= 0).at({H(X1): 1}, R1, R2)


class Pictures(unittest.TestCase):
    def curve(self):
        return caching(2, 2, [(1, 2), (2, 1)]).tradeoff(M, R, H(A))

    def test_svg(self):
        curve = self.curve()
        drawn = ElementTree.fromstring(curve_picture({"two files, two users": curve, "a < b & c": curve}).svg())
        names = [part.tag.rpartition("}")[2] for part in drawn.iter()]
        self.assertEqual((names.count("polyline"), names.count("circle")), (2, 8))
        texts = {part.text for part in drawn.iter() if part.text}
        self.assertLessEqual({"two files, two users", "a < b & c", "(1/2, 1)", "M / H(A)", "R / H(A)", "0", "1/2"}, texts)
        for part in drawn.iter():
            for name, value in part.items():
                if name in ("x", "y", "cx", "cy"):
                    self.assertTrue(-20 <= float(value) <= 420)
        self.assertIn("<svg", curve._repr_html_())
        adder = CHANNEL.at({I(X1 & Y | X2): 1, I(X2 & Y | X1): 1, I(X1, X2 & Y): F(3, 2)})
        both = adder.named("adder").picture(adder.named("again"))
        self.assertEqual(both.svg().count("<polygon"), 2)
        self.assertEqual(ElementTree.fromstring(adder._repr_svg_()).get("width"), "420")

    def test_matplotlib(self):
        try:
            import matplotlib
        except ImportError:
            self.skipTest("matplotlib isn't there")
        matplotlib.use("Agg")
        axes = self.curve().picture().plot()
        self.assertEqual([list(line.get_xdata()) for line in axes.lines][1], [0, 0.5, 1, 2])
        self.assertEqual(axes.get_xlabel(), "$M / H(A)$")
