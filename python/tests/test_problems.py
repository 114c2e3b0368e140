"""Trade-off curves, networks, index coding, caching, storage: against the values of the literature."""

import doctest
import unittest
from fractions import Fraction as F

import itip.curves
from itip import H, I, Itip, ItipError, NotationError, Edge, Problem, caching, copy, index_coding, network, rates, regenerating, rv, tradeoff

from .programs import BLAND

X, Y = rv("X Y")
A, B, C, D = rv("A B C D")
M, N, R, S = rates("M N R S")


class Curves(unittest.TestCase):
    def corners(self, problem, x, y, unit):
        curve = problem.tradeoff(x, y, unit)
        self.assertEqual(curve.check(), len(curve.faces) + len(curve.corners))
        for corner in curve.corners:
            size = corner.point[unit]
            self.assertEqual((corner.point[x] / size, corner.point[y] / size), (corner.x, corner.y))
        for face in curve.faces:
            self.assertTrue(face.answer.certificate.adds_up())
            on_it = [c for c in curve.corners if face.edge.a * c.x + face.edge.b * c.y == face.edge.c]
            self.assertTrue(on_it and all(face.edge.a * c.x + face.edge.b * c.y >= face.edge.c for c in curve.corners))
        return [(c.x, c.y) for c in curve.corners], [face.relation.text() for face in curve.faces]

    def test_caching(self):
        # Maddah-Ali and Niesen 2014; Tian 2018
        corners, faces = self.corners(caching(2, 2, [(1, 2), (2, 1)]), M, R, H(A))
        self.assertEqual(corners, [(0, 2), (F(1, 2), 1), (1, F(1, 2)), (2, 0)])
        self.assertEqual(faces, ["M >= 0", "2 M + R >= 2 H(A)", "2 M + 2 R >= 3 H(A)", "M + 2 R >= 2 H(A)", "R >= 0"])
        corners, faces = self.corners(caching(2, 3, [(1, 1, 2), (1, 2, 1), (2, 1, 1)]), M, R, H(A))
        self.assertEqual(corners, [(0, 2), (F(1, 3), F(4, 3)), (F(4, 3), F(1, 3)), (2, 0)])
        self.assertEqual(faces[1:-1], ["2 M + R >= 2 H(A)", "3 M + 3 R >= 5 H(A)", "M + 2 R >= 2 H(A)"])

    def test_regenerating(self):
        # Dimakis, Godfrey, Wu, Wainwright and Ramchandran 2010
        a, b = rates("A B")
        corners, _ = self.corners(regenerating(3, 2, 2), a, b, H(*rv("W1 W2")))
        self.assertEqual(corners, [(F(1, 2), F(1, 2)), (F(2, 3), F(1, 3))])

    def test_slepian_wolf(self):
        """The rates of two sources that determine each other, and of one that is asked of no rate."""
        curve = tradeoff(R, S, H(X, Y), ["R >= H(X|Y)", "S >= H(Y|X)", "R + S >= H(X,Y)", "H(X|Y) = H(Y|X)", "I(X;Y) = H(X|Y)"])
        self.assertEqual([(c.x, c.y) for c in curve.corners], [(F(1, 3), F(2, 3)), (F(2, 3), F(1, 3))])
        self.assertEqual(str(curve).split("\n")[-1], "corners (1/3, 2/3), (2/3, 1/3)")

    def test_faults(self):
        with self.assertRaisesRegex(ItipError, "nothing bounds R and S from below"):
            tradeoff(R, S, H(X), [R + S >= H(X)])
        with self.assertRaisesRegex(ItipError, "always 0"):
            tradeoff(R, S, H(X), [R >= 0, S >= 0, H(X) == 0])
        with self.assertRaisesRegex(ItipError, "undecided pivots 1"):
            caching(2, 2, [(1, 2), (2, 1)]).tradeoff(M, R, H(A), pivots=1, program=BLAND)

    def test_calls(self):
        """A curve takes one call of mode `outer`; without it all edges of a round go into one call, as test_outer has it."""
        program = Itip()
        curve = caching(2, 2, [(1, 2), (2, 1)]).tradeoff(M, R, H(A), program=program)
        self.assertEqual((curve.questions, curve.calls, program.calls), (1, 1, 1))


class Networks(unittest.TestCase):
    BUTTERFLY = [("s", "a"), ("s", "b"), ("a", "t1"), ("a", "c"), ("b", "c"), ("b", "t2"), ("c", "d"), ("d", "t1"), ("d", "t2")]

    def butterfly(self, **settings):
        return network([(*edge, N) for edge in self.BUTTERFLY], {"s": "X Y"}, {"t1": "X Y", "t2": "X Y"}, **settings)

    def test_butterfly(self):
        # Ahlswede, Cai, Li and Yeung 2000
        made = self.butterfly()
        self.assertEqual(len([line for line in made.given if line.text().startswith("func E")]), 3)
        self.assertEqual(made.labels["E7"], "c to d, d to t1, d to t2")
        self.assertEqual(made.best(N, H(X, Y)).bound, F(1, 2))
        self.assertEqual(len([line for line in self.butterfly(merge=False).given if line.text().startswith("func E")]), 9)

    def test_merged(self):
        """Without merging the bound is the same: two of the edges that a node forwards by itself."""
        for merge in (True, False):
            made = network([("s", "a", N), ("a", "t", N), ("s", "b", N), ("b", "t", N)], {"s": "X"}, {"t": "X"}, merge=merge)
            self.assertEqual(made.best(N, H(X)).bound, F(1, 2))

    def test_networkx(self):
        try:
            import networkx
        except ImportError:
            self.skipTest("networkx isn't there")
        graph = networkx.DiGraph()
        graph.add_edges_from(self.BUTTERFLY, capacity=N)
        self.assertEqual(str(network(graph, {"s": "X Y"}, {"t1": "X Y", "t2": "X Y"}).best(N, H(X, Y)).bound), "1/2")

    def test_vamos(self):
        # after Dougherty, Freiling and Zeger 2007: Shannon's inequalities alone leave the bound 1
        a, b, c, d = rv("a b c d")
        edges = [
            Edge("w", "W", ("X", "Z", "t2", "t4", "t5", "t6"), N), Edge("y", "Y", ("Z", "t1", "t3", "t6"), N),
            Edge("x", "X", ("Z", "t2", "t5"), N), Edge("z", "Z", ("t1", "t3", "t4", "t5"), N),
        ]
        sources = {"W": "a b c d", "Y": "a b c d", "X": "a b", "t1": "b", "t2": "c", "t3": "d", "t4": "a b", "t5": "c", "t6": "c d"}
        made = network(edges, sources, {"t1": "a", "t2": "d", "t3": "c", "t4": "c", "t5": "b", "t6": "b"})
        equal = [H(a) == H(b), H(b) == H(c), H(c) == H(d)]
        self.assertTrue(made.prove(H(a) <= N, equal))
        self.assertFalse(made.prove(15 * H(a) <= 14 * N, equal))

    def test_edges_without_capacity(self):
        made = network([("s", "a"), ("s", "b", N), ("a", "b", N), ("b", "t")], {"s": "X"}, {"t": "X"})
        self.assertEqual(str(made), "func E2 of X\nfunc E3 of X\nfunc X of E2,E3\nH(E2) <= N\nH(E3) <= N")
        self.assertEqual(made.best(N, H(X)).bound, F(1, 2))

    def test_faults(self):
        for make, said in [
            (lambda: network([("a", "b"), ("b", "a")], {"a": "X"}, {}), "cycle"),
            (lambda: network([("a", "b")], {"c": "X"}, {}), "nothing arrives at 'a'"),
            (lambda: network([("a", "b")], {"a": "X"}, {"c": "X"}), "nothing arrives at 'c'"),
            (lambda: network([Edge("X", "a", ("b",), N)], {"a": "X"}, {}), "names two things"),
        ]:
            with self.assertRaisesRegex(NotationError, said):
                make()

    def test_index_coding(self):
        # Blasiak, Kleinberg and Lubetzky 2010: the pentagon needs 5/2 of a message
        pentagon = index_coding({"A": "E B", "B": "A C", "C": "B D", "D": "C E", "E": "D A"})
        self.assertEqual(pentagon.best(H(rv("P")[0]), rates("L")[0]).bound, F(5, 2))

    def test_copies(self):
        # with the copy of Zhang and Yeung less can be missing in Ingleton's inequality
        lacks = I(C & D) - I(C & D | A) - I(C & D | B) - I(A & B)
        shannon = Problem(()).best(H(A, B, C, D), lacks)
        copied = Problem(()).best(H(A, B, C, D), lacks, copies=[copy(rv("R")[0], A, C + D)])
        self.assertEqual(shannon.value, F(1, 4))
        self.assertLess(copied.value, shannon.value)


def load_tests(loader, tests, pattern):
    tests.addTests(doctest.DocTestSuite(itip.curves))
    return tests
