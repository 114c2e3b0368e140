"""Regions, factors, sharing and copies: against the literature, and against the program's own modes."""

import doctest
import unittest
from fractions import Fraction

import itip.factors
import itip.regions
from itip import (
    H, I, ItipError, No, NotationError, Open, Refused, UndecidedError, best, contained, copy, func, indep, markov, prove, rates, region,
    relation, rv, sharing,
)
from itip.program import default

from .programs import BLAND

X, Y, Z, U, V = rv("X Y Z U V")
A, B, C, D = rv("A B C D")
R, S, T, Q = rates("R S T Q")


class Regions(unittest.TestCase):
    BINNED = region(S >= H(X), T >= H(Y), S - R <= I(X & Y), T - Q <= I(X & Y), S - R + T - Q <= I(X & Y))

    def test_slepian_wolf(self):
        found = self.BINNED.eliminate(S, T)
        self.assertEqual(str(found), "R >= H(X|Y)\nQ >= H(Y|X)\nR + Q >= H(X,Y)")
        self.assertEqual(found.marks, ("needed",) * 3)
        for row in range(3):
            self.assertIsInstance(found.why_needed(row), No)
        self.assertEqual([found.why_needed(0).point[rate] for rate in (R, Q)], [-1, 1])  # docs/guide/ask.md
        self.assertTrue(region(*found.rows, R >= 0).why_needed(3))
        self.assertIn(r"H(X\mid Y)", found._repr_html_())
        self.assertIn(r"R &\ge H(X\mid Y)", found.latex())

    def test_eliminated(self):
        """A region that was eliminated is one like any other: each of its rates may go next."""
        rest = self.BINNED.eliminate(S, T).eliminate(Q)
        self.assertEqual(str(rest), "R >= H(X|Y)")
        with self.assertRaisesRegex(NotationError, "no rate"):
            self.BINNED.eliminate(2 * S)
        with self.assertRaises(Refused):
            rest.eliminate(Q)
        rows = [R + k * S <= k * k * H(X) for k in range(1, 6)] + [k * R - S <= H(Y) for k in range(1, 6)]
        with self.assertRaisesRegex(ItipError, "undecided rows S"):
            region(*rows).eliminate(S, most_rows=1)

    def test_given(self):
        """What is given isn't listed; what is given of rates is a row."""
        found = region("R <= H(X)", "R <= H(Y)", "S <= R", given=["func Y of X", "func X of Y", "S >= 0"]).eliminate(S)
        self.assertEqual(str(found), "R <= H(Y)\nR >= 0")

    def test_contained(self):
        inner, outer = region(R <= I(X & Y)), region(R <= I(U & Y), given=markov(U, X, Y), aux=U)
        answer = contained(inner, outer)
        self.assertEqual((answer.word, answer.check()), ("contained U:=X", "valid"))  # docs/guide/answers.md
        self.assertEqual(contained(inner, outer, attempts=[{U: X}]).substitution, {"U": ("X",)})
        # superposition coding for a degraded broadcast channel (docs/guide/first-questions.md)
        cloud = region(S <= I(U & Z), R <= I(X & Y | U), given=markov(U, X, Y + Z), aux=U)
        both = region(
            S <= I(V & Z), R + S <= I(V & Z) + I(X & Y | V), R + S <= I(X & Y), given=markov(V, X, Y + Z), aux=V
        )
        self.assertEqual(contained(cloud, both, given=markov(X, Y, Z)).word, "contained V:=U")
        still = contained(outer, region(R <= 0), tries=1)
        self.assertIsInstance(still, Open)
        with self.assertRaises(UndecidedError):
            bool(still)


class Factors(unittest.TestCase):
    def test_like_the_mode(self):
        for greater, less, given in [
            (H(X, Y) + H(Y, Z) + H(X, Z), H(X, Y, Z), []),  # 1/2: Han
            (H(X), H(X | Y), []),
            (H(A, B) + H(C, D), I(A & B), [indep(A, C)]),
            (R, H(X, Y), [R >= H(X), R >= H(Y)]),
            (H(X), H(X) - H(X, Y), []),  # 0
            (I(X & Y), H(X | Y) - H(X), []),  # -1
        ]:
            found = best(greater, less, given)
            line = default().itip(["best"], prove(greater >= less, given).question)
            self.assertEqual(line.split()[:3], ["1", "best", f"{found.value.numerator}/{found.value.denominator}"])
            self.assertEqual(found.check(), "valid")
            self.assertTrue(found.holds.certificate.adds_up())
            self.assertEqual(found.value * found.point[greater], found.point[less])
        nothing = best(H(X), H(Y))
        self.assertEqual((nothing.value, nothing.check()), (None, "valid"))
        # a left side with both signs: c E >= -E says (c + 1) E >= 0
        self.assertEqual(best(I(X & Y) - I(X & Y | Z), I(X & Y | Z) - I(X & Y)).value, -1)
        self.assertEqual(default().itip(["best"], prove(H(X) >= H(Y)).question).split()[1], "none")

    def test_no_factor(self):
        with self.assertRaisesRegex(ItipError, "every number is a factor"):
            best(H(X), -H(Y), [H(X) == 0])
        with self.assertRaisesRegex(ItipError, "undecided pivots 1"):
            best(H(X, Y) + H(Y, Z) + H(X, Z), H(X, Y, Z), pivots=1, program=BLAND)

    def test_large(self):
        """Nine variables, which the defined run of mode `best` can't do, with functions."""
        names = rv("A B C D E F G J K")
        given = [func(b, of=a) for a, b in zip(names, names[1:])]
        self.assertEqual(best(H(names[0]), H(*names), given).value, 1)


class Secrets(unittest.TestCase):
    def test_path(self):
        # Capocelli, De Santis, Gargano and Vaccaro 1993
        s, a, b, c, d = rv("s a b c d")
        path = sharing(s, a + b, b + c, c + d)
        self.assertEqual(path.best(H(b) + H(c), H(s)).bound, 3)
        self.assertEqual(path.worst_share().bound, Fraction(3, 2))
        asks = "prove H(b) + H(c) >= 3 H(s)"
        sets, answer = default().itip(["sharing"], path.file(asks)).splitlines()
        self.assertEqual(sets, f"sharing {len(path.minimal())} {len(path.maximal())}")
        made = "vars s, a, b, c, d\n" + "".join(f"given {line}\n" for line in path.given()) + asks + "\n"
        self.assertEqual(default().itip(["answer"], made).strip(), answer)
        self.assertEqual(answer[:5], "1 yes")
        self.assertTrue(path.prove(H(b) + H(c) >= 3 * H(s)))

    def test_sets(self):
        s, a, b, c = rv("s a b c")
        made = sharing(s, a + b, a + b + c, b + a, parties=[c, a, b])
        self.assertEqual((made.parties, made.minimal(), made.maximal()), (("c", "a", "b"), [("a", "b")], [("c", "a"), ("c", "b")]))
        self.assertTrue(made.knows("cba"))
        self.assertFalse(made.knows("ca"))
        for wrong in (lambda: sharing(s, s + a), lambda: sharing(s), lambda: sharing(s, ())):
            with self.assertRaises(NotationError):
                wrong()

    def test_threshold(self):
        """Any two of three: shares as large as the secret do (Shamir 1979), and are needed (Karnin, Greene and Hellman 1983)."""
        s, a, b, c = rv("s a b c")
        self.assertEqual(sharing(s, a + b, b + c, a + c).worst_share().bound, 1)


class Copies(unittest.TestCase):
    ZHANG_YEUNG = relation("2 I(C;D) <= I(A;B) + I(A;C,D) + 3 I(C;D|A) + I(C;D|B)")

    def test_like_the_mode(self):
        one, other = rv("R S")
        for copies in ([copy(one, A, C + D)], [copy(one, A, B + C), copy(other, one, A + C)], [copy(one, A)]):
            head = "".join(made.text() + "\n" for made in copies)
            mode = default().itip(["copy"], head + prove(self.ZHANG_YEUNG).question)
            answer = prove(self.ZHANG_YEUNG, copies=copies)
            self.assertEqual(mode, default().itip(["answer"], answer.question))
            self.assertEqual(answer.check(), "valid")

    def test_zhang_yeung(self):
        one, = rv("R")
        self.assertFalse(prove(self.ZHANG_YEUNG))
        answer = prove(self.ZHANG_YEUNG, copies=[copy(one, A, C + D)])
        self.assertTrue(answer)
        self.assertTrue(answer.certificate.adds_up())
        self.assertTrue(prove(I(X & Y) >= 0, about=[H(Z)], copies=[copy(one, X, Z)]))

    def test_faults(self):
        one, = rv("R")
        for made, said in [(copy(A, B), "name of its own"), (copy(one, A, A + B), "isn't in the set"), (copy(one, A, X), "no variable X")]:
            with self.assertRaisesRegex(NotationError, said):
                prove(self.ZHANG_YEUNG, copies=[made])


def load_tests(loader, tests, pattern):
    tests.addTests(doctest.DocTestSuite(itip.factors))
    tests.addTests(doctest.DocTestSuite(itip.regions))
    return tests
