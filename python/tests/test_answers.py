"""Answers: compared with docs/guide/answers.md, the examples' stored answers, the literature, and the verdicts of `itip check`."""

import doctest
import subprocess
import sys
import time
import unittest
from pathlib import Path

import itip.asking
from itip import (
    Contained, H, I, Itip, No, NotationError, Open, Projected, Refused, Undecided, UndecidedError, Yes, ask, configure, func, indep,
    markov, prove, prove_all, rates, rv,
)

from .programs import BLAND

ROOT = Path(__file__).resolve().parents[2]
W, X, Y, Z = rv("W X Y Z")
A, B, C, D = rv("A B C D")
R, = rates("R")
ZHANG_YEUNG = "2 I(C;D) <= I(A;B) + I(A;C,D) + 3 I(C;D|A) + I(C;D|B)"


class Answers(unittest.TestCase):
    def test_yes(self):
        answer = prove(I(X & Z) <= I(X & Y), given=markov(X, Y, Z))
        self.assertIsInstance(answer, Yes)
        self.assertTrue(answer)
        # the worked example of docs/guide/answers.md
        self.assertEqual(answer.certificate.text(), "1 : 1 I(X;Y|Z) + -1 given 1")
        self.assertTrue(answer.certificate.adds_up())
        self.assertEqual(answer.check(), "valid")
        self.assertEqual([r.text() for r in answer.proof], ["I(X;Y) - I(X;Z) = I(X;Y|Z) - I(X;Z|Y)"])
        self.assertTrue(answer.proof[0].target().same(0 * H(X)))
        self.assertIn(r"I(X;Y\mid Z)", answer._repr_html_())
        self.assertIn(r"\begin{align*}", answer.latex())

    def test_no(self):
        answer = prove("H(X) >= H(X,Y)")
        self.assertIsInstance(answer, No)
        self.assertFalse(answer)
        self.assertEqual(repr(answer), "no h(X)=0 h(Y)=1 h(X,Y)=1")  # docs/guide/answers.md
        self.assertEqual((answer.point[H(Y | X)], answer.point[I(X & Y) - H(X) / 2]), (1, 0))
        self.assertEqual(answer.check(), "valid")
        self.assertIn("<th>h(X,Y)</th>", answer.point._repr_html_())
        with self.assertRaisesRegex(NotationError, "doesn't name"):
            answer.point[H(Z)]
        self.assertEqual(prove("H(X) >= H(X,Y)", about=[H(Z) + R]).point.variables, ("X", "Y", "Z"))

    def test_rates(self):
        answer = prove(R >= 0, given=[2 * R >= H(X)])
        self.assertEqual(repr(answer), "yes 2 : 1 H(X) + 1 row 1")  # docs/guide/answers.md, with A for R
        self.assertTrue(answer.certificate.adds_up())
        self.assertLess(prove(R >= 0).point[R], 0)
        self.assertTrue(prove("X >= X").question.startswith("vars Y\nrates X\n"))
        with self.assertRaisesRegex(NotationError, "a variable and a rate"):
            prove(H(X) <= rates("X")[0])

    def test_equation(self):
        answer = prove(H(X | Y) == H(Y | X), given=H(X) == H(Y))
        self.assertEqual([c.text() for c in answer.certificates], ["1 : 1 given 1", "1 : -1 given 1"])  # docs/guide/answers.md
        self.assertTrue(all(c.adds_up() for c in answer.certificates))
        self.assertEqual(prove("H(X,Y) = H(X)").side, "back")

    def test_denominators(self):
        """They count as they are written (docs/reference/grammar.md)."""
        for text in ("2/4 H(X) >= 0", "1/2 H(X) + 1/3 H(Y) >= 1/6 H(X,Y)", "H(X) + 0/5 H(Y) >= 1/3 H(X) - 2/6 H(X)"):
            for answer in (prove(text), *ask(f"vars X, Y\ngiven 3/6 H(X) >= 0\nprove {text}\n")):
                self.assertTrue(answer.certificate.adds_up(), text)

    def test_as_stored(self):
        """The answers of the examples, with the program's names of generators, certificates that add up, and verdicts."""
        names = ["tables/constraints", "tables/rates", "tables/relations", "chain-rule", "slepian-wolf", "degraded-broadcast"]
        for name in names:
            path = ROOT / "examples" / name
            answers = ask(path.with_suffix(".txt").read_text(), program=BLAND)
            lines = path.with_suffix(".out").read_text().splitlines()
            stored = [line for line in lines if line.split(" ")[2:3] not in (["needed"], ["unsettled"])]
            self.assertEqual(len(answers), len(stored))
            for answer, line in zip(answers, stored):
                self.assertEqual(repr(answer), line.partition(" ")[2], name)
                self.assertIn(answer.check(), ("valid", "skipped"))
                for certificate in answer.certificates if isinstance(answer, Yes) else ():
                    self.assertTrue(certificate.adds_up(), answer.question)

    def test_literature(self):
        self.assertTrue(prove(H(X, Y) + H(Y, Z) + H(X, Z) >= 2 * H(X, Y, Z)))  # Han; Shearer
        self.assertTrue(prove(H(Z | X) == 0, given=[func(Y, of=X), func(Z, of=Y)]))
        self.assertTrue(prove(H(X, Y, Z | W) == H(X | W) + H(Y | W) + H(Z | W), given=indep(X, Y, Z, given=W)))
        ingleton = I(A & B) <= I(A & B | C) + I(A & B | D) + I(C & D)
        self.assertIsInstance(prove(ingleton), No)
        self.assertTrue(prove(ingleton, given="I(A;B|C) = 0\nI(A;B|D) = 0\nI(C;D) = I(A;B)"))
        self.assertIsInstance(prove(ZHANG_YEUNG), No)  # it holds for entropies, and isn't Shannon's

    def test_region(self):
        slepian_wolf = "vars X, Y\nrates R, Q, S, T\nrow S >= H(X)\nrow T >= H(Y)\nrow S - R <= I(X;Y)\nrow T - Q <= I(X;Y)\n"
        region, = ask(slepian_wolf + "row S - R + T - Q <= I(X;Y)\neliminate S, T\n")
        self.assertIsInstance(region, Projected)
        self.assertEqual([r.text() for r in region.rows], ["R >= H(X|Y)", "Q >= H(Y|X)", "R + Q >= H(X,Y)"])
        self.assertTrue(all(row.target().same(total) for row, total in zip(region.rows, region.sums)))
        self.assertEqual((region.marks, region.check()), (("needed",) * 3, "skipped"))
        with self.assertRaises(NotationError):
            bool(region)

    def test_containment(self):
        text = "vars X, Y\nrates R\nregion\nrow R <= I(X;Y)\nregion\naux U\ngiven markov U -> X -> Y\nrow R <= I(U;Y)\ncontain\n"
        contained, = ask(text)
        self.assertIsInstance(contained, Contained)
        self.assertEqual((contained.substitution, contained.check()), ({"U": ("X",)}, "valid"))
        still, = ask("vars X, Y\nrates R\nregion\nrow R <= H(X,Y)\nregion\nrow R <= H(X)\ncontain\n")
        self.assertIsInstance(still, Open)
        with self.assertRaises(UndecidedError):
            bool(still)

    def test_undecided(self):
        answer = prove(ZHANG_YEUNG, program=BLAND, pivots=1)
        self.assertEqual((type(answer), answer.word), (Undecided, "undecided pivots 1"))
        with self.assertRaisesRegex(UndecidedError, "neither yes nor no"):
            bool(answer)
        self.assertIsInstance(answer.again(), No)

    def test_names(self):
        """Eleven names, which determine each other, are read where they are allowed."""
        self.addCleanup(configure, names=None)
        names = "ABCDEFGJKLM"
        same = "".join(f"given func {after} of {name}\ngiven func {name} of {after}\n" for name, after in zip(names, names[1:]))
        text = f"vars {', '.join(names)}\n{same}prove H(M) >= H(A)\n"
        with self.assertRaisesRegex(Refused, "many"):
            ask(text)
        for answers in (ask(text, program=Itip(names=11)), ask(text, program=Itip(names=16, run="bland"))):
            self.assertEqual([(type(answer), answer.check()) for answer in answers], [(Yes, "valid")])
        configure(names=11)
        self.assertIsInstance(prove(H(A) >= 0), Yes)

    def test_told(self):
        """The steps of docs/guide/ask.md."""
        answer = prove(H(A, B, C) + H(B, C, D) + H(A, C, D) + H(A, B, D) >= 3 * H(A, B, C, D))
        self.assertEqual([line.partition(" = ")[0].strip() for line in answer.tell(steps=True)[1:2]], ["I(A;B,C,D) + I(B;C,D|A)"])
        self.assertEqual(len(answer.proof), 1)
        self.assertTrue(answer.proof[0].target().same(0 * H(A)))

    def test_settings(self):
        self.addCleanup(configure, run="quick", pivots="usual")
        configure(run="bland", pivots=1)
        self.assertIsInstance(prove(ZHANG_YEUNG), Undecided)
        with self.assertRaisesRegex(TypeError, "no setting"):
            configure(pivot=1)


class Many(unittest.TestCase):
    RELATIONS = [k * H(A, B) + H(B, C) + k * H(C, D) >= H(A, B, C, D) for k in range(1, 1101)]

    def test_batch(self):
        program = Itip()
        answers = prove_all(self.RELATIONS, program=program)
        self.assertEqual((len(answers), program.calls), (1100, 2))
        self.assertTrue(all(answers))

    def test_cost(self):
        """1,000 questions cost the package well below a second of the processor; the program's own time isn't counted."""
        began = time.process_time()
        prove_all(self.RELATIONS[:1000])
        self.assertLess(time.process_time() - began, 0.6)

    def test_import(self):
        """The import needs nothing but the standard library."""
        loaded = "import sys, itip; print(*{m.partition('.')[0] for m in sys.modules} - sys.stdlib_module_names - {'__main__'})"
        if sys.version_info >= (3, 10):
            done = subprocess.run([sys.executable, "-S", "-c", loaded], capture_output=True, text=True, check=True)
            self.assertEqual(done.stdout.strip(), "itip")


def load_tests(loader, tests, pattern):
    tests.addTests(doctest.DocTestSuite(itip))
    tests.addTests(doctest.DocTestSuite(itip.asking))
    tests.addTests(doctest.DocFileSuite(str(ROOT / "docs" / "guide" / "python.md"), module_relative=False))
    return tests
