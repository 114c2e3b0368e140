"""LaTeX: of formulas, and of what is told. told.tex is what another program, a script in awk, once made of told.txt for `./ask --latex`,
but for answers 13 and 14, which were compared by eye."""

import doctest
import hashlib
import tempfile
import unittest
from pathlib import Path

import itip.latex
import itip.stated
from itip import H, I, aligned, rates, rv
from itip.latex import Names, is_relation
from itip.paper import typeset
from itip.stated import signature, stated

from .test_ask import EXAMPLES, PATH, ROOT, Asks

HERE = Path(__file__).resolve().parent


class Latex(unittest.TestCase):
    def test_told(self):
        self.assertEqual(typeset((HERE / "told.txt").read_text()), (HERE / "told.tex").read_text())

    def test_factors(self):
        """What the first lines of mode `best` say."""
        for told, said in [
            ("1 best 1/2\n  H(X) - 2 H(Y) = H(X|Y)\n  Y constant\n", "The least factor is $1/2$: it holds by the proof"),
            ("1 none\n  X constant, H(Y) = 1\n", "No factor holds: "),
            ("1 unbounded -1/1\n  0 = 0\n  0 = 0\n", "The factor $-1/1$ holds, and so does each smaller number"),
        ]:
            self.assertTrue(typeset(told).startswith(rf"\paragraph{{1.}} {said}"), told)
        self.assertEqual(typeset("3 undecided size\n"), "\\paragraph{3.} This stayed undecided: \\texttt{size}.\n")

    def test_alike(self):
        """A point by some of its values, and by the maps under which other sets are like these."""
        text = typeset("1 no\n  as point h(X)=2 h(X,Y)=3 R=1 alike X->Y Y->X, Z_1->X X->Z_1\n")
        self.assertIn("h(X) &= 2, & h(X,Y) &= 3, & R &= 1\n", text)
        said = r"under $X \mapsto Y,\ Y \mapsto X$ and under $Z_{1} \mapsto X,\ X \mapsto Z_{1}$."
        self.assertIn(f"Each set has the value of its image {said}", text)
        self.assertNotIn("Any other set", text)

    def test_closed(self):
        """A point of eleven names by the values of closed sets."""
        names = "A,B,C,D,E,F,G,J,K"
        values = f"h({names})=0 h({names},X)=2 h({names},X,Y)=3"
        said = "Any other set has the value of the least set around it that has one.\n"
        for maps, before in (("", "\\end{align*}\n"), (" alike X->Y Y->X", r"under $X \mapsto Y,\ Y \mapsto X$." + "\n")):
            self.assertTrue(typeset(f"1 no\n  as point {values}{maps}\n").endswith(before + said), maps)

    def test_nothing(self):
        self.assertEqual((typeset(""), typeset("\n")), ("", "\\par{\\raggedright\\texttt{}\\par}\n"))

    def test_names_alike(self):
        """Of two names that would look alike the second is set as it is written, in all of a formula."""
        x, other = rv("X1 X_1")
        rate, = rates("R")
        self.assertEqual((H(x) <= I(x & other) + rate).latex(), r"H(X_{1}) \le I(X_{1};\mathit{X\_1}) + R")
        self.assertIn(r"H(\mathit{X\_1}) &\ge 0", aligned([H(x) >= 0, H(other) >= 0]))

    def test_relations(self):
        for text in ("X >= 0", "- H(X) = - 2 I(X;Y|Z) + 3 R", ">= 0", "0 = 0", "h(X) <= R = 0"):
            self.assertTrue(is_relation(text), text)
        for text in ("", "X", "X >=", "X >= 0 1", "X + = 0", "+ X = 0", "X = 1/2 Y", "X constant", "func Z of X", "H(X) == 0", "= ="):
            self.assertFalse(is_relation(text), text)


    def test_fractions(self):
        self.assertIn(r"H(X) &\le \tfrac{1}{2}\,H(X,Y) + R", aligned([H(*rv("X")) <= H(*rv("X Y")) / 2 + rates("R")[0]]))


class Questions(Asks):
    def stated(self, text, mode="answer"):
        return "\n".join(stated(text, Names(), mode))

    def test_prove(self):
        text = "vars X, Y, Z1\nrates R\ngiven markov X -> Y -> Z1\ngiven H(X|Y)>=0\ngiven indep X; Y | Z1\ngiven func X, Y of Z1\nrow R<=1/2I(X;Y)\nprove 2R -H( Z1 ) <= 0\n"
        due = (
            r"Random variables $X$, $Y$, $Z_{1}$. Rates $R$. Given: $X \to Y \to Z_{1}$, $X \perp Y\mid Z_{1}$, $H(X,Y\mid Z_{1}) = 0$, and",
            r"\begin{align*}", r"  H(X\mid Y) &\ge 0 \\", r"  R &\le \tfrac{1}{2}\,I(X;Y)", r"\end{align*}",
            "Asked is whether", r"\begin{align*}", r"  2 R - H(Z_{1}) &\le 0", r"\end{align*}",
        )  # fmt: skip
        self.assertEqual(self.stated(text), "\n".join(due))

    def test_contain(self):
        text = "vars X, Y\nrates R\nrow R >= 0\nregion\nrow R <= I(X;Y)\nregion\naux U, V\ngiven markov U -> X -> Y\nrow R <= I(U;Y)\ntry U := X; V := 0\ncontain\n"
        due = (
            "Random variables $X$, $Y$. Rates $R$. Given:", r"\begin{align*}", r"  R &\ge 0", r"\end{align*}",
            "The first region:", r"\begin{align*}", r"  R &\le I(X;Y)", r"\end{align*}",
            r"The second region: Auxiliary variables $U$, $V$. Given: $U \to X \to Y$, and", r"\begin{align*}", r"  R &\le I(U;Y)", r"\end{align*}",
            "Asked is whether the first region lies in the second.",
        )  # fmt: skip
        self.assertEqual(self.stated(text), "\n".join(due))

    def test_modes(self):
        goal = "\n\\begin{align*}\n  H(A) &\\ge H(B)\n\\end{align*}"
        self.assertEqual(
            self.stated("copy R of A over C, D\ncopy S of R over 0\nvars A, B, C, D\nprove H(A) >= H(B)\n", "copy"),
            "Random variables $A$, $B$, $C$, $D$. Given: $R$ a copy of $A$ over $C,D$, $S$ a copy of $R$ over no variable.\nAsked is whether" + goal,
        )
        least = "Asked is the least $c$ with $c$ times the left side at least the right side:"
        self.assertEqual(self.stated("vars A, B\nprove H(A) >= H(B)\n", "best"), f"Random variables $A$, $B$.\n{least}{goal}")
        bound = "Random variables $A$. Rates $R$, $S$. Given:\n\\begin{align*}\n  R &\\ge H(A)\n\\end{align*}\nAsked are all bounds on the rates other than $S$."
        self.assertEqual(self.stated("vars A\nrates R, S\nrow R >= H(A)\neliminate S\n", "outer"), bound)
        shared = "The secret $s$. Parties $a$, $b$, $c$, $d$. Given: $\\{a,b\\}$ qualified, $\\{b,c\\}$ qualified, $\\{c,d\\}$ qualified.\n"
        self.assertEqual(self.stated(f"{PATH}best H(A) >= H(B)\n", "sharing"), f"{shared}{least}{goal}")

    def test_page(self):
        """docs/guide/ask.md has what is written of the region of Slepian and Wolf, but for the program."""
        page = (ROOT / "docs" / "guide" / "ask.md").read_text()
        signed, *told = self.asks((EXAMPLES / "slepian-wolf-binning.txt").read_text(), "--latex")
        first = told[: next(place for place, line in enumerate(told) if line.startswith(r"\paragraph{2.}"))]
        self.assertIn("and none where that is too few\n" + "\n".join(first) + "\n```\n", page)
        self.assertRegex(signed, "^% answered by the program itip (of commit [0-9a-f]{40}|with the SHA-256 [0-9a-f]{64}).*; asked with --run quick --pivots 20000, and")

    def test_each_file(self):
        """Who answered is said once, above all files, and each answer has its question."""
        one, two = self.file("vars X\nprove H(X) >= 0\n"), self.file("vars Y\nprove H(Y) >= 0\nprove H(Y) = 0\n")
        told = self.ask("--latex", "--document", one, two)[1]
        self.assertEqual((told.count("% answered"), told.count("Asked is whether"), told.count(r"\paragraph")), (1, 3, 3))
        self.assertTrue(told.startswith("\\documentclass"))

    def test_signature(self):
        """The commit and the kit are those that are noted with just this program's sum."""
        with tempfile.TemporaryDirectory() as folder:
            program, dist = Path(folder) / "itip", Path(folder) / "dist"
            program.write_bytes(b"a program")
            (dist / "out").mkdir(parents=True)
            (Path(folder) / "docs").mkdir()
            found = hashlib.sha256(b"a program").hexdigest()
            here = str(program), f"{folder}/docs"
            unknown = f"% answered by the program itip with the SHA-256 {found}; asked with --run bland --pivots 7\n"
            words = {"--run": "bland", "--pivots": "7"}
            self.assertEqual(signature(*here, words), unknown)
            (dist / "built-from").write_text(f"commit older\nkit k 1\nitip {'0' * 64}\n")
            self.assertEqual(signature(*here, words), unknown)
            (dist / "out" / "passed").write_text(f"commit newer\nkit k 2\nitip {found}\n")
            built = Path(folder) / "crates" / "itip" / "out" / "itip"
            built.parent.mkdir(parents=True)
            built.write_bytes(b"another one")
            self.assertIn(", proved and built in this checkout; ", signature(str(built), here[1], words))
            usual = "--run quick --pivots 20000, and none where that is too few"
            self.assertEqual(signature(*here, {"--run": "quick"}), f"% answered by the program itip of commit newer, proved by k 2; asked with {usual}\n")


def load_tests(loader, tests, pattern):
    tests.addTests(doctest.DocTestSuite(itip.latex))
    tests.addTests(doctest.DocTestSuite(itip.stated))
    return tests
