"""Outer bounds: by ./ask and as objects, against the literature's rows and rays in examples/outer, and programs that lie."""

import doctest
import json
import re
import unittest
from fractions import Fraction as F
from importlib.util import module_from_spec, spec_from_file_location
from pathlib import Path

import itip.bounds
import itip.outer
from itip import (
    H, I, Forged, ItipError, NotationError, Problem, caching, copy, func, indep, index_coding, outer_bound, rates, regenerating, region, rv,
)
from itip.ask import grouped
from itip.outer import BoundLines, RayLine, RowLine, staying, told_rays
from itip.program import default
from itip.questions import parse
from itip.reading import relation
from itip.reports import cut

from .programs import BLAND, FEW_STEPS, WithPrograms
from .test_ask import ANEW, EXAMPLES, USAGE, Asks

OUTER = EXAMPLES / "outer"
A, B, C, K, X, Y, Z = rv("A B C K X Y Z")
M, R, S, Q = rates("M R S Q")
# perfect secrecy, as examples/outer/perfect-secrecy.txt has it (Shannon 1949)
SECRECY = (OUTER / "perfect-secrecy.txt").read_text()
RAYS = re.compile(r"(ray|line) (?:\((.*)\)|(\w+)) = \(?(.*?)\)?")


def independent(name):
    """A module of examples/independent."""
    spec = spec_from_file_location(f"independent_{name}", EXAMPLES / "independent" / f"{name}.py")
    module = module_from_spec(spec)
    spec.loader.exec_module(module)
    return module


class Literature:
    """The rows and rays of NAME.rows, by the numbers of the questions."""

    def __init__(self, name):
        self.questions = [parse(text) for text in cut((OUTER / f"{name}.txt").read_text())[1:]]
        self.lines = re.findall("(?m)^([0-9]+) (row|ray) (.*)$", (OUTER / f"{name}.rows").read_text())

    def rows(self, number):
        names = staying(self.questions[number - 1])
        return [vector(relation(text), names) for own, word, text in self.lines if (own, word) == (str(number), "row")]

    def rays(self, number):
        return [
            tuple(int(value) for value in re.findall("=(-?[0-9]+)", text))
            for own, word, text in self.lines
            if (own, word) == (str(number), "ray")
        ]


def vector(said, names):
    """What a relation of rates says is at least 0, by its numbers."""
    total = said.target().joint()
    assert set(total) <= set(names), said
    return tuple(int(total.get(name, 0)) for name in names)


class Command(Asks):
    def told(self, lines, names):
        """The vectors of the rows and of the rays that lines tell, a line's in both directions."""
        rows, rays = [], []
        for line in lines:
            found = RAYS.fullmatch(line.strip())
            if not found:
                rows.append(vector(relation(line.partition("#")[0]), names))
                continue
            word, several, one, numbers = found.groups()
            self.assertEqual((several or one).split(", "), list(names))
            ray = tuple(int(number) for number in numbers.split(", "))
            rays += [ray, *([tuple(-number for number in ray)] if word == "line" else [])]
        return rows, rays

    def test_literature(self):
        """Each file of examples/outer has its rows, and its rays where some are due, up to what determines neither."""
        cones, bounds = independent("cones"), 0
        for path in sorted(OUTER.glob("*.txt")):
            if path.stem == "regenerating-code-433":  # which takes long
                continue
            due = Literature(path.stem)
            words = path.with_suffix(".words").read_text().split()
            names = words[words.index("--names") :][:2] if "--names" in words else []
            status, told, _ = self.ask("--outer", *names, str(path))
            answers = grouped(told)
            self.assertEqual((status, len(answers)), (0, len(due.questions)))
            for number, ((first, *below), asked) in enumerate(zip(answers, due.questions), 1):
                if first == f"{number} other":
                    continue
                names = staying(asked)
                rows, rays = self.told(below, names)
                self.assertEqual(cones.form_of_rows(rows, len(names)), cones.form_of_rows(due.rows(number), len(names)), path)
                if due.rays(number):
                    self.assertEqual(cones.form_of_rays(rays, len(names)), cones.form_of_rays(due.rays(number), len(names)), path)
                bounds += 1
        self.assertGreater(bounds, 20)

    def test_corners(self):
        """Tian 2018: two files and three users."""
        text = (OUTER / "caching-2-3.txt").read_text()
        told = grouped("".join(line + "\n" for line in self.asks(text, "--outer", "--per", "F")))
        for _, *below in told:
            self.assertEqual(
                below[-6:],
                [
                    *(f"  corner (M, R) = ({corner}) per F" for corner in ("0, 2", "1/3, 4/3", "4/3, 1/3", "2, 0")),
                    *(f"  direction (M, R) = ({direction})" for direction in ("1, 0", "0, 1")),
                ],
            )
            self.assertEqual({line.strip() for line in below[:-6]}, {
                "M >= 0", "R >= 0", "F >= 0", "2 M + R >= 2 F", "3 M + 3 R >= 5 F", "M + 2 R >= 2 F",
            })  # fmt: skip
            self.assertEqual([line.count("M") + line.count("R") + line.count("F") for line in below[:-6]], [1, 1, 1, 3, 3, 3])
        page = (EXAMPLES.parent / "docs" / "guide" / "ask.md").read_text()
        self.assertIn("\n```\n" + "".join(line + "\n" for line in told[0]) + "```\n", page)

    def test_lines(self):
        """A region that isn't pointed has lines, and no corners. Examples by hand, as in signs.txt and equations.txt."""
        free = "vars X\nrates R, S, no\nrow R >= H(X)\neliminate no\n"
        both = "vars X\nrates R, S, no\nrow S = H(X)\nrow R = 2 S\neliminate no\n"
        told = self.asks(free, "--outer")
        self.assertEqual((told[:2], "  line (R, S) = (0, 1)" in told), (["1 outer 1 3", "  R >= 0"], True))
        told = self.asks(free, "--outer", "--per", "R")
        self.assertRegex(told[2], r"^  point S = -?[0-9]+ per R$")
        self.assertEqual(told[3:], ["  line S = 1"])
        self.assertIn("  line (R, S) = (0, 1)", self.asks(free, "--outer", "--per", "S"))
        told = self.asks(both, "--outer", "--per", "S")
        self.assertEqual(set(told[1:4]) - {"  S >= 0", "  R >= 0"}, {"  R >= 2 S", "  2 S >= R"})
        self.assertEqual(told[4:], ["  corner R = 2 per S"])
        self.assertEqual(self.asks("vars X\nrates R\ngiven H(X) = 0\nrow R = H(X)\neliminate R\n", "--outer"), ["1 outer 0 0"])
        nothing = self.asks("vars X\nrates R, no\ngiven H(X) = 0\nrow R = H(X)\neliminate no\n", "--outer")
        self.assertEqual(nothing, ["1 outer 2 0", "  R >= 0", "  R <= 0"])

    def test_rays_by_hand(self):
        """What is below 0 per F, and directions in which F isn't 0."""
        rows = (RowLine("needed", (1, 0), ""), RowLine("needed", (2, -3), ""))
        rays = tuple(RayLine(numbers, ()) for numbers in ((3, 2), (0, -1), (1, 0)))
        told = [text for text, _ in told_rays(BoundLines(("M", "F"), rows, rays), "F")]
        self.assertEqual(told, ["corner M = 3/2 per F", "direction (M, F) = (0, -1)", "direction M = 1"])
        alone = BoundLines(("F",), (), (RayLine((1,), ()), RayLine((-1,), ())))
        self.assertEqual([text for text, _ in told_rays(alone, "F")], ["line F = 1", ""])
        self.assertEqual([text for text, _ in told_rays(alone)], ["line F = 1", ""])

    def test_proofs(self):
        """Each row has a proof with the row's numbers on its left, which its steps reach, and each ray facts of its point."""
        steps = self.asks(SECRECY, "--outer", "--per", "HM", "--proofs", "--steps")
        told = [line for line in steps if not line.startswith("      ")]
        self.assertEqual(told[0], "1 outer 3 3")
        rows, proofs = [line.strip() for line in told[1:7:2]], told[2:7:2]
        self.assertEqual(set(rows), {"HM >= 0", "HC >= 0", "HK >= HM"})
        for row, proof in zip(rows, proofs):
            self.assertEqual(proof.partition(" = ")[0], "    " + " - ".join(side for side in row.split(" >= ") if side != "0"))
        rays = ["  corner (HK, HC) = (1, 0) per HM", "  direction (HK, HC) = (1, 0)", "  direction (HK, HC) = (0, 1)"]
        self.assertEqual(told[7::2], rays)
        self.assertEqual(told[8].split(", ")[-4:-1], ["HM = 1", "HK = 1", "HC = 0"])
        proof, reached = "", {}
        for line in steps:
            if line.startswith("      "):
                reached[proof] = line.strip().partition(" = ")[2]
            else:
                proof = line
        self.assertTrue(reached)
        for proof, total in reached.items():
            self.assertEqual(proof.strip().partition(" = ")[0], total)
        named = self.asks(SECRECY, "--outer", "--proofs", "--per", "HM")
        self.assertEqual((named, set(named) & {"  HM >= 0", "    HM = H(M) + (row 1)"}), (told, {"  HM >= 0", "    HM = H(M) + (row 1)"}))

    def test_numbers_past_those_of_questions(self):
        """Where no question file holds a row's numbers its proof and its point are told as the mode has them. Lines by hand."""
        large = 2**63
        text = f"vars X\nrates R, S, no\nrow {large} R >= H(X)\nrow {large} H(X) >= S\nrow S >= 0\neliminate no\n"
        lines = [
            "1 outer 2 2", f"1 row needed {large * large} R - S >= 0 by 1 : {large} row 1 + 1 row 2", "1 row needed S >= 0 by 1 : 1 row 3",
            f"1 ray R=1 S={large * large} at h(X)={large} R=1 S={large * large} no=0", "1 ray R=1 S=0 at h(X)=0 R=1 S=0 no=0",
        ]  # fmt: skip
        told = self.asks(text, "--outer", "--proofs", prover=self.printing(lines))
        self.assertEqual(told, [
            "1 outer 2 2", "  S >= 0", "    S = (row 3)", f"  {large * large} R >= S", f"    as weights 1 : {large} row 1 + 1 row 2",
            f"  ray (R, S) = (1, {large * large})", f"    H(X) = {large}, R = 1, S = {large * large}, no = 0",
            "  ray (R, S) = (1, 0)", "    X constant, R = 1, S = 0, no = 0",
        ])  # fmt: skip

    def test_words(self):
        path = self.file(SECRECY)
        for words in [
            ["--per", "HM", path], ["--proofs", path], ["--outer", "--per"], ["--outer", "--copy", path], ["--outer", "--per", "HM"],
            ["--outer", "--per", "", path], ["--outer", "--if", path], ["--copies", "--outer", "/nowhere"], ["--made", "--per", "HM", path],
            ["--made", "--proofs", path], ["--outer", "--made", "--if", path],
        ]:  # fmt: skip
            self.assertEqual(self.ask(*words), (2, "", USAGE.decode()), words)
        for rate in ("no", "M", "F"):
            why = f"ask: {path}, question 1: {rate} is no rate that stays, so no corner is told per unit of it\n"
            self.assertEqual(self.ask("--outer", "--per", rate, path), (2, "", why + USAGE.decode()))

    def test_others(self):
        """Questions that don't end with `eliminate`, also with --per."""
        text = "vars X\nprove H(X) >= 0\nvars X\nrates R, no\nrow R >= H(X)\neliminate no\n"
        self.assertEqual(self.asks(text, "--outer", "--per", "R"), ["1 other", "2 outer 1 1", "  R >= 0", "  direction R = 1"])

    def test_less_to_write(self):
        """A file with less to write is asked as what it makes, and each `eliminate` line is a question. Shannon 1949: the key is as long as
        the message where ciphertext and key tell it, and so is the ciphertext; each of three in a sum is."""
        text = "vars M, K, C\nrates R, S, no\ngiven indep M; C\ngiven sum C of M, K\nrow H(M) = R >= 0\nrow S >= H(K), H(C)\neliminate no\neliminate R, no\n"
        status, asked, said = self.ask("--outer", "--per", "R", "--made", self.file(text))
        self.assertEqual((status, asked.count("vars "), asked.count("given func "), asked.count("row "), said), (0, 2, 6, 8, ""))
        told = self.asks(text, "--outer", "--proofs")
        self.assertEqual(told, self.asks(asked, "--outer", "--proofs"))
        self.assertEqual([line for line in told if " >= " in line], ["  R >= 0", "  S >= R", "  S >= 0"])
        stated = "\n".join(self.asks(text, "--outer", "--latex"))
        self.assertEqual((stated.count(r"H(C\mid M,K) = 0"), stated.count("Asked are all bounds on the rates other than $R$, $\\mathit{no}$.")), (2, 1))
        why = ", question 2: R is no rate that stays, so no corner is told per unit of it\n"
        self.assertIn(why, self.ask("--outer", "--per", "R", self.file(text))[2])
        self.assertEqual(self.ask("--outer", self.file(text.replace("H(C)\n", "H(D)\n")))[:2], (3, "refused 6:18 name\n"))

    def test_refused(self):
        path = self.file(SECRECY.replace("indep M; C", "indep M < C"))
        status, told, said = self.ask("--outer", "--per", "HM", path)
        line = SECRECY.splitlines().index("given indep M; C") + 1
        self.assertEqual((status, told), (3, f"refused {line}:15 byte\n"))
        self.assertTrue(said.startswith(f"ask: {path}, line {line}, column 15:\n"))

    def test_undecided(self):
        """With too few rays, or steps of one's own, a bound is undecided; else it is asked anew."""
        self.assertEqual(self.asks(SECRECY, "--outer", "--tries", "1"), ["1 undecided rays 1"])
        status, told, said = self.ask("--outer", "--run", "bland", "--pivots", "1", self.file(SECRECY))
        self.assertEqual((status, told.split(" in ")[0], said), (0, "1 undecided pivots 1", ""))
        path = self.file(SECRECY)
        status, told, said = self.ask("--outer", path, prover=self.program(FEW_STEPS).prover)
        self.assertEqual((status, told), self.ask("--outer", path)[:2])
        self.assertEqual(said, f"ask: {path}, question 1: is undecided after so many steps. {ANEW}")

    def test_unsettled(self):
        """A row that isn't known to be needed has a mark, where more steps don't settle it."""
        lines = default_lines(SECRECY)
        unsure = [line.replace("row needed HC", "row unsettled HC") for line in lines]
        forged = f"print({chr(10).join(unsure)!r})"
        few = self.program(f"sys.exit(honest()) if 'none' in sys.argv or 'outer' not in sys.argv else {forged}\n").prover
        path = self.file(SECRECY)
        status, told, said = self.ask("--outer", path, prover=few)
        self.assertEqual((status, told), self.ask("--outer", path)[:2])
        self.assertEqual(said, f"ask: {path}, question 1: has rows that may not be needed. {ANEW}")
        told = self.asks(SECRECY, "--outer", "--pivots", "9", prover=few)
        self.assertIn("  HC >= 0  # unsettled", told)

    def test_liars(self):
        """What `tell` finds invalid stands in the place of a row or ray; what isn't an outer bound isn't told."""
        lines = default_lines(SECRECY)
        place = next(place for place, line in enumerate(lines) if " row needed HC >= 0 " in line)
        forged = [*lines[:place], lines[place].replace(" : 1 ", " : 2 ", 1), *lines[place + 1 :]]
        status, told, _ = self.ask("--outer", self.file(SECRECY), prover=self.printing(forged))
        self.assertEqual((status, len(told.splitlines()), told.count("  invalid mismatch ")), (1, 7, 1))
        self.assertNotIn("HC >= 0", told)
        forged = [line.replace("h(M,K,C)=1", "h(M,K,C)=9") for line in lines]
        status, told, _ = self.ask("--outer", self.file(SECRECY), prover=self.printing(forged))
        self.assertEqual((status, told.count("  invalid ")), (1, 3))
        for forged in (lines[:-1], lines + lines[-1:], [line.replace(" ray HM=1", " ray HM=2") for line in lines]):
            status, told, said = self.ask("--outer", self.file(SECRECY), prover=self.printing(forged))
            self.assertEqual((status, told, said.count("\n")), (7, "", 1))

    def printing(self, lines):
        return self.program(f"print({chr(10).join(lines)!r})\n").prover

    def test_program_that_fails(self):
        """Of a program that is cut off the whole answers are told."""
        whole = default_lines("vars X\nrates R, no\nrow R >= H(X)\neliminate no\n")
        rest = ["2" + line[1:] for line in whole[:-1]]
        body = f"print({chr(10).join(whole + rest)!r})\nprint('2 ra', end='')\nsys.exit(6)\n"
        path = self.file("vars X\nrates R, no\nrow R >= H(X)\neliminate no\n" * 2)
        self.assertEqual(self.ask("--outer", path, prover=self.program(body).prover)[:2], (6, "1 outer 1 1\n  R >= 0\n  ray R = 1\n"))

    def test_latex(self):
        told = "\n".join(self.asks(SECRECY, "--outer", "--per", "HM", "--latex", "--proofs"))
        self.assertRegex(told, r"^% answered by the program itip .*\n\\paragraph\{1\.\} Random variables \$M\$, \$K\$, \$C\$\. Rates ")
        for part in [
            "Asked are all bounds on the rates other than $\\mathit{no}$.\nAll that Shannon's inequalities and what is given say of these rates "
            "follows from these 3 rows:\n\\begin{align*}\n",
            "  \\mathit{HM} &\\ge 0 \\\\\n",
            "  \\mathit{HK} &\\ge \\mathit{HM}\n\\end{align*}\n\\par Their proofs, in this order:\n\\begin{align*}\n",
            "\\begin{itemize}\n\\item corner $(\\mathit{HK}, \\mathit{HC}) = (1, 0)$ per $\\mathit{HM}$\n\\begin{align*}\n",
            "\n\\end{itemize}",
        ]:
            self.assertIn(part, told)
        halves = "\n".join(self.asks((OUTER / "caching-2-2.txt").read_text(), "--outer", "--per", "F", "--latex"))
        self.assertIn("\\item corner $(M, R) = (\\tfrac{1}{2}, 1)$ per $F$\n", halves)
        nothing = self.asks("vars X\nrates R\nrow R >= H(X)\neliminate R\n", "--outer", "--latex")
        self.assertEqual(nothing[-1], "Shannon's inequalities and what is given say nothing of these rates.")


class Objects(WithPrograms):
    CACHING = caching(2, 3, [(1, 1, 2), (1, 2, 1), (2, 1, 1)])
    KEY = (func(A, of=C + K), indep(A, C))

    def judged(self, bound, kept):
        """Each row's proof adds up and each ray's point has the ray's numbers and makes the rows true; `itip check` finds all valid."""
        self.assertEqual(bound.check(), len(bound.rows) + len(bound.rays))
        self.assertTrue(all(proof.adds_up() for proof in bound.proofs))
        for ray in bound.rays:
            values = [ray.point[one] for one in kept]
            sizes = [sum(map(abs, numbers)) for numbers in (ray.numbers, values)]
            self.assertEqual([value * sizes[0] for value in values], [number * sizes[1] for number in ray.numbers])
            self.assertTrue(all(ray.point[row.target()] >= 0 for row in bound.rows))
        return {row.text() for row in bound.rows}

    def test_caching(self):
        # Tian 2018
        bound = self.CACHING.outer_bound(M, R, H(A))
        rows = self.judged(bound, [M, R, H(A)])
        self.assertEqual(rows, {"M >= 0", "R >= 0", "H(A) >= 0", "2 M + R >= 2 H(A)", "3 M + 3 R >= 5 H(A)", "M + 2 R >= 2 H(A)"})
        self.assertEqual(bound.marks, ("needed",) * 6)
        corners = bound.corners(per=H(A))
        self.assertEqual([corner.numbers for corner in corners], [(0, 2), (F(1, 3), F(4, 3)), (F(4, 3), F(1, 3)), (2, 0)])
        self.assertEqual([corner.point[M] / corner.point[H(A)] for corner in corners], [0, F(1, 3), F(4, 3), 2])
        self.assertEqual(str(corners[1]), "(1/3, 4/3)")
        self.assertEqual({ray.numbers for ray in bound.rays if not ray.numbers[2]}, {(1, 0, 0), (0, 1, 0)})

    def test_three_rates(self):
        # Slepian and Wolf 1973: three sources, and what their entropies are themselves
        kept = [*rates("R1 R2 R3"), H(X, Y, Z)]
        sets = [("R1", "X|Y,Z"), ("R2", "Y|X,Z"), ("R3", "Z|X,Y"), ("R1 + R2", "X,Y|Z"), ("R1 + R3", "X,Z|Y"), ("R2 + R3", "Y,Z|X")]
        converse = [*(f"{rate} >= H({of})" for rate, of in sets), "R1 + R2 + R3 >= H(X,Y,Z)"]
        bound = outer_bound(*kept, given=converse)
        rows = self.judged(bound, kept)
        self.assertEqual(rows, {"R1 >= 0", "R2 >= 0", "R3 >= 0", "R1 + R2 + R3 >= H(X,Y,Z)", "H(X,Y,Z) >= 0"})
        corners = {corner.numbers for corner in bound.corners(per=kept[3])}
        self.assertEqual(corners, {(1, 0, 0), (0, 1, 0), (0, 0, 1)})

    def test_three_nodes(self):
        # Dimakis, Godfrey, Wu, Wainwright and Ramchandran 2010
        size, sent = rates("A B")
        whole = H(*rv("W1 W2"))
        bound = regenerating(3, 2, 2).outer_bound(size, sent, whole)
        rows = self.judged(bound, [size, sent, whole])
        self.assertLessEqual({"2 A >= H(W1,W2)", "A + B >= H(W1,W2)", "3 B >= H(W1,W2)"}, rows)
        self.assertEqual([corner.numbers for corner in bound.corners(whole)], [(F(1, 2), F(1, 2)), (F(2, 3), F(1, 3))])

    def test_pentagon(self):
        """Blasiak, Kleinberg and Lubetzky 2010: the word is at least 5/2 of a message."""
        length, word = rates("L")[0], H(*rv("P"))
        pentagon = index_coding({"A": "E B", "B": "A C", "C": "B D", "D": "C E", "E": "D A"})
        bound = pentagon.outer_bound(word, length, given=[length >= 0])
        self.assertEqual(self.judged(bound, [word, length]), {"L >= 0", "2 H(P) >= 5 L"})

    def test_secrecy(self):
        """Shannon 1949, as sums and as rates of a region."""
        bound = outer_bound(H(A), H(K), H(C), given=self.KEY)
        self.assertEqual(self.judged(bound, [H(A), H(K), H(C)]), {"H(A) >= 0", "H(C) >= 0", "H(K) >= H(A)"})
        self.assertEqual({ray.numbers for ray in bound.rays}, {(1, 1, 0), (0, 1, 0), (0, 0, 1)})
        named = region(M == H(A), R == H(K), given=self.KEY)
        self.assertEqual({row.text() for row in named.outer_bound().rows}, {"M >= 0", "R >= M"})
        self.assertEqual(str(named.outer_bound(R)), "R >= 0\nrays (R) = (1)")

    def test_sums(self):
        """Sums with fractions and of several terms are kept as they are; a sum may be kept twice."""
        kept = [H(X) / 2, H(X) + H(Y), H(X, Y)]
        bound = outer_bound(*kept)
        self.judged(bound, kept)
        self.assertEqual(len(bound.rows), 3)
        for due in (H(X) + H(Y) >= H(X, Y), H(X, Y) >= H(X), H(X, Y) >= H(Y)):
            self.assertTrue(any(row.target().same(due.target()) for row in bound.rows), due)
        self.assertEqual({row.text() for row in outer_bound(R, R, given=[R >= H(X)]).rows}, {"R >= 0", "R >= R"})

    def test_copies(self):
        """With the copy of Zhang and Yeung 1998 less can be missing in Ingleton's inequality than by Shannon's alone."""
        a, b, c, d, one = rv("A B C D R")
        lacks = I(c & d) - I(c & d | a) - I(c & d | b) - I(a & b)
        shannon = outer_bound(lacks, H(a, b, c, d))
        copied = outer_bound(lacks, H(a, b, c, d), copies=[copy(one, a, c + d)])
        for bound in (shannon, copied):
            self.judged(bound, [lacks, H(a, b, c, d)])
        most = [max(corner.numbers[0] for corner in bound.corners(H(a, b, c, d))) for bound in (shannon, copied)]
        self.assertEqual(most[0], F(1, 4))
        self.assertLess(most[1], most[0])

    def test_polygon(self):
        """At a value of the third sum the bound is a polygon of two rates."""
        bound = caching(2, 2, [(1, 2), (2, 1)]).outer_bound(M, R, H(A))
        drawn = bound.at({H(A): 1})
        corners = {(0, 2), (F(1, 2), 1), (1, F(1, 2)), (2, 0)}  # Maddah-Ali and Niesen 2014
        self.assertLessEqual(corners, set(drawn.corners))
        self.assertTrue(drawn.is_cut)
        self.assertEqual({(y, x) for x, y in bound.at({H(A): 1}, R, M).corners}, set(drawn.corners))
        self.assertIn("<svg", drawn._repr_svg_())
        size, = rates("F")
        sized = outer_bound(M, R, size, given=["2 M + R >= 2 F", "M + 2 R >= 2 F", "M >= 0", "R >= 0", H(X) == size])
        self.assertLessEqual({(0, 4), (F(4, 3), F(4, 3)), (4, 0)}, set(sized.at({size: 2}).corners))
        for values, order in [({M: 1}, ()), ({H(A): 1}, (M,)), ({R: 1, M: 0}, ())]:
            with self.assertRaisesRegex(NotationError, "two rates are drawn"):
                bound.at(values, *order)

    def test_shown(self):
        bound = outer_bound(R, S, given=["R + S >= H(X)", "R >= 0"])
        self.assertEqual(str(bound).splitlines()[-1][:14], "rays (R, S) = ")
        self.assertIn(r"R + S &\ge 0", bound.latex())
        self.assertIn(r"$R + S \ge 0$<br>", bound._repr_html_())
        with self.assertRaises(AttributeError):
            bound.rows = ()

    def test_faults(self):
        for make, said in [
            (lambda: outer_bound(given=[R >= H(X)]), "name the sums"),
            (lambda: outer_bound(X), "is no sum"),
            (lambda: outer_bound(R, given=[R >= 0]).corners(S), "isn't kept"),
        ]:
            with self.assertRaisesRegex(NotationError, said):
                make()
        with self.assertRaisesRegex(ItipError, r"undecided pivots 1 in .*H\("):
            outer_bound(H(A), H(K), given=self.KEY, pivots=1, program=BLAND)
        with self.assertRaisesRegex(ItipError, "undecided rays 1: "):
            outer_bound(H(A), H(K), given=self.KEY, most_rays=1)

    def test_settled(self):
        """What the usual budget leaves undecided is asked once more without one."""
        program = self.program(FEW_STEPS)
        bound = outer_bound(H(A), H(K), given=self.KEY, program=program)
        self.assertEqual((program.calls, str(bound)), (2, str(outer_bound(H(A), H(K), given=self.KEY))))

    def test_forged(self):
        """Answers by hand, each after its verdict: what its lines show wrongly is `Forged` here too, when it is read or checked."""
        kept = rates("HM HK HC")
        given = ["func M of K,C", "indep M; C", "HM = H(M)", "HK = H(K)", "HC = H(C)"]
        verdicts = {}
        for block in (OUTER / "perfect-secrecy.judged").read_text().split("\n\n"):
            lines = [line for line in block.splitlines() if line and not line.startswith("#")]
            if not lines:
                continue
            verdict = lines[0].removeprefix("= 1 ")
            told = "\n".join(lines[1:]).replace(" no=", " k1=")  # (the name of the rate that goes)
            program = self.program(f"sys.exit(honest()) if {{'check', '--report'}} & {{*sys.argv}} else print({told!r})\n")
            verdicts[verdict] = found = self.verdict(kept, given, program)
            self.assertEqual(found, self.due(verdict), "\n".join(lines))
        self.assertGreater(len(verdicts), 20)

    def test_report(self):
        """The report is asked for when it is needed, shows the bound as a whole, and is judged."""
        bound = outer_bound(H(A), H(K), H(C), given=self.KEY)
        found = json.loads(bound.report)
        self.assertEqual((found["answer"], found["question"]), ("outer", bound.call.question.text()))
        self.assertEqual((len(found["rows"]), len(found["rays"])), (len(bound.rows), len(bound.rays)))
        self.assertEqual(default().check([bound.report]), ["valid"])
        for forged in [
            {**found, "rows": found["rows"][1:], "proofs": found["proofs"][1:]}, {**found, "rays": found["rays"][1:]}, {**found, "rays": [{}]},
            {"answer": "misfit", "cause": "undecided drops", "question": found["question"]},
        ]:  # fmt: skip
            text = json.dumps(forged)
            program = self.program(f"print({text!r}) if '--report' in sys.argv else sys.exit(honest())\n")
            with self.assertRaises((Forged, ItipError)):
                outer_bound(H(A), H(K), H(C), given=self.KEY, program=program).check()

    def due(self, verdict):
        """Where a row or a ray of the report is missing it isn't the bound; which rows are needed nothing here judges. Another spelling is
        read as well."""
        if verdict == "valid" or verdict.endswith(("follows from the others", "no row: HK - HM >= 0")):
            return "valid"
        return "undecided" if verdict in ("skipped", "invalid no line of an undecided question") else "forged"

    def verdict(self, kept, given, program):
        try:
            bound = outer_bound(*kept, given=given, program=program)
            bound.check()
            return "valid" if all(proof.adds_up() for proof in bound.proofs) else "doesn't add up"
        except Forged:
            return "forged"
        except ItipError as fault:
            return str(fault).partition(" ")[0]

    def test_judge(self):
        """With `judge` a forged proof isn't handed out, and without it it doesn't add up."""
        lines = "1 outer 1 1\\n1 row needed k1 >= 0 by 1 : 2 H(A) + 1 row 1\\n1 ray k1=1 at h(A)=1 k1=1 k2=0"
        lying = self.program("if {'check', '--report'} & {*sys.argv}:\n    sys.exit(honest())\n" + f"print('{lines}')\n")
        self.assertFalse(outer_bound(H(A), program=lying).proofs[0].adds_up())
        lying.judge = True
        with self.assertRaisesRegex(Forged, "mismatch"):
            outer_bound(H(A), program=lying)


class Curves(WithPrograms):
    """Trade-off curves by one call of mode `outer`."""

    PROBLEM = caching(2, 2, [(1, 2), (2, 1)])

    def test_undecided(self):
        """Without a bound the curve is found by its edges, and is the same."""
        curve = self.PROBLEM.tradeoff(M, R, H(A))
        self.assertEqual((curve.questions, curve.calls), (1, 1))
        for body in ("print('1 undecided rows')", "print('refused 1:1 many')\n    sys.exit(3)"):
            program = self.program(f"if 'outer' in sys.argv:\n    {body}\nelse:\n    sys.exit(honest())\n")
            other = self.PROBLEM.tradeoff(M, R, H(A), program=program)
            self.assertEqual((str(other), other.check()), (str(curve), curve.check()))
            self.assertGreater(other.questions, other.calls)

    def test_sums(self):
        """Sums that are no rates, and a face that is no row: that R isn't below 0 follows from two rows, so it is asked about."""
        curve = Problem((H(X, Y) <= 2 * H(Z), R >= H(X | Y), R + H(X, Y) >= 2 * H(Z))).tradeoff(H(X, Y), R, H(Z))
        self.assertEqual(curve.check(), len(curve.faces) + len(curve.corners))
        self.assertTrue(all(face.answer.certificate.adds_up() for face in curve.faces))
        self.assertEqual([(corner.x, corner.y) for corner in curve.corners], [(0, 2), (2, 0)])
        self.assertEqual((curve.questions, curve.calls), (2, 2))


def default_lines(text):
    """What the program answers in the mode."""
    return default().itip(["outer", "--run", "quick"], text).splitlines()


def load_tests(loader, tests, pattern):
    tests.addTests(doctest.DocTestSuite(itip.bounds))
    tests.addTests(doctest.DocTestSuite(itip.outer))
    return tests
