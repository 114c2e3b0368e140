"""What ./ask says of limits: files one past each of them, and the size of tables against what the program refuses."""

import random
import unittest
from itertools import combinations

from itip.limits import MOST_ENTRIES, passed, table
from itip.program import default
from itip.questions import parse

from .test_ask import PATH, Asks

TEN = "vars A, B, C, D, E, F, G, J, K, L\n"


class Limits(Asks):
    def test_each(self):
        """A file past a limit, and the line that says so."""
        for text, due in [
            ("vars ThisIsAVeryLongName\nprove H(X) >= 0\n", "letters of this name: 19, of at most 16"),
            ("vars A, B, C, D, E, F, G, J, K, L, M, N\nprove H(A) >= 0\n", "variables of this question: 12, of at most 10"),
            ("vars A\nrates " + ", ".join(f"R{number}" for number in range(18)) + "\nprove 0 >= 0\n", "rates of this question: 18, of at most 16"),
            ("vars A\nregion\nrow H(A) >= 0\nregion\naux b, c, d, e, f\nrow H(A) >= 0\ncontain\n", "auxiliaries of this region: 5, of at most 4"),
            (
                "vars A, B, C, D, E, F, G\nregion\nrow H(A) >= 0\nregion\naux b, c, d, e\nrow H(A) >= 0\ncontain\n",
                "variables of this region, with its auxiliaries: 11, of at most 10",
            ),
            ("vars A\n" + "given H(A) >= 0\n" * 70 + "prove H(A) >= 0\nvars A\ngiven H(A) >= 0\nprove H(A) >= 0\n", "`given` lines of this question: 70, of at most 64"),
            ("vars A\nrates R\nregion\n" + "row R >= 0\n" * 40 + "region\n" + "row R >= 0\n" * 30 + "contain\n", "`row` lines of this question: 70, of at most 64"),
            ("vars A\nregion\nrow H(A) >= 0\nregion\naux U\nrow H(U) >= 0\n" + "try U := A\n" * 65 + "contain\n", "`try` lines of this question: 65, of at most 64"),
            ("vars A\nprove " + " + ".join(["H(A)"] * 299) + " >= H(A)\n", "terms of this relation: 300, of at most 256"),
            ("vars A\ngiven indep " + "; ".join(["A"] * 17) + " | A\nprove 0 >= 0\n", "lists of this line: 17, of at most 16"),
            ("vars A\ngiven markov " + " -> ".join(["A"] * 18) + "\nprove 0 >= 0\n", "lists of this line: 18, of at most 16"),
            ("vars A\nprove 0 >= 0\n" * 1234, "questions of this file: 1,234, of at most 1,000"),
            ("".join(f"copy R{number} of A over 0\n" for number in range(5)) + "vars A\nprove 0 >= 0\n", "copies of this head: 5, of at most 4"),
            ("copy R of A over B, C, D, E, F\nvars A, B, C, D, E, F\nprove 0 >= 0\n", "names of this set: 5, of at most 4"),
            (PATH.replace("a, b, c, d\n", "a, b, c, d, e, f, g, i, j\n") + "prove H(a) >= 0\n", "parties: 9, of at most 8"),
            (PATH + "qualified a, b\n" * 62 + "prove H(a) >= 0\n", "`qualified` lines of this file: 65, of at most 64"),
            (TEN + "prove 0 >= 0\n", "rows times columns of its table: 1,023 x 12,553 = 12,841,719, of at most 4,000,000"),
            (TEN + "prove foo $\n", "rows times columns of its table: 1,023 x 12,553 = 12,841,719, of at most 4,000,000"),
            # a line of fewer words makes four
            ("vars A, B, C, D\n" + "given sum A of B, C, D\n" * 17 + "prove H(A) >= 0\n", "`given` lines of this question: 68, of at most 64"),
        ]:
            status, told, said = self.ask(self.file(text))
            self.assertEqual((status, told.split()[-1], said.splitlines()[-1]), (3, "large" if "table" in due else "many", "    " + due))

    def test_names(self):
        """A file past what `--names` allows, and a containment, which has ten names in any file."""
        many = ", ".join("ABCDEFGJKLMNO")
        shared = PATH.replace("a, b, c, d\n", f"a, b, c, d, {many}\n")
        regions = f"vars {many}\nregion\nregion\ncontain\n"
        for words, text, word, due in [
            (("--names", "12"), f"vars {many}\nprove H(A) >= 0\n", "many", "variables of this question: 13, of at most 12"),
            (("--names", "12"), shared + "prove H(a) >= 0\n", "many", "parties: 17, of at most 11"),
            (("--names", "16"), regions, "large", "variables of a question about regions: 13, of at most 10"),
        ]:
            status, told, said = self.ask(*words, self.file(text))
            self.assertEqual((status, told.split()[-1], said.splitlines()[-1]), (3, word, "    " + due))

    def test_no_count(self):
        """What isn't past a limit isn't told, whatever the place."""
        for word in ("many", "large"):
            for text, number, column in [("", 2, 1), ("vars A\nprove H(A) >= 0\n", 2, 1), ("vars A\nprove H(B) >\n", 2, 1), ("contain\n", 1, 1), ("vars A\nregion\ncontain\n", 3, 1)]:
                self.assertEqual(passed(text, word, number, column), "")

    def test_tables(self):
        """The program refuses just the questions whose table has more entries, for lines that are functions and lines that aren't."""
        draws = random.Random(59)
        names = TEN[5:-1].split(", ")
        kinds = set()
        for _ in range(60):
            lines = [self.function(draws, names) for _ in range(draws.randrange(4))] + [self.other(draws, names) for _ in range(draws.randrange(3))]
            ends = draws.choice([["prove R >= S"], ["row R >= S", "row R = 2 S", "eliminate R"], ["row R >= S", "region", "row R >= 0", "region", "row S >= 0", "contain"]])
            text = TEN + "rates R, S\n" + "".join(line + "\n" for line in [*lines, *ends])
            rows, columns = table(parse(text))
            status = default()._run(default().prover_path(), ["answer", "--run", "quick", "--pivots", "1"], text)[0]
            self.assertEqual(status, 3 if rows * columns > MOST_ENTRIES else 0, text)
            kinds.add((ends[-1], status))
        self.assertEqual(len(kinds), 6)

    @staticmethod
    def function(draws, names):
        one, *of = draws.sample(names, draws.randrange(2, 4))
        return draws.choice([f"given func {one} of {','.join(of)}", f"given H({one}|{','.join(of)}) = 0", f"given H({one}) = 0", f"given H({one},{of[0]}) = H({of[0]})"])

    @staticmethod
    def other(draws, names):
        a, b, c, d = draws.sample(names, 4)
        return draws.choice([f"given markov {a} -> {b} -> {c} -> {d}", f"given indep {a}; {b}", f"given H({a}) <= H({b})", f"given 2/2 H({a}|{b}) = 0", f"given I({a},{b};{a}|{c}) = 0"])


class ClosedSets(unittest.TestCase):
    def test_nine(self):
        """Without functions all sets are closed; docs/reference/grammar.md has the table of ten variables."""
        self.assertEqual(table(parse(TEN + "prove 0 >= 0\n")), (1023, 12553))
        self.assertEqual(len(list(combinations(range(10), 2))) * 2**8 + 10, 11530)
