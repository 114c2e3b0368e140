"""./ask --if: against all conditions asked one by one without the search's shortcuts, and against what is known or can be seen by hand."""

from itertools import chain, combinations, islice, product
from pathlib import Path

from itip import Itip, assumption
from itip.conditions import MOST_VARIABLES, conditions, holds, implies, weaker

from .test_ask import EXAMPLES, Asks, grouped

THEN = "  # then yes"


def subsets(names):
    return list(chain.from_iterable(combinations(names, size) for size in range(len(names) + 1)))


def all_conditions(names):
    """All lines that a condition may be, by sets of names."""
    sets = subsets(names)
    for left, right, known in product(sets, repeat=3):
        if left and right and left < right and len({*left, *right, *known}) == len(left) + len(right) + len(known):
            yield f"I({','.join(left)};{','.join(right)}{'|' * bool(known)}{','.join(known)}) = 0"
    for name, known in product(names, sets):
        if name not in known:
            yield f"H({name}{'|' * bool(known)}{','.join(known)}) = 0"


class Conditions(Asks):
    def conditions(self, text, *words):
        """The conditions told below each no, and what else stands there."""
        answers = grouped("".join(line + "\n" for line in self.asks(text, "--if", *words)))
        self.assertTrue(all(len(below) == 1 for first, *below in answers if first.split()[1] != "no"))
        return [[line.removeprefix("  given ").removesuffix(THEN) for line in below[1:]] for first, *below in answers if first.split()[1] == "no"]

    def test_data_processing(self):
        """I(X;Y) - I(X;Z) = I(X;Y|Z) - I(X;Z|Y): the chain X, Y, Z, or what makes the left side trivial."""
        self.assertEqual(self.conditions("vars X, Y, Z\nprove I(X;Z) <= I(X;Y)\n"), [["indep X; Z", "markov X -> Y -> Z"]])
        told = self.asks("vars X, Y, Z\nprove I(X;Z) <= I(X;Y)\n", "--if")
        self.assertEqual(told[2:], ["  given indep X; Z  # then yes", "  given markov X -> Y -> Z  # then yes"])

    def test_by_hand(self):
        for text, due in [
            ("vars X, Y\nprove H(X) >= H(Y)\n", ["func Y of X"]),
            ("vars X, Y\nprove H(X,Y) = H(X) + H(Y)\n", ["indep X; Y"]),
            ("vars X\nprove H(X) = 0\n", ["H(X) = 0"]),
            # Shannon's perfect secrecy with twice the key: a message independent of key and cryptogram, which determine it, is constant
            ("vars M, K, C\ngiven indep M; C\ngiven func M of K, C\nprove H(K) >= 2 H(M)\n", ["indep M; K,C"]),
            # with a rate; superposition coding reaches I(U;Y) alone if the cloud is all
            ("vars U, X, Y\nrates R\ngiven markov U -> X -> Y\nrow R = I(X;Y)\nprove R <= I(U;Y)\n", ["markov X -> U -> Y"]),
            # the missing half of a chain of four
            ("vars A, B, C, D\ngiven markov A -> B -> C\ngiven markov B -> C -> D\nprove I(A,B;D|C) = 0\n", ["markov A -> B -> C,D"]),
            # Ruzsa's triangle inequality, whose middle term is known from the sums and the outer ones
            (
                "vars X, Y, Z, XY, YZ, XZ\ngiven indep X; Y; Z\ngiven func XY of X,Y\ngiven func YZ of Y,Z\ngiven func XZ of X,Z\n"
                "given func XZ of XY,YZ\nprove H(XZ) + H(Y) <= H(XY) + H(YZ)\n",
                ["func Y of X,Z,XY,YZ"],
            ),
        ]:
            self.assertEqual(self.conditions(text), [due], text)

    def test_none(self):
        """A coin alone, the others constant, makes the relation fail, and any one condition true but that it is constant; then another one does."""
        text = "vars A, B, C\nprove H(A) + H(B) + H(C) >= 4 H(A,B,C)\n"
        self.assertEqual(self.asks(text, "--if")[2:], ["  # no one independence or function makes it a yes"])

    def test_ingleton(self):
        """Of all single conditions under which Ingleton's inequality is Shannon's each is with its images under the inequality's symmetries."""
        found, = self.conditions((EXAMPLES / "ingleton.txt").read_text())[-1:]
        relation = "I(A;B) <= I(A;B|C) + I(A;B|D) + I(C;D)"
        self.assertIn(f"prove {relation}", (EXAMPLES / "ingleton.txt").read_text())
        self.judge("ABCD", [], relation, found)
        says = {self.sums(line) for line in found}
        for moved in ("BACD", "ABDC"):
            to = str.maketrans("ABCD", moved)
            self.assertEqual({self.sums(line.translate(to)) for line in found}, says)
        self.assertIn("indep A; B", found)  # then the left side is 0

    @staticmethod
    def sums(line):
        """What a condition says is 0, as joint entropies."""
        return frozenset(frozenset(total.joint().items()) for part in [assumption(line)] for total in part.sums())

    def judge(self, names, given, relation, found):
        """Each condition makes a yes, none implies another, and any other one that makes a yes implies one of these."""
        says = [f"{part.sums()[0].text()} = 0" if hasattr(part, "sums") else part.text() for part in map(assumption, found)]
        head = f"vars {','.join(names)}\n" + "".join(f"given {line}\n" for line in given)
        lines = [*found, *all_conditions(names)]
        asked = [f"{head}given {line}\nprove {target}\n" for line in lines for target in (relation, *says)]
        answers = iter(Itip(run="bland").report(asked))
        for number, line in enumerate(lines):
            truth, *implied = [line.startswith('{"answer":"yes"') for line in islice(answers, len(says) + 1)]
            if number < len(found):
                self.assertEqual((truth, implied), (True, [other == number for other in range(len(found))]), line)
            self.assertEqual(truth, any(implied), line)

    def test_all(self):
        for names, given, relation in [
            ("XYZ", [], "I(X;Z) <= I(X;Y)"),
            ("XYZ", ["func Z of X,Y"], "H(X) + H(Y) <= H(Z) + H(X,Z)"),
            ("XYZ", ["indep X; Y"], "H(Z) <= I(X;Z) + I(Y;Z)"),
            ("XYZ", ["H(Z) <= H(X)", "markov X -> Y -> Z"], "2 H(Z) = H(X,Y)"),
            ("XYZW", ["func Z of X,Y", "func W of Y,Z"], "H(X) + H(W) <= H(Y,Z)"),
        ]:
            text = f"vars {','.join(names)}\n" + "".join(f"given {line}\n" for line in given) + f"prove {relation}\n"
            found, = self.conditions(text)
            found = [line for line in found if "#" not in line]
            self.judge(names, given, relation, found)

    def test_six(self):
        """On six variables it takes seconds at most; beyond them, and where there is no room for a line more, it says so."""
        self.assertEqual(len(list(conditions(MOST_VARIABLES))), (4**6 - 2 * 3**6 + 2**6) // 2 + 6 * 2**5)
        head = "vars A, B, C, D, E, F"
        found, = self.conditions(f"{head}\ngiven H(E,F) >= H(F)\nprove I(A;B) <= I(A;B|C) + I(A;B|D) + I(C;D)\n")
        self.assertEqual(found, self.conditions((EXAMPLES / "ingleton.txt").read_text())[-1])
        path = self.file(f"{head}, G\nprove H(A) >= H(B)\n")
        status, told, said = self.ask("--if", path)
        self.assertEqual((status, len(told.splitlines())), (0, 2))
        self.assertIn(f"ask: {path}, question 1: what would make it true is looked for on up to six variables\n", said)
        path = self.file("vars A, B\n" + "given H(A) >= 0\n" * 64 + "prove H(A) >= H(B)\n")
        self.assertEqual(self.ask("--if", path)[2], f"ask: {path}, question 1: what would make it true can't be asked: refused 66:1 many\n")

    def test_undecided(self):
        """What few steps say nothing of isn't told, and standard error says of how many."""
        path = self.file("vars A, B, C, D, E, F\ngiven H(E,F) >= H(F)\nprove I(A;B) <= I(A;B|C) + I(A;B|D) + I(C;D)\n")
        slow = self.program("sys.exit(honest() if '100' in sys.argv else honest('--pivots', 'none'))\n")
        status, told, said = self.ask("--if", path, prover=slow.prover)
        self.assertEqual((status, told.splitlines()[0]), (0, "1 no"))
        self.assertRegex(said, f"^ask: {path}, question 1: [1-9][0-9]* more conditions stayed undecided after so many steps\n$")
        quick = self.asks(Path(path).read_text(), "--if", "--run", "bland")
        self.assertEqual(quick[2:], self.asks(Path(path).read_text(), "--if")[2:])

    def test_words(self):
        path = self.file("copy R of X over Y\nvars X, Y\nprove H(X) >= 0\n")
        for words in (["--if", path], ["--copy", "--if", path], ["--if", "--best", path], ["--copies", path], ["--sharing", "--copies", path]):
            self.assertEqual(self.ask(*words)[:2], (2, ""), words)

    def test_latex(self):
        told = "\n".join(self.asks("vars X, Y, Z\nprove I(X;Z) <= I(X;Y)\n", "--if", "--latex"))
        self.assertIn("It has a proof where any of these holds too: $X \\perp Z$, $X \\to Y \\to Z$.", told)
        told = "\n".join(self.asks("vars A, B\nprove H(A) + H(B) >= 3 H(A,B)\n", "--if", "--latex"))
        self.assertIn("\nNo one independence or function makes it a yes.", told)

    def test_steps_away(self):
        """What is a step weaker is implied, and where a condition implies another one each point of the first is one of the second."""
        points = [[0, 1, 1, 1, 1, 1, 1, 1], [0, 1, 1, 2, 1, 2, 2, 2], [0, 1, 0, 1, 1, 1, 1, 1], [0, 0, 1, 1, 1, 1, 1, 1], [0, 1, 1, 2, 1, 2, 2, 3]]
        every = list(conditions(3))
        self.assertEqual(len(every), len({*every}))
        for one in every:
            self.assertTrue(all(other in every for other in weaker(one, 7)))
            for other in every:
                if implies(one, other) or other in weaker(one, 7):
                    self.assertTrue(all(holds(other, at) for at in points if holds(one, at)), (one, other))
