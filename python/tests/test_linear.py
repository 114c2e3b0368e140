"""./ask --code: each code against the point by counting messages, what has no code by what is known of Ingleton's inequality, and the words."""

import doctest
import json
import re
import subprocess
from itertools import product

import itip.linear
from itip.linear import NONE, Code, code_at, meet, rank, subspaces, without_code
from itip.program import default

from .test_ask import EXAMPLES, Asks, grouped

VAMOS = [(0, 1, 2, 3), (0, 1, 4, 5), (2, 3, 4, 5), (2, 3, 6, 7), (4, 5, 6, 7)]  # its circuits of four
INGLETON = "vars A, B, C, D\nprove I(A;B) <= I(A;B|C) + I(A;B|D) + I(C;D)\n"


def read_code(line):
    """The number of elements, of each variable its functions as lists of signed letters, and how many times its ranks the point is."""
    elements, listed, times = re.fullmatch(r"over GF\(([23])\): (.*?)(?:; the point is ([0-9]+) times its ranks)?", line).groups()
    parts = re.findall(r"(\w+)(?: constant| = \(([^()]*)\))", listed)
    return int(elements), {name: [re.findall(r"(-?) ?([a-z]+)", one) for one in of.split(", ")] if of else [] for name, of in parts}, int(times or 1)


def entropy(elements, functions, letters):
    """How many values functions take together over all messages, as an exponent."""
    values = set()
    for message in product(range(elements), repeat=len(letters)):
        at = dict(zip(letters, message))
        values.add(tuple(sum(-at[letter] if sign else at[letter] for sign, letter in one) % elements for one in functions))
    exponent = 0
    while elements**exponent < len(values):
        exponent += 1
    assert elements**exponent == len(values)
    return exponent


class Codes(Asks):
    def codes(self, text, *words):
        """What is told below the point of each no."""
        answers = grouped("".join(line + "\n" for line in self.asks(text, "--code", *words)))
        self.assertTrue(all(len(below) == 2 for first, *below in answers if first.split()[1] == "no"))
        return [below[1][2:] for first, *below in answers if first.split()[1] == "no"]

    def judge(self, names, values, line):
        """The code has the entropies: counted over all messages."""
        elements, functions, times = read_code(line)
        self.assertEqual(list(functions), names)
        letters = sorted({letter for of in functions.values() for one in of for _, letter in one})
        for number in range(1, 1 << len(names)):
            of = [one for place, name in enumerate(names) if number >> place & 1 for one in functions[name]]
            self.assertEqual(times * entropy(elements, of, letters), values[number - 1], (line, number))

    def test_by_hand(self):
        for text, due in [
            ("vars X, Y, Z\nprove I(X;Y|Z) <= I(X;Y)\n", "over GF(2): X = (a), Y = (b), Z = (a + b)"),
            ("vars X, Y\nprove H(X) >= H(Y)\n", "over GF(2): X constant, Y = (a)"),
            ("vars a, b\nprove H(a) >= H(b)\n", "over GF(2): a constant, b = (c)"),
            (INGLETON, "no linear code: Ingleton's inequality fails for A, B; C, D"),
        ]:
            self.assertEqual(self.codes(text), [due])

    def test_examples(self):
        """Each point has a code, or violates Ingleton's inequality. Another search, over tables of all subspaces, has the same numbers, and one point
        on which it gives up."""
        kinds = []
        for path in sorted(EXAMPLES.glob("*.txt")):
            if path.name.startswith("best-"):
                continue
            answers = subprocess.run([default().prover_path(), "answer", "--format", "json"], input=path.read_bytes(), capture_output=True, check=False).stdout
            report = [json.loads(line) for line in answers.decode().splitlines() if line.startswith('{"answer":"no"')]
            for line in report:
                names = line["question"].partition("\n")[0].replace(",", " ").split()[1:]
                said, coded = itip.linear.told(line)
                kinds.append(said[:11])
                if coded:
                    self.judge(names, [int(value) for value in line["point"]], said)
                    self.assertEqual(default().check([coded]), ["valid"])
                else:
                    self.assertTrue(said.startswith("no linear code: Ingleton"), (path.name, said))
        self.assertEqual([kinds.count(kind) for kind in ("over GF(2):", "over GF(3):", "no linear c")], [23, 1, 5])

    def test_known(self):
        """Four lines in a plane need three elements; Vamos's matroid has no code (Ingleton, 1971), the plane of Fano one over two elements alone."""
        lines = [0] + [min(bin(number).count("1"), 2) for number in range(1, 16)]
        found = code_at(lines, 4)
        self.assertEqual((found.elements, found.ranks(), found.text("WXYZ", "WXYZ")), (3, lines, "over GF(3): W = (a), X = (b), Y = (a + b), Z = (a - b)"))
        vamos = [min(bin(number).count("1"), 4) - any(number == sum(1 << place for place in one) for one in VAMOS) for number in range(256)]
        pairs = [vamos[sum(3 << 2 * place for place in range(4) if number >> place & 1)] for number in range(16)]
        self.assertEqual(len(without_code(pairs, 4)), 4)
        triples = [(1, 2, 3), (1, 4, 5), (1, 6, 7), (2, 4, 6), (2, 5, 7), (3, 4, 7), (3, 5, 6)]
        fano = [min(bin(number).count("1"), 3) - any(number == sum(1 << place - 1 for place in one) for one in triples) for number in range(128)]
        self.assertEqual((without_code(fano, 7), code_at(fano, 7).elements, code_at(fano, 7).ranks()), ((), 2, fano))
        without = [*fano]
        without[0b0110100] = 3  # the line 3, 5, 6 has rank 3: not Fano's plane, over three elements alone
        self.assertEqual((code_at(without, 7).elements, code_at(without, 7).ranks()), (3, without))

    def test_times(self):
        """A point that is a multiple, with rates that are and that aren't; and what is refused of it."""
        for rate in ("4", "3"):
            line = {"answer": "no", "point": ["2", "0", "2", rate], "question": "vars X, Y\nrates R\nprove R <= H(X)\n", "side": "forward"}
            said, coded = itip.linear.told(line)
            code = {"field": 2, "functions": [[[1]], []], "symbols": 1, "times": 2}
            self.assertEqual((said, json.loads(coded)), ("over GF(2): X = (a), Y constant; the point is 2 times its ranks", {**line, "code": code}))
            forged = [json.dumps({**line, "code": {**code, **key}}) for key in ({"times": 1}, {"functions": [[[1]], [[1]]]}, {"field": 4})]
            self.assertEqual(default().check([coded, *forged]), ["valid", "invalid code h(X)", "invalid code h(Y)", "invalid shape code"])

    def test_none(self):
        """Lines of a plane: seven have no code over so few elements."""
        lines = [0] + [min(bin(number).count("1"), 2) for number in range(1, 128)]
        self.assertIsNone(code_at(lines, 7))
        large = [20 * bin(number).count("1") + (number == 1) for number in range(4)]
        self.assertIsNone(code_at(large, 2))

    def test_wrong_codes(self):
        """What itip check refuses isn't told."""
        body = "if sys.argv[1] == 'check':\n    print('1 invalid mismatch')\n    sys.exit(1)\nsys.exit(honest())\n"
        path = self.file("vars X, Y\nprove H(X) >= H(Y)\n")
        status, told, said = self.ask("--code", path, prover=self.program(body).prover)
        self.assertEqual((status, told.splitlines()[2:]), (0, [f"  {NONE}"]))
        self.assertEqual(said, f"ask: {path}, question 1: itip check finds of the code: invalid mismatch\n")

    def test_words(self):
        path = self.file("copy R of X over Y\nvars X, Y\nprove H(X) >= 0\n")
        for words in (["--code", path], ["--copy", "--code", path], ["--code", "--best", path], ["--outer", "--code", path]):
            self.assertEqual(self.ask(*words)[:2], (2, ""), words)

    def test_with_others(self):
        told = self.asks("vars X, Y\nprove H(X) >= H(Y)\n", "--code", "--if")
        self.assertEqual(told[2:], ["  over GF(2): X constant, Y = (a)", "  given func Y of X  # then yes"])

    def test_latex(self):
        told = "\n".join(self.asks("vars X1, Y\nprove H(X1) >= H(Y)\n" + INGLETON, "--code", "--latex"))
        self.assertIn("\nA linear code over $\\mathrm{GF}(2)$ has these ranks: $X_{1}$ constant, $Y = (a)$.", told)
        self.assertIn("\nNo linear code: Ingleton's inequality fails for $A$, $B$; $C$, $D$.", told)

    def test_spaces(self):
        """Of two subspaces the ranks of the join and the meet add up to theirs."""
        for elements in (2, 3):
            every = [space for size in range(4) for space in subspaces(((1, 0, 0), (0, 1, 0), (0, 0, 1)), size, elements)]
            self.assertEqual(len(every), {2: 16, 3: 28}[elements])
            for one in every:
                for other in every:
                    both = meet(one, other, elements)
                    self.assertEqual(rank([*one, *other], elements) + len(both), len(one) + len(other))
        self.assertEqual(Code(2, [((1, 0),), ((1, 0), (0, 1))], 1).ranks(), [0, 1, 2, 2])


def load_tests(loader, tests, pattern):
    tests.addTests(doctest.DocTestSuite(itip.linear))
    return tests
