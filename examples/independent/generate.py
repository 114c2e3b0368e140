"""Random questions on two to four variables: relations, constraints of every kind, functions in many guises, rates. Systems of rows, pairs of
regions. Damaged reports. The file of questions that mode `bench` makes from a seed.
"""

from random import Random

from questions import Scope


class Generator:
    """`fractions` is the chance of a coefficient to be a fraction."""

    def __init__(self, seed, fractions=0.2):
        self.random, self.fractions = Random(seed), fractions

    def chance(self, probability):
        return self.random.random() < probability

    def list(self):
        size = 2 if self.chance(0.25) else 1
        return ",".join(self.random.sample(self.names, size))

    def atom(self, rates):
        if rates and self.chance(0.3):
            return self.random.choice(rates)
        bar = f"|{self.list()}" if self.chance(0.4) else ""
        return f"H({self.list()}{bar})" if self.chance(0.5) else f"I({self.list()};{self.list()}{bar})"

    def coefficient(self, numbers=("", "", "2 ", "3 ")):
        if self.chance(self.fractions):
            return f"{self.random.randint(0, 7)}/{self.random.choice([1, 2, 2, 3, 3, 4, 5, 6, 8, 12])} "
        return self.random.choice(numbers)

    def side(self, rates):
        if self.chance(0.15):
            return "0"
        terms = [self.coefficient() + self.atom(rates) for _ in range(self.random.choice([1, 1, 2, 3]))]
        text = ("- " if self.chance(0.1) else "") + terms[0]
        for term in terms[1:]:
            text += self.random.choice([" + ", " + ", " - "]) + term
        return text

    def relation(self, rates, signs=(">=", "<=", "=")):
        return f"{self.side(rates)} {self.random.choice(signs)} {self.side(rates)}"

    def given(self):
        lists = [self.list() for _ in range(self.random.choice([3, 3, 4]))]
        return self.random.choice([
            f"func {self.list()} of {self.list()}",
            f"func {self.list()} of {self.list()}",
            f"indep {self.list()}; {self.list()}",
            f"indep {self.list()}; {self.list()} | {self.list()}",
            "markov " + " -> ".join(lists),
            self.relation([]),
            f"H({self.list()}) = 0",
            f"0 = H({self.list()}|{self.list()})",
            f"H({','.join(self.names)}) = H({self.list()})",
        ])

    def question(self, signs=(">=", "<=", "=")):
        self.names = ["X", "Y", "Z", "W"][: self.random.choice([2, 3, 3, 4])]
        rates = [f"R{i}" for i in range(self.random.choice([0, 0, 1, 2]))]
        lines = ["vars " + ", ".join(self.names)]
        lines += ["rates " + ", ".join(rates)] if rates else []
        lines += ["given " + self.given() for _ in range(self.random.choice([0, 1, 1, 2, 3]))]
        lines += ["row " + self.relation(rates) for _ in range(self.random.choice([0, 1, 2] if rates else [0, 0, 0, 1]))]
        return "\n".join(lines + ["prove " + self.relation(rates, signs)]) + "\n"

    def system(self):
        """Rows over rates and a few entropies, with some of the rates to be eliminated, in any order."""
        self.names = ["X", "Y", "Z"][: self.random.choice([2, 2, 3])]
        rates = ["A", "B", "C", "D", "E"][: self.random.choice([3, 4, 4, 5])]
        lines = ["vars " + ", ".join(self.names), "rates " + ", ".join(rates)]
        lines += ["given " + self.given() for _ in range(self.random.choice([0, 0, 1]))]
        lines += ["row " + self.rate_row(rates) for _ in range(self.random.choice([4, 5, 6, 7, 8]))]
        gone = self.random.sample(rates, self.random.randint(1, min(3, len(rates))))
        return "\n".join(lines + ["eliminate " + ", ".join(gone)]) + "\n"

    def rate_row(self, rates):
        terms = [self.coefficient(("", "", "2 ", "3 ", "4 ")) + rate for rate in self.random.sample(rates, self.random.choice([1, 2, 2]))]
        signs = [self.random.choice([" + ", " - "]) for _ in terms[1:]]
        left = terms[0] + "".join(sign + term for sign, term in zip(signs, terms[1:]))
        right = self.random.choice(["0", self.atom([]), self.atom([]), f"2 {self.atom([])}"])
        return f"{left} {self.random.choice(['>=', '<=', '>=', '<=', '='])} {right}"

    def own_lines(self, names, rates):
        """A few lines of a region: chains, functions, and rows whose right side is an information."""
        self.names = names
        lines = []
        for _ in range(self.random.choice([0, 1, 1])):
            lines.append("given " + self.given())
        for rate in rates:
            atom = f"I({self.list()};{self.list()})" if self.chance(0.6) else f"H({self.list()})"
            lines.append(f"row {rate} {self.random.choice(['<=', '<=', '>=', '='])} {atom}")
        return self.random.sample(lines, len(lines))

    def containment(self):
        """Two regions, the second sometimes the first with other names of its auxiliaries."""
        names, rates = ["X", "Y"], ["R", "S"][: self.random.choice([0, 1, 1, 2])]
        lines = ["vars " + ", ".join(names)] + (["rates " + ", ".join(rates)] if rates else [])
        self.names = names
        lines += ["given " + self.given()] if self.chance(0.3) else []
        first, second = (self.random.choice([0, 1, 1]), self.random.choice([0, 1, 1, 2]))
        for count in (first, second):
            auxiliaries = ["U", "V"][:count]
            lines += ["region"] + (["aux " + ", ".join(auxiliaries)] if auxiliaries else [])
            lines += self.own_lines(names + auxiliaries, rates)
        if second and self.chance(0.3):
            sets = [self.random.choice(["0", *names, ",".join(names)]) for _ in range(second)]
            lines.append("try " + "; ".join(f"{name} := {found}" for name, found in zip("UV", sets)))
        return "\n".join(lines + ["contain"]) + "\n"


class Damage:
    """Lines of a report with a few letters left out, put in, exchanged or doubled, mostly numbers and names."""

    LETTERS = list('"{}[],:0123456789-+.eE\\\t ') + ["null", "true", "\\n", "\\u0058", "XYZ", "given ", "R", "-1", "18446744073709551616"]

    def __init__(self, seed, lines):
        self.random, self.lines = Random(seed), lines

    def edit(self, line):
        at = self.random.randrange(len(line))
        end = at + self.random.choice([0, 1, 1, 1, 2, 5])
        numbers = [i for i, letter in enumerate(line) if letter.isdigit()]
        if self.random.random() < 0.3 and numbers:
            at = self.random.choice(numbers)
            return line[:at] + str(self.random.randint(0, 12)) + line[at + 1 :]
        if self.random.random() < 0.2:
            return line[:at] + line[at:end] + line[at:]
        return line[:at] + self.random.choice(["", "", self.random.choice(self.LETTERS)]) + line[end:]

    def line(self):
        line = self.random.choice(self.lines)
        for _ in range(self.random.choice([0, 1, 1, 1, 2, 3])):
            line = self.edit(line)
        return line.replace("\n", " ") + "\n"


class Draws:
    """The example generator of the C standard (ISO/IEC 9899, `rand`) modulo 2**31, without its lower 16 digits."""

    def __init__(self, seed):
        self.state = seed

    def draw(self, below):
        self.state = (1103515245 * self.state + 12345) % 2**31
        return self.state // 65536 % below


def generated_file(seed, count):
    """COUNT questions: whether the sum of three elemental inequalities with weights 1 to 4 is at least 0 to 2 times an entropy."""
    draws, scope, text = Draws(seed), Scope("ABCD"), ""
    names = [g.name for g in scope.elementals()]
    for _ in range(count):
        terms = [f"{1 + draws.draw(4)} {names[draws.draw(28)]}" for _ in range(3)]
        least, of = draws.draw(3), 1 + draws.draw(15)
        text += f"vars A, B, C, D\nprove {' + '.join(terms)} >= {least} H({scope.set_text(of)})\n"
    return text
