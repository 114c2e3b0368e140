"""Cases for the comparison of the program with this folder: the words of a call, and the bytes of its input, each made from a seed.

`valid` files are right, `broken` ones have a few tokens, lines or bytes changed; `limits` are at a limit or just past it; `wide` ones
have numbers near 2**64 and denominators near 2**32; `large` ones have nine or ten variables; `reports` are right and damaged lines.
`copies` are files with a head, right ones, broken ones, and ones whose questions can't have the copies. `factors` are files whose
questions ask for factors, most of them `prove E >= F`, in mode `best`: right ones without a head, and right and broken ones with one.
`bounds` are right files for mode `outer`. `sharing` are sharing files, right ones, broken ones, and ones with dozens of lists.
"""

import re
from itertools import combinations
from random import Random

from answers import outcome
from closures import table_size
from generate import Damage, Generator
from questions import ENTRIES, LINES, read

# of each 64 cases
SHARES = {"valid": 14, "broken": 16, "limits": 5, "wide": 4, "large": 1, "reports": 7, "copies": 5, "factors": 5, "sharing": 5, "bounds": 2}
KINDS = [kind for kind, share in SHARES.items() for _ in range(share)]

BUDGETS = ["--pivots", "60", "--rows", "40", "--tries", "8"]
FEW = ["--pivots", "150", "--rows", "12", "--tries", "2"]
WORDS = {
    "valid": [["answer"], ["answer", *BUDGETS], ["answer", "--format", "json", *BUDGETS], ["answer", "--format", "proof", *BUDGETS],
              ["answer", "--pivots", "3", "--rows", "4", "--tries", "3"], ["answer", "--pivots", "none", "--tries", "4"]],
    "broken": [["answer", *BUDGETS]],
    "limits": [["answer", *BUDGETS]],
    "wide": [["answer", *BUDGETS], ["answer", "--format", "json", *BUDGETS], ["answer", "--format", "proof", *BUDGETS]],
    "large": [["answer", *FEW], ["answer", "--format", "json", *FEW], ["answer", "--format", "proof", *FEW]],
    "reports": [["check"]],
    "factors": [["best"], ["best", "--pivots", "none"], ["best", "--pivots", "4"], ["best", "--report"], ["--pivots=4", "--report", "best"]],
    "bounds": [["outer", *BUDGETS], ["outer", "--report", *BUDGETS], ["outer", "--report"], ["outer", "--report", "--pivots", "12"]],
    "sharing": [["sharing"], ["sharing", "--pivots", "60"], ["sharing", "--pivots", "none"], ["--pivots=4", "sharing"],
                ["sharing", "--report"], ["--report", "sharing", "--pivots=4"]],
    "copies": [["copy", "--pivots", "60"], ["copy", "--pivots", "60"], ["copy", "--pivots=300"], ["--pivots", "2", "copy"],
               ["copy", "--report", "--pivots", "60"], ["--pivots", "2", "copy", "--report"]],
}
TOKENS = re.compile(r"[A-Za-z0-9_]+|->|>=|<=|:=|\s|.", re.DOTALL)
PIECES = """H I ( ) , ; | + - -> >= <= = := / 0 1 2 00 1/2 /0 /3 1/0 0/5 18446744073709551615 18446744073709551616 4294967296 4294967297
X Y Z W R0 R1 U V foo H_ of markov indep func vars rates given row region aux try prove eliminate contain copy over secret parties qualified best $ : < > é # _
aaaaaaaaaaaaaaaa aaaaaaaaaaaaaaaaa""".split() + ["\n", "\r", "\t", " ", "", "\r\n"]
NAMES = ["A", "B", "C", "D", "E", "F", "G", "J", "K", "L", "M", "N"]


class Case:
    """The case of a number under a seed."""

    def __init__(self, seed, number):
        self.kind = KINDS[number % len(KINDS)]
        self.name = f"{self.kind}-{seed}-{number}"
        self.random = Random(self.name)
        self.words = self.pick(WORDS[self.kind])
        fractions = self.pick([0, 0.2, 0.5])
        self.generator = Generator(self.name + " questions", fractions)
        self.source = getattr(self, self.kind)().encode("latin-1", "replace")

    def pick(self, choices):
        return self.random.choice(choices)

    def chance(self, probability):
        return self.random.random() < probability

    # Files of every verb

    def questions(self):
        makers = [self.generator.question, self.generator.question, self.generator.system, self.generator.containment]
        return "".join(self.pick(makers)() for _ in range(self.pick([1, 1, 2, 3])))

    def loose(self, text):
        """The same file with other blanks, comments and line ends."""
        if self.chance(0.5):
            return text
        lines, end = [], self.pick(["\n", "\r\n"])
        for line in text.splitlines():
            line = "".join(self.pick([" ", " ", "  ", "\t"]) if letter == " " else letter for letter in line)
            line = self.pick(["", "", "  "]) + line + self.pick(["", "", " ", " # $ \xe9 >", "#"])
            lines += [line] + self.pick([[], [], [], ["# only a comment"], [""], ["\t "]])
        return end.join(lines) + self.pick(["", end])

    def valid(self):
        return self.loose(self.questions())

    def factors(self):
        asked = self.generator.system() if self.chance(0.1) else ""
        signs = [">="] * 8 + ["<=", "="]
        if self.chance(0.7):
            return self.loose(asked + "".join(self.generator.question(signs) for _ in range(self.pick([1, 1, 2, 3]))))
        self.words = [*self.words, "--pivots", "60"] if not any("--pivots" in word for word in self.words) else self.words
        text = self.loose(self.head() + asked + "".join(self.generator.question(signs) for _ in range(self.pick([1, 1, 2]))))
        pieces = TOKENS.findall(text)
        return text if self.chance(0.7) else "".join(self.changed(pieces) or ["\n"])

    def bounds(self):
        return self.loose("".join(self.generator.system() for _ in range(self.pick([1, 1, 2]))))

    def broken(self):
        pieces = TOKENS.findall(self.loose(self.questions()))
        for _ in range(self.pick([1, 1, 1, 2, 3])):
            pieces = self.changed(pieces) or ["\n"]
        return "".join(pieces)

    def changed(self, pieces):
        """One piece left out, exchanged, put in, doubled or swapped with another one; the end cut off; or a line moved."""
        at, other, new = self.random.randrange(len(pieces)), self.random.randrange(len(pieces)), self.pick(PIECES)
        swapped = list(pieces)
        swapped[at], swapped[other] = pieces[other], pieces[at]
        return self.pick([
            pieces[:at] + pieces[at + 1 :], pieces[:at] + [new] + pieces[at + 1 :], pieces[:at] + [new] + pieces[at:],
            pieces[:at] + pieces[at : at + 1] + pieces[at:], swapped, pieces[: at + 1], self.lines_changed(pieces),
        ])

    def lines_changed(self, pieces):
        """A line left out, doubled elsewhere or swapped with another one."""
        lines = "".join(pieces).split("\n")
        at, other = self.random.randrange(len(lines)), self.random.randrange(len(lines))
        swapped = list(lines)
        swapped[at], swapped[other] = lines[other], lines[at]
        lines = self.pick([lines[:at] + lines[at + 1 :], lines[:other] + [lines[at]] + lines[other:], swapped])
        return TOKENS.findall("\n".join(lines))

    # Files at a limit

    def limits(self):
        makers = [self.many_terms, self.many_lines, self.many_names, self.many_members, self.great_numbers, self.great_multiples]
        maker = self.many_bytes if self.chance(0.03) else self.pick(makers)
        return maker()

    def near(self, limit):
        return limit + self.pick([-1, 0, 0, 1, 2])

    def sum_of(self, count, rates=()):
        self.generator.names = ["X", "Y"]
        terms = [self.generator.coefficient() + self.generator.atom(rates) for _ in range(count)]
        return self.pick(["", "", "- "]) + self.pick([" + ", " - "]).join(terms)

    def many_terms(self):
        count = self.near(256)
        left = self.random.randint(1, count - 1)
        sides = [self.sum_of(left, ["R"]), self.sum_of(count - left, ["R"])]
        last = self.pick(["", "", " + foo", " + 0", " + R", " + )", " + 1/0 R", " - 2/", " +", " + $"])
        return f"vars X, Y\nrates R\nprove {sides[0]} >= {sides[1]}{last}\n"

    def many_lines(self):
        word = self.pick(["given", "row", "try", "question"])
        count = self.near(LINES)
        if word == "question":
            return "vars X\nprove 0 >= 0\n" * self.near(1000) + self.pick(["", "vars", "prove", "vars X, X", "$"])
        if word == "try":
            lines = ["vars X", "region", "region", "aux U", "row H(U) <= 0"]
            return "\n".join(lines + self.random.choices(["try U := X", "try U := 0"], k=count) + ["contain"])
        self.generator.names = ["X", "Y"]
        lines = [f"{word} " + (self.generator.given() if word == "given" else self.generator.relation(["R"])) for _ in range(count)]
        lines += ["row H(X) >= 0", "given H(Y) >= 0"]
        self.random.shuffle(lines)
        if self.chance(0.3):
            at, more = sorted(self.random.sample(range(len(lines)), 2))
            return "\n".join(["vars X, Y", "rates R", *lines[:at], "region", *lines[at:more], "region", *lines[more:], "contain"])
        return "\n".join(["vars X, Y", "rates R", *lines, self.pick(["prove R >= 0", "eliminate R", "prove foo", ""])])

    def many_names(self):
        word = self.pick(["vars", "rates", "aux"])
        names = [self.pick("ABCD") + f"_{i}" + self.pick(["", "", "x" * 13]) for i in range(20)]
        if self.chance(0.3):
            at = self.random.randrange(4, 20)
            names[at] = self.pick([names[at - 1], "H", "X", "R", "1", ""])
        if word == "vars":
            return f"vars {', '.join(names[: self.near(10)])}\nprove 0 >= 0\n"
        if word == "rates":
            return f"vars X\nrates {', '.join(names[: self.near(16)])}\nprove 0 >= 0\n"
        common = ", ".join(["X", "Y", *NAMES[: self.pick([0, 3, 5, 6, 8])]])
        own = ", ".join(names[: self.pick([1, 2, 3, 4, 5])])
        return f"vars {common}\nregion\naux {own}\nregion\naux U\ncontain\n"

    def many_members(self):
        word, between = self.pick([("markov", " -> "), ("indep", "; ")])
        members = self.random.choices(["X", "Y", "X,Y", "Z", "Z,X"], k=self.near(16))
        if self.chance(0.3):
            members[-1] = self.pick(["foo", "H", "1", "X,foo", ""])
        last = self.pick(["", "", " | Z", " | foo"])
        return f"vars X, Y, Z\ngiven {word} {between.join(members)}{last}\nprove H(X|Y) <= H(Z)\n"

    def great_numbers(self):
        number = "0" * self.pick([0, 0, 1, 30, 5000]) + str(self.near(2**64 - 1) if self.chance(0.7) else 10**30)
        term = self.pick(["{} H(X)", "{}H(X)", "1/{} H(X)", "{}/2 H(X)", "{}", "H(X) + {}"]).format(number)
        return "vars X\n" + self.pick(["prove {} >= 0\n", "prove 0 <= {}\n", "given {} = 0\nprove 0 >= 0\n"]).format(term)

    def great_multiples(self):
        """Denominators whose least common multiple is near 2**32."""
        parts = [1, 2, 3, 5, 7, 16, 641, 65535, 65536, 65537, 6700417, 2**31 - 1, 2**31, 2**32 - 5, 2**32 - 1, 2**32]
        parts = parts * 3 + [0, 2**32 + 1, 2**64 - 1]
        terms = []
        for _ in range(self.pick([2, 3, 4, 6])):
            terms.append(f"{self.pick([0, 1, 2, 3, 65536])}/{self.pick(parts)} {self.pick(['H(X)', 'R', 'I(X;Y)'])}")
        at = self.random.randrange(1, len(terms))
        relation = f"{' + '.join(terms[:at])} {self.pick(['>=', '=', '<='])} {' - '.join(terms[at:])}"
        return f"vars X, Y\nrates R\n{self.pick(['row', 'row', 'prove'])} {relation}\nprove {self.pick([relation, '0 >= 0'])}\n"

    def many_bytes(self):
        text, count = self.questions(), self.near(1048576)
        return text + "#" * (count - len(text))

    # Numbers that pass

    def great(self):
        numbers = [1, 1, 2, 3, 2**32 - 1, 2**32 + 1, 2**63 - 25, 2**64 - 1, 2**64 - 2, 2**64 - 59]
        number = self.pick(numbers)
        if self.chance(self.generator.fractions):
            return f"{number}/{self.pick([2, 3, 7, 65521, 65537, 2**31 - 1, 2**32 - 5])}"
        return str(number)

    def great_sum(self, atoms):
        chosen = self.random.sample(atoms, min(len(atoms), self.pick([1, 2, 2, 3])))
        return self.pick(["", "", "- "]) + self.pick([" + ", " - "]).join(f"{self.great()} {atom}" for atom in chosen)

    def wide(self):
        rates = ["A", "B", "C"][: self.pick([1, 2, 2, 3])]
        atoms = rates + ["H(X)", "H(Y)", "I(X;Y)", "H(X|Y)"]
        lines = ["vars X, Y", "rates " + ", ".join(rates)]
        lines += ["given " + self.pick(["func X of Y", "indep X; Y", "H(X) = 0", f"{self.great()} H(X) >= {self.great()} H(Y)"])
                  for _ in range(self.pick([0, 0, 1]))]
        sums = rates if self.chance(0.5) else atoms
        for _ in range(self.pick([1, 2, 3, 4])):
            lines.append(f"row {self.great_sum(sums)} {self.pick(['>=', '>=', '<=', '='])} {self.pick(['0', self.great_sum(atoms)])}")
        if self.chance(0.4):
            return "\n".join(lines + ["eliminate " + ", ".join(self.random.sample(rates, self.random.randint(1, len(rates))))])
        return "\n".join(lines + [f"prove {self.great_sum(sums)} >= 0"])

    # Nine and ten variables

    def functions(self, names):
        """Lines that make sets of a few variables determine others, by `func` and in other words."""
        lines = []
        for _ in range(self.pick([0, 1, 2, 3, 4, 6, 8, 10])):
            value = ",".join(self.random.sample(names, self.pick([1, 1, 2, 3, 5])))
            of = ",".join(self.random.sample(names, self.pick([1, 1, 2, 3])))
            lines.append(self.pick([f"given func {value} of {of}", f"given func {value} of {of}", f"given H({value}|{of}) = 0",
                                             f"given 1/3 H({value},{of}) = 1/3 H({of})", f"given 2/3 H({value},{of}) <= 2/3 H({of})"]))
        return lines

    def functions_near(self, names, rates):
        """Of a few lists of such lines the one whose table is nearest to the greatest."""
        def distance(lines):
            question = read("\n".join(["vars " + ", ".join(names[:9]), *lines, "prove 0 >= 0"]))[0]
            return abs(table_size(len(names), rates, question.constraints) - ENTRIES)

        return min((self.functions(names[:9]) for _ in range(8)), key=distance)

    def large(self):
        count = self.pick([9, 10, 10, 10])
        names, rates = NAMES[:count], ["R", "S"][: self.pick([0, 0, 1, 2])]
        near = self.chance(0.5)
        functions = self.functions_near(names, len(rates)) if near else self.functions(names) + self.functions(names)
        self.generator.names = names
        verb = self.pick(["prove", "prove", "prove", "eliminate", "contain"])
        common = names[:7] if verb == "contain" else names
        lines = ["vars " + ", ".join(common)] + (["rates " + ", ".join(rates)] if rates else [])
        if verb == "contain":
            own = [f"row {rate} <= {self.generator.atom([])}" for rate in rates]
            lines += ["region", "aux " + ", ".join(names[7:]), *functions, *own, "region", "aux U", f"given func U of {common[0]}"]
            return "\n".join([*lines, *[f"row {rate} <= H({common[1]})" for rate in rates], "contain"]) + "\n"
        lines += functions + ["given " + self.generator.given()] * self.pick([0, 1])
        lines += [f"row {self.generator.relation(rates)}" for _ in rates]
        if verb == "eliminate" and rates:
            return "\n".join(lines + ["eliminate " + ", ".join(rates)]) + "\n"
        atom = self.generator.coefficient() + self.generator.atom([])
        targets = ["0 >= 0", f"{atom} >= 0", f"H({names[0]},{names[1]}) <= H({names[0]}) + {atom}", self.generator.relation(rates)]
        return "\n".join(lines + ["prove " + self.pick(targets)]) + "\n"

    # Reports

    def reports(self):
        lines = []
        for _ in range(self.pick([1, 2, 3])):
            make, words = self.pick([
                (self.questions, ["answer", "--format", "json", *BUDGETS]), (self.generator.question, ["best", "--report"]),
                (lambda: self.head() + self.generator.question([">="]), ["best", "--report", "--pivots", "60"]), (self.generator.system, ["outer", "--report", *BUDGETS]),
            ])
            text, _ = outcome(words, make().encode())
            lines += text.splitlines()
        damage = Damage(self.name + " damage", lines)
        return "".join(damage.line() for _ in range(self.pick([2, 4, 6])))

    # Files with a head

    def copies(self):
        """Most of the copies can be made. Half of the files are changed."""
        questions = self.pick([self.questions_to_prove, self.questions_to_prove, self.questions_to_prove, self.questions, self.many_variables])()
        text = self.loose(self.head() + questions)
        if self.chance(0.5):
            return text
        pieces = TOKENS.findall(text)
        return "".join(self.changed(pieces) or ["\n"])

    def questions_to_prove(self):
        return "".join(self.generator.question() for _ in range(self.pick([1, 1, 2])))

    def head(self):
        """Copies, some of them of copies before."""
        known, lines = ["X", "Y", "Z", "W"][: self.pick([2, 3, 4, 4])], []
        for name in self.random.sample(["R", "S", "T", "U", "V", "copy", "vars"], self.pick([0, 1, 1, 1, 2, 2, 3, 4, 5])):
            original = self.pick(known)
            others = [other for other in known if other != original]
            over = self.random.sample(others, min(len(others), self.pick([0, 1, 1, 2, 2, 2, 3, 4, 5])))
            if self.chance(0.1):
                original, name = self.pick([(original, self.pick([*known, "R0", "H"])), (self.pick([*over, "R0", "foo", "I"]), name)])
            lines.append(f"copy {name} of {original} over {', '.join(over) or self.pick(['0', '00'])}\n")
            known.append(name)
        return "".join(lines)

    def many_variables(self):
        """So many that two or three copies make them ten, a few of them functions of others, and near so many lines as there may be."""
        names = ["X", "Y", "Z", "W", *NAMES][: self.pick([6, 7, 8, 8, 9])]
        self.generator.names = names
        lines = ["vars " + ", ".join(names), *self.functions(names), *["given H(X) >= 0"] * self.pick([0, 0, 0, 40, 52, 56])]
        return "\n".join([*lines, f"prove {self.generator.relation([])}"]) + "\n"

    # Sharing files

    def sharing(self):
        """A third of the files have dozens of lists. Half of the files are changed."""
        many = self.chance(1 / 3)
        count = self.pick([5, 6, 7, 7, 8, 8, 8]) if many else self.pick([1, 2, 2, 3, 3, 4, 4])
        if many:
            self.words = ["sharing", "--pivots", "20"]
        names = self.random.sample(["s", "secret", "parties", "qualified", "best", "prove", "S_1", *NAMES], count + 1)
        if self.chance(0.05):
            names += ["T", "T", "H", names[0]][: self.pick([1, 2, 3, 4])]
        secret, *parties = names
        lists = self.dozens(parties) if many else [self.listed(parties, [1, 2, 2, 3]) for _ in range(self.pick([1, 2, 3, 3, 4, 5, 6]))]
        self.generator.names = names[:4] if many else names
        verb, signs = self.pick([("prove", (">=", "<=", "=")), ("prove", (">=", "<=", "=")), ("best", (">=",)), ("best", (">=",) * 9 + ("=",))])
        relation = self.pick([self.generator.relation([], signs), f"{self.generator.side([])} >= H({secret})"])
        lines = [f"secret {secret}", "parties " + ", ".join(parties), *[f"qualified {', '.join(of)}" for of in lists], f"{verb} {relation}"]
        text = self.loose("\n".join(lines) + "\n")
        if self.chance(0.5):
            return text
        pieces = TOKENS.findall(text)
        return "".join(self.changed(pieces) or ["\n"])

    def listed(self, parties, sizes):
        return self.random.choices(parties, k=2) if self.chance(0.05) else self.random.sample(parties, min(len(parties), self.pick(sizes)))

    def dozens(self, parties):
        """Lists of one size, sometimes so many that there is hardly room for one more."""
        size = self.pick([2, 3, 3, 4, 4, 5])
        count = self.near(LINES) if self.chance(0.2) else self.random.randint(12, 60)
        lists = [list(of) for of in combinations(parties, size)]
        lists = self.random.sample(lists, min(count, len(lists)))
        return lists + [self.listed(parties, [size, size + 1]) for _ in range(count - len(lists) if self.chance(0.5) else 1)]
