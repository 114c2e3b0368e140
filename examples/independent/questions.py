"""Reads question files: what a question says, as rows over joint entropies and rates, or the first fault of a text that is none.

A set of variables is a whole number whose binary digit i stands for variable i. A row is a dict from a coordinate to a whole
number: a nonempty set's number, or 2**n + r for rate r. A text is read from the left. Each rule is asked about the next token, or about
the end of the line where there is none; the first one that isn't kept is the fault. So at one token its spelling is judged first, when it
is looked at, then its place in the grammar, what it means, and the limits.
"""

import re
from collections import namedtuple
from functools import lru_cache
from itertools import combinations
from math import comb, lcm

from closures import table_size

BLANKS = re.compile(" *")
TOKEN = re.compile(r"([A-Za-z][A-Za-z0-9_]*)|([0-9]+)|->|>=|<=|:=|[(),;|+=/-]")
SIGNS = (">=", "<=", "=")

# the most of each, and the most entries of a table
QUESTIONS, VARIABLES, AUXILIARIES, RATES, LINES, MEMBERS, TERMS = 1000, 10, 4, 16, 64, 16, 256
ENTRIES = 4000000

# how large the questions of a file may be: how many names of variables, and how many entries of a table, None where these aren't bounded
Limits = namedtuple("Limits", "variables entries")
USUAL = Limits(VARIABLES, ENTRIES)


def wide(names):
    """The limits of files with so many names; a containment has at most VARIABLES in any file."""
    return Limits(names, None)


# the greatest least common multiple of a relation's denominators
MULTIPLE = 2**32


class Fault(Exception):
    """The first fault of a text: its line and column, from 1, and its word."""

    def __init__(self, line, column, word):
        super().__init__(f"{line}:{column} {word}")


class Generator:
    """An inequality (row at least 0) or an equation (row is 0), with the name that a certificate gives it."""

    def __init__(self, name, row, equation=False, given=False):
        self.name, self.row, self.equation, self.given = name, row, equation, given

    def least(self):
        """The rows that are at least 0: for an equation the row and the negated row."""
        return [self.row, negated(self.row)] if self.equation else [self.row]


class Scope:
    """Variables, rates and the constraints that speak of them."""

    def __init__(self, names, rates=()):
        self.names, self.rates, self.constraints = list(names), list(rates), []

    def size(self):
        """The number of coordinates, the last one's number."""
        return 2 ** len(self.names) - 1 + len(self.rates)

    def set_text(self, number):
        return ",".join(name for i, name in enumerate(self.names) if number >> i & 1)

    def coordinate_text(self, at):
        n = len(self.names)
        return f"h({self.set_text(at)})" if at < 2**n else self.rates[at - 2**n]

    def elementals(self):
        return elementals(tuple(self.names))

    def entropy_text(self, of, given):
        return f"H({self.set_text(of)}|{self.set_text(given)})" if given else f"H({self.set_text(of)})"

    def mutual_text(self, x, y, given):
        bar = f"|{self.set_text(given)}" if given else ""
        return f"I({self.set_text(x)};{self.set_text(y)}{bar})"

    def generators(self):
        return self.elementals() + self.constraints

    def elemental_count(self):
        n = len(self.names)
        return n + comb(n, 2) * 2**n // 4

    def generator(self, number):
        """One generator, where a list of all of them would be long; an elemental inequality without its name. None where there is none."""
        first = self.elemental_count()
        if number < first:
            return Generator("", elemental_row(len(self.names), number))
        return self.constraints[number - first] if number - first < len(self.constraints) else None


@lru_cache
def pairs(n):
    return list(combinations(range(n), 2))


def elemental_row(n, number):
    """The row of an elemental inequality, in the order of `elementals`: K is the rest of the number with a 0 put in at i and at j."""
    if number < n:
        return row_of([(1, 2**n - 1), (-1, 2**n - 1 - 2**number)])
    pair, k = divmod(number - n, 2 ** (n - 2))
    i, j = pairs(n)[pair]
    for place in (i, j):
        k = (k >> place) * 2 ** (place + 1) + k % 2**place
    x, y = 2**i, 2**j
    return row_of([(1, x | k), (1, y | k), (-1, x | y | k), (-1, k)])


@lru_cache(maxsize=16)
def elementals(names):
    """H(X|all others), then I(X;Y|K) for X before Y and K by number."""
    scope, n = Scope(names), len(names)
    whole, found = 2**n - 1, []
    for i in range(n):
        others = whole - 2**i
        found.append(Generator(scope.entropy_text(2**i, others), row_of([(1, whole), (-1, others)])))
    for i in range(n):
        for j in range(i + 1, n):
            x, y = 2**i, 2**j
            for k in range(2**n):
                if not k & (x | y):
                    terms = [(1, x | k), (1, y | k), (-1, x | y | k), (-1, k)]
                    found.append(Generator(scope.mutual_text(x, y, k), row_of(terms)))
    return found


class Question(Scope):
    """A question by its verb. `prove`: `targets`, `sides` with the sign, rows in `constraints`. `eliminate`: `rows`, and `eliminated` coordinates, the
    `given` lines alone in `constraints`. `contain`: the two `regions`, each a `Region`, and `tries`, each with a set for each
    auxiliary of the second."""

    def __init__(self, names):
        super().__init__(names)
        self.verb, self.targets, self.rows, self.eliminated, self.regions, self.tries = None, [], [], [], [], []
        # the number of its line, how many `given` lines it has, what is read of its lines, and the two sides of its relation
        self.line, self.givens, self.text, self.sides = 0, 0, "", None

    def system(self):
        return [row for constraint in self.rows for row in constraint.least()]


class Region(Scope):
    """A region with its auxiliaries, the last of its names, and its own lines alone."""

    def __init__(self, question):
        super().__init__(question.names, question.rates)
        self.auxiliaries = 0

    def auxiliary_names(self):
        return self.names[len(self.names) - self.auxiliaries:]


def row_of(terms):
    """The row of a list of (coefficient, coordinate); the empty set has the value 0."""
    row = {}
    for coefficient, at in terms:
        if at:
            row[at] = row.get(at, 0) + coefficient
    return {at: row[at] for at in sorted(row) if row[at]}


def negated(row):
    return {at: -c for at, c in row.items()}


def number_of(digits):
    return int(digits.lstrip("0") or "0") if len(digits.lstrip("0")) < 21 else 2**64


class Line:
    """The tokens of a line, read from the left."""

    def __init__(self, text, number, scope=None):
        self.text, self.number, self.scope = text, number, scope
        # where the last token that was taken ends
        self.at = 0
        # of a relation: how many terms were begun, the least common multiple of the denominators, and the sign with the rows of both sides
        self.terms, self.multiple, self.sides = 0, 1, None

    def start(self):
        """Where the next token starts; where there is none, the end of the last one."""
        start = BLANKS.match(self.text, self.at).end()
        return start if start < len(self.text) else self.at

    def rule(self, kept, word):
        """A rule on the next token, or on the line's end."""
        if not kept:
            raise Fault(self.number, self.start() + 1, word)

    def peek(self):
        """The next token, which must be spelled rightly; at the line's end an empty text."""
        start = BLANKS.match(self.text, self.at).end()
        if start == len(self.text):
            return ""
        match = TOKEN.match(self.text, start)
        self.rule(match, "byte")
        self.rule(not match[1] or len(match[1]) <= 16, "many")
        self.rule(not match[2] or number_of(match[2]) < 2**64, "number")
        return match[0]

    def next(self):
        token = self.peek()
        self.at = self.start() + len(token)
        return token

    def take(self, token):
        return self.peek() == token and bool(self.next())

    def want(self, token):
        self.rule(self.take(token), "word")

    def end(self):
        self.rule(not self.peek(), "word")

    def name(self):
        """The next token, which must be a name; it is looked at and not taken."""
        name = self.peek()
        self.rule(name[:1].isalpha() and name not in ("H", "I"), "word")
        return name

    def new_names(self, taken, most):
        """Names that aren't taken, and differ; at most the given number."""
        names = []
        while True:
            name = self.name()
            self.rule(name not in taken and name not in names, "twice")
            self.rule(len(names) < most, "many")
            names.append(self.next())
            if not self.take(","):
                self.end()
                return names

    def known(self, names, room=True):
        """The number of the next name, which is one of these; `room` says that one more may stand there."""
        name = self.name()
        self.rule(name in names, "name")
        self.rule(room, "many")
        return names.index(self.next())

    def set(self, room=True):
        number = 2 ** self.known(self.scope.names, room)
        while self.take(","):
            number |= 2 ** self.known(self.scope.names)
        return number

    def sets(self, between, least):
        sets = [self.set()]
        while len(sets) < least or self.peek() == between:
            self.want(between)
            sets.append(self.set(len(sets) < MEMBERS))
        return sets

    def atom(self, rates, room=True):
        """Coordinates with their coefficients."""
        if self.peek() not in ("H", "I"):
            return [(1, 2 ** len(self.scope.names) + self.known(self.scope.rates if rates else [], room))]
        self.rule(room, "many")
        word = self.next()
        self.want("(")
        left = self.set()
        right = None
        if word == "I":
            self.want(";")
            right = self.set()
        given = self.set() if self.take("|") else 0
        self.want(")")
        if right is None:
            return [(1, left | given), (-1, given)]
        return [(1, left | given), (1, right | given), (-1, left | right | given), (-1, given)]

    def value(self):
        """The value of the next token, None where it is no number; it is looked at and not taken."""
        token = self.peek()
        return number_of(token) if token[:1].isdigit() else None

    def denominator(self):
        denominator = self.value()
        self.rule(denominator is not None, "word")
        self.rule(denominator and lcm(self.multiple, denominator) <= MULTIPLE, "number")
        self.multiple = lcm(self.multiple, denominator)
        self.next()
        return denominator

    def term(self, rates):
        """The number and the denominator of a term, and its coordinates with their coefficients."""
        self.terms += 1
        room, number, denominator = self.terms <= TERMS, self.value(), 1
        if number is None:
            return 1, 1, self.atom(rates, room)
        self.rule(room, "many")
        self.next()
        if self.take("/"):
            denominator = self.denominator()
        elif number == 0 and not self.peek()[:1].isalpha():
            return 0, 1, []
        return number, denominator, self.atom(rates)

    def side(self, rates):
        """The terms of a sum, each after its sign."""
        terms, sign = [], self.next() if self.peek() in ("+", "-") else "+"
        while True:
            terms.append((1 if sign == "+" else -1, *self.term(rates)))
            if self.peek() not in ("+", "-"):
                return terms
            sign = self.next()

    def relation(self, rates, signs=SIGNS):
        """The row that is at least 0, or 0, and whether it is an equation. All is multiplied by the least common multiple of the
        denominators as they are written, those of both sides."""
        left = self.side(rates)
        self.rule(self.peek() in signs, "word")
        sign = self.next()
        right = self.side(rates)
        self.end()
        left, right = [[(minus * p * (self.multiple // q) * c, at) for minus, p, q, atom in side for c, at in atom] for side in (left, right)]
        self.sides = sign, row_of(left), row_of(right)
        if sign == "<=":
            left, right = right, left
        return row_of(left + [(-c, at) for c, at in right]), sign == "="

    def given(self, number):
        """The constraints of a `given` line, the line's number among them being `number`."""
        name = f"given {number}"
        if self.take("markov"):
            chain = self.sets("->", 3)
            self.end()
            rows, before = [], 0
            for i in range(1, len(chain) - 1):
                before |= chain[i - 1]
                mid, after = chain[i], chain[i + 1]
                rows.append(row_of([(1, before | mid), (1, after | mid), (-1, before | after | mid), (-1, mid)]))
            if len(rows) == 1:
                return [Generator(name, rows[0], True, True)]
            return [Generator(f"{name}.{i + 1}", row, True, True) for i, row in enumerate(rows)]
        if self.take("indep"):
            members = self.sets(";", 2)
            given = self.set() if self.take("|") else 0
            self.end()
            union, terms = given, []
            for member in members:
                terms += [(1, member | given), (-1, given)]
                union |= member
            return [Generator(name, row_of(terms + [(-1, union), (1, given)]), True, True)]
        if self.take("func"):
            value = self.set()
            self.want("of")
            argument = self.set()
            self.end()
            return [Generator(name, row_of([(1, value | argument), (-1, argument)]), True, True)]
        row, equation = self.relation(False)
        return [Generator(name, row, equation, True)]

    def tried(self, first, second):
        """The sets of a `try` line: each auxiliary of the second region once, with a set of the first one's variables."""
        auxiliaries, sets = second.auxiliary_names(), {}
        self.scope = first
        while True:
            name = self.name()
            self.rule(name in auxiliaries, "name")
            self.rule(name not in sets, "twice")
            self.next()
            self.want(":=")
            number = self.value()
            self.rule(not number, "word")
            if number is None:
                sets[name] = self.set()
            else:
                sets[name] = number
                self.next()
            if not self.take(";"):
                break
        self.end()
        self.rule(len(sets) == len(auxiliaries), "word")
        return [sets[name] for name in auxiliaries]


class File:
    """The questions of the lines of a text from the one with number `first` on; `Fault` where they are none."""

    def __init__(self, lines, first=1, limits=USUAL):
        self.questions, self.question, self.before = [], None, None
        self.limits = limits
        self.counts = {}
        for number, line in enumerate(lines[first - 1 :], first):
            self.read(line, number)
        if self.question:
            raise Fault(len(lines) + 1, 1, "unfinished")

    def scope(self):
        return self.question.regions[-1] if self.question and self.question.regions else self.question

    def words(self):
        """What the next line may begin with."""
        if not self.question:
            return ["vars"]
        regions = len(self.question.regions)
        words = [] if self.before == "try" else ["given", "row"]
        if self.before == "vars":
            words.append("rates")
        if self.before == "region":
            words.append("aux")
        if regions == 0:
            words += ["prove", "eliminate"]
        if regions < 2:
            words.append("region")
        else:
            words += ["try", "contain"] if self.scope().auxiliaries else ["contain"]
        return words

    def is_large(self, verb):
        """Whether a question with this verb is too large: its names for a containment, which begins with `region`, or the first table
        of the question: of its `given` lines to eliminate, of its first region's lines to contain."""
        question = self.question
        if verb == "region":
            return len(question.names) > VARIABLES
        if self.limits.entries is None:
            return False
        scope = question.regions[0] if verb == "contain" else question
        constraints = question.constraints + (scope.constraints if scope is not question else [])
        if verb == "eliminate":
            constraints = [g for g in constraints if g.given]
        return table_size(len(scope.names), len(question.rates), constraints) > self.limits.entries

    def read(self, text, number):
        if not text.strip(" "):
            return
        line = Line(text, number, self.scope())
        word = line.peek()
        line.rule(word in self.words(), "word")
        if word == "vars":
            line.rule(len(self.questions) < QUESTIONS, "many")
        if word in ("given", "row", "try"):
            self.counts[word] = self.counts.get(word, 0) + 1
            line.rule(self.counts[word] <= LINES, "many")
        if word in ("prove", "eliminate", "region", "contain"):
            line.rule(not self.is_large(word), "large")
        line.next()
        getattr(self, word)(line)
        self.before = word
        of = self.question or self.questions[-1]
        of.text += text.strip(" ") + "\n"

    def vars(self, line):
        self.question, self.counts = Question(line.new_names([], self.limits.variables)), {}
        self.question.line = line.number

    def rates(self, line):
        self.question.rates = line.new_names(self.question.names, RATES)

    def given(self, line):
        self.scope().constraints += line.given(self.counts["given"])

    def row(self, line):
        row, equation = line.relation(True)
        self.scope().constraints.append(Generator(f"row {self.counts['row']}", row, equation))

    def region(self, line):
        line.end()
        self.question.regions.append(Region(self.question))

    def aux(self, line):
        scope = self.scope()
        names = line.new_names(scope.names + scope.rates, min(AUXILIARIES, VARIABLES - len(scope.names)))
        scope.names += names
        scope.auxiliaries = len(names)

    def try_(self, line):
        self.question.tries.append(line.tried(*self.question.regions))

    def prove(self, line):
        row, equation = line.relation(True)
        self.question.targets, self.question.sides = Generator("", row, equation).least(), line.sides
        self.done("prove")

    def eliminate(self, line):
        question = self.question
        listed = []
        while True:
            rate = line.name()
            line.rule(rate in question.rates, "name")
            line.rule(rate not in listed, "twice")
            listed.append(line.next())
            if not line.take(","):
                break
        line.end()
        question.eliminated = [2 ** len(question.names) + question.rates.index(rate) for rate in listed]
        question.rows = [g for g in question.constraints if not g.given]
        question.constraints = [g for g in question.constraints if g.given]
        self.done("eliminate")

    def contain(self, line):
        line.end()
        for region in self.question.regions:
            region.constraints.sort(key=lambda g: not g.given)
        self.done("contain")

    def done(self, verb):
        # Generators are numbered with all `given` lines first.
        self.question.constraints.sort(key=lambda g: not g.given)
        self.question.verb, self.question.givens = verb, self.counts.get("given", 0)
        self.questions.append(self.question)
        self.question = None


setattr(File, "try", File.try_)


def lines_of(text):
    """What is read of each line of a text."""
    lines = text.removesuffix("\n").split("\n") if text else []
    return [line.removesuffix("\r").split("#")[0].replace("\t", " ") for line in lines]


def read(text, limits=USUAL):
    """The questions of a file, each character of `text` a byte; `Fault` where it is none."""
    return File(lines_of(text), 1, limits).questions
