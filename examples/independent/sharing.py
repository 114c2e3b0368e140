"""Sharing files: who may know a secret, and the question that is made of it.

The listed sets of parties know the secret together, and so do all sets that hold one of them; each other set of parties knows nothing of
it (Beimel, "Secret-Sharing Schemes: A Survey", 2011). It is enough to say so of the least sets that know it and the greatest that don't.
"""

from questions import LINES, SIGNS, Fault, Generator, Line, Question, lines_of, negated, row_of

# the most parties
PARTIES = 8


class TooMany:
    """In a question's place: the sets to be told of are more than a question may have lines. Nothing is asked by it."""

    verb = None

    def __str__(self):
        return "many"


class Made(Question):
    """The question of a sharing file, with the numbers of both kinds of sets, and whether the least factor is asked for."""

    def __init__(self, names, minimal, maximal, least):
        super().__init__(names)
        self.verb, self.minimal, self.maximal, self.least = "prove", len(minimal), len(maximal), least
        rows = [row_of([(1, 1 | a), (-1, a)]) for a in minimal] + [row_of([(1, 1), (1, b), (-1, 1 | b)]) for b in maximal]
        self.constraints = [Generator(f"given {number}", row, True, True) for number, row in enumerate(rows, 1)]
        self.givens = len(rows)


class Reader:
    """The lines of a sharing file in their order; the secret is variable 0."""

    def __init__(self, text):
        lines = lines_of(text)
        self.count = len(lines)
        self.lines = iter([(number, plain) for number, plain in enumerate(lines, 1) if plain.strip(" ")])
        self.question = Question([])
        self.listed = []

    def line(self, *words):
        """The next line and its first word, which must be one of these; the word isn't taken."""
        number, plain = next(self.lines, (None, None))
        if plain is None:
            raise Fault(self.count + 1, 1, "unfinished")
        line = Line(plain, number, self.question)
        line.rule(line.peek() in words, "word")
        return line, line.peek()

    def qualified(self, line):
        line.rule(len(self.listed) < LINES, "many")
        line.next()
        parties, known = self.question.names[1:], 0
        while True:
            known |= 2 << line.known(parties)
            if not line.take(","):
                break
        line.end()
        self.listed.append(known)

    def read(self):
        """The word of the last line, the row that is at least 0 or 0 and whether it is an equation."""
        line, _ = self.line("secret")
        line.next()
        self.question.names.append(line.name())
        line.next()
        line.end()
        line, _ = self.line("parties")
        line.next()
        self.question.names += line.new_names(self.question.names, PARTIES)
        line, word = self.line("qualified")
        while word == "qualified":
            self.qualified(line)
            line, word = self.line("qualified", "prove", "best")
        line.next()
        relation = line.relation(True, (">=",) if word == "best" else SIGNS)
        for number, plain in self.lines:
            after = Line(plain, number)
            after.rule(not after.peek(), "word")
        return word, relation, line.sides


def minimal_sets(listed):
    """The listed sets that hold no other one, each once, in their order."""
    return [a for a in dict.fromkeys(listed) if not any(b != a and b | a == a for b in listed)]


def maximal_sets(parties, listed):
    """The sets of parties that hold no listed one, without those that lie in another such set, by number. Variable 0 is no party."""
    knows = lambda b: any(a | b == b for a in listed)
    unknowing = [b for b in range(0, 2 << parties, 2) if not knows(b)]
    # with one party more it would be another such set, or a greater one
    return [b for b in unknowing if all(b >> i & 1 or knows(b | 1 << i) for i in range(1, parties + 1))]


def made(text):
    """The question that a sharing file makes, or `TooMany`; `Fault` where it is no sharing file."""
    reader = Reader(text)
    word, (row, equation), sides = reader.read()
    names = reader.question.names
    minimal, maximal = minimal_sets(reader.listed), maximal_sets(len(names) - 1, reader.listed)
    if len(minimal) + len(maximal) > LINES:
        return TooMany()
    question = Made(names, minimal, maximal, word == "best")
    question.targets = [row, negated(row)] if equation else [row]
    question.sides = sides
    return question
