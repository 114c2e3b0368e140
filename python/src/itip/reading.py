"""Reads the notation of question files (docs/reference/grammar.md), in which users may write and `tell` answers."""

from __future__ import annotations

import re
from fractions import Fraction
from math import lcm
from typing import NoReturn

from .errors import NotationError
from .latex import SIGNS
from .notation import Assumption, Constraint, Entropy, Names, Rate, Relation, Sum, Term, checked_name

TOKEN = re.compile(r"[A-Za-z][A-Za-z0-9_]*|[0-9]+|->|>=|<=|:=|[(),;|+\-=/]")
BETWEEN = {"markov": "->", "indep": ";", "func": "of"}


class Reader:
    """A text as tokens, taken one after the other.

    With `is_whole` a relation is read as what it means with whole coefficients: times the least common multiple of its denominators, as
    they are written.
    """

    def __init__(self, text: str, is_whole: bool = False) -> None:
        self.text = text
        self.is_whole = is_whole
        self.multiple = 1  # of the denominators up to here
        self.at = 0
        self._skip()

    def _skip(self) -> None:
        while self.text[self.at : self.at + 1].isspace():
            self.at += 1

    def fault(self, said: str) -> NoReturn:
        raise NotationError(f"{said}\n    {self.text}\n    {' ' * self.at}^")

    def look(self) -> str:
        """The next token; nothing at the end."""
        if self.at == len(self.text):
            return ""
        found = TOKEN.match(self.text, self.at)
        if not found:
            self.fault(f"nothing begins with {self.text[self.at]!r}")
        return found.group()

    def take(self, wanted: str = "") -> str:
        token = self.look()
        if not token or (wanted and token != wanted):
            self.fault(f"{wanted or 'more'!r} is wanted here")
        self.at += len(token)
        self._skip()
        return token

    def takes(self, *tokens: str) -> str:
        """Takes the next token if it is one of these, else nothing."""
        return self.take() if self.look() in tokens else ""

    def name(self) -> str:
        if not self.look()[:1].isalpha():
            self.fault("a name is wanted here")
        return checked_name(self.take())

    def names(self) -> Names:
        found = [self.name()]
        while self.takes(","):
            found.append(self.name())
        return tuple(found)

    def atom(self) -> Entropy | Rate:
        if self.look() not in ("H", "I"):
            return Rate(self.name())
        word = self.take()
        self.take("(")
        left, right, condition = self.names(), (), ()  # type: Names, Names, Names
        if word == "I":
            self.take(";")
            right = self.names()
        if self.takes("|"):
            condition = self.names()
        self.take(")")
        return Entropy(left, right, condition)

    def number(self) -> int:
        if not self.look().isdigit():
            self.fault("a number is wanted here")
        return int(self.take())

    def term(self) -> list[Term]:
        """An atom with its number, or 0 alone."""
        if not self.look().isdigit():
            return [(Fraction(1), self.atom())]
        number = Fraction(self.number())
        if self.takes("/"):
            divisor = self.number() or self.fault("nothing is divided by 0")
            self.multiple = lcm(self.multiple, divisor)
            number /= divisor
        elif not number and not self.look()[:1].isalpha():
            return []
        return [(number, self.atom())]

    def sum(self) -> Sum:
        terms: list[Term] = []
        sign = self.takes("+", "-") or "+"
        while sign:
            terms += [(-number if sign == "-" else number, atom) for number, atom in self.term()]
            sign = self.takes("+", "-")
        return Sum(terms)

    def relation(self) -> Relation:
        left = self.sum()
        sign = self.takes(*SIGNS) or self.fault("a relation has one of the signs <=, >= and = here")
        right = self.sum()
        return Relation(self.multiple * left, sign, self.multiple * right) if self.is_whole else Relation(left, sign, right)

    def assumption(self) -> Assumption:
        begin = self.at
        word = self.takes(*BETWEEN)
        if not word or not self.look()[:1].isalpha():
            self.at = begin  # a relation, where the word names a rate
            return self.relation()
        lists = [self.names()]
        while self.takes(BETWEEN[word]):
            lists.append(self.names())
        condition = self.names() if word == "indep" and self.takes("|") else ()
        least = 3 if word == "markov" else 2
        if len(lists) < least or (word == "func" and len(lists) > 2):
            self.fault(f"{BETWEEN[word]!r} is wanted here")
        return Constraint(word, tuple(lists), condition)

    def end(self) -> None:
        if self.look():
            self.fault("nothing more is wanted here")


def relation(text: str) -> Relation:
    """A relation in the notation of question files.

    >>> relation("I(X;Z) <= 1/2 I(X;Y)")
    I(X;Z) <= 1/2 I(X;Y)
    """
    reader = Reader(text)
    found = reader.relation()
    reader.end()
    return found


def assumption(text: str) -> Assumption:
    """A relation, or a constraint in its words.

    >>> assumption("markov X -> Y -> Z")
    markov X -> Y -> Z
    """
    reader = Reader(text)
    found = reader.assumption()
    reader.end()
    return found
