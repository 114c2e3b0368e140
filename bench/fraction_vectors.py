#!/usr/bin/env python3
"""Pairs of fractions, and what the operations give for them by Python's exact fractions: `wide` where a number that the operation
names passes 2^127 - 1. For a sum these are Knuth's (The Art of Computer Programming vol. 2, 4.5.1), for a product and a quotient
the two parts in lowest terms. `python3 bench/fraction_vectors.py pairs` prints examples/vectors/fractions.txt, `results` prints
fractions.out beside it."""
import sys
from fractions import Fraction
from math import gcd

# every number of the product is at most this in absolute value
LIMIT = 2**127 - 1

PAIRS = [
    ((2**126, 3), (3, 2**125)),
    ((1, 2**100), (1, 2**100)),
    ((LIMIT, 1), (1, 1)),
    ((2**64, 1), (1, 2**64)),
    ((1, LIMIT), (1, LIMIT)),
    ((1, LIMIT), (2, 1)),
    ((LIMIT - 1, LIMIT), (LIMIT - 2, LIMIT - 1)),
    ((0, 1), (0, 1)),
    ((0, 1), (-5, 7)),
    ((LIMIT, 3), (0, 1)),
    ((0, 1), (-LIMIT, 1)),
    ((-LIMIT, 1), (1, 1)),
    ((-LIMIT, 1), (-1, 1)),
    ((LIMIT, 1), (-LIMIT, 1)),
    ((LIMIT, 2), (LIMIT, 2)),
    ((1, 6), (1, 10)),
    ((-1, 6), (1, 6)),
    ((5, -6), (-3, 4)),
    ((7, 12), (-5, 18)),
    ((6, 4), (3, 2)),
    ((LIMIT, 2**126), (2**126, LIMIT)),
    ((2**126, 1), (2**126, 1)),
    ((2**63, 1), (2**63 - 1, 1)),
    ((-(2**63), 1), (2**63, 1)),
    ((2**62 + 1, 2**63 - 1), (2**62 - 1, 2**63 - 1)),
    ((1, 2**64), (1, 2**63)),
    ((10**30 + 57, 10**24 + 7), (-(10**18) - 9, 10**24 + 7)),
    ((3**60, 2**90), (5**40, 2**94)),
    ((1, 3**40), (1, 2**64)),
    ((3**40, 2**63), (2**60, 3**37)),
]


def within(*numbers):
    return all(abs(number) <= LIMIT for number in numbers)


def total(x, y):
    a, b, c, d = x.numerator, x.denominator, y.numerator, y.denominator
    g = gcd(b, d)
    left, right = a * (d // g), c * (b // g)
    t = left + right
    return x + y if within(left, right, t, (b // g) * (d // gcd(t, g))) else None


def narrow(x):
    return x if within(x.numerator, x.denominator) else None


def shown(x):
    return "wide" if x is None else f"{x.numerator}/{x.denominator}"


for left, right in PAIRS:
    if sys.argv[1] == "pairs":
        print(*left, *right)
        continue
    x, y = Fraction(*left), Fraction(*right)
    quotient = shown(narrow(x / y)) if y else "none"
    order = "less" if x < y else "greater" if x > y else "equal"
    print(shown(total(x, y)), shown(total(x, -y)), shown(narrow(x * y)), quotient, order)
