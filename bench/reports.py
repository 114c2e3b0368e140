#!/usr/bin/env python3
"""Writes a report of a given length in bytes for `bench/run check`, each line of which is valid.

usage: reports.py answers|weights|texts|keys BYTES
  answers: the lines of examples/worked-report.json, over and over.
  weights: one line, a proof that weighs one generator many times.
  texts: lines whose question has a comment, so that its text has 1,048,577 bytes, the most.
  keys: one line with many keys that a report doesn't have.
Blanks fill the last line up.
"""

import sys
from pathlib import Path

MOST = 1048577
QUESTION = "vars X, Y\\nprove I(X;Y) >= 0"


def line(scale, weights, more="", comment=""):
    return f'{{"answer":"yes",{more}"proofs":[{{"scale":"{scale}","weights":[{weights}]}}],"question":"{QUESTION}{comment}"}}'


def answers(size):
    lines = Path(__file__).parent.parent.joinpath("examples/worked-report.json").read_text().splitlines()
    report, length, number = [], 0, 0
    while length + len(lines[number % len(lines)]) + 1 <= size:
        report.append(lines[number % len(lines)])
        length += len(report[-1]) + 1
        number += 1
    return report


def weights(size):
    count = (size - len(line("9" * 9, "")) - 1) // len('[2,"1"],')
    return [line(count, ",".join(['[2,"1"]'] * count))]


def texts(size):
    # In the text the two letters that stand for a line feed are one.
    comment = " #" + "." * (MOST - len(QUESTION) + 1 - 2)
    longest = line(1, '[2,"1"]', comment=comment)
    whole, rest = divmod(size, len(longest) + 1)
    left = rest - len(line(1, '[2,"1"]', comment=" #")) - 1
    return [longest] * whole + ([line(1, '[2,"1"]', comment=" #" + "." * left)] if left >= 0 else [])


def keys(size):
    key = '"{:012d}":null,'
    count = (size - len(line(1, '[2,"1"]')) - 1) // len(key.format(0))
    return [line(1, '[2,"1"]', more="".join(key.format(i * 7919 % count) for i in range(count)))]


def main(words):
    kinds = {"answers": answers, "weights": weights, "texts": texts, "keys": keys}
    if len(words) != 2 or words[0] not in kinds:
        print(__doc__, file=sys.stderr)
        return 2
    size = int(words[1])
    report = "\n".join(kinds[words[0]](size))
    sys.stdout.write(report + " " * (size - len(report) - 1) + "\n")
    return 0


sys.exit(main(sys.argv[1:]))
