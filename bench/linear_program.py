#!/usr/bin/env python3
"""linear_program.py < QUESTION: the linear program over all sets of a `prove` question with one target, in the format LP that QSopt_ex and
glpsol read: the least value of the target, but no less than -1, at the polymatroids and rates that meet the givens. It is 0 for a yes
and -1 for a no. It ends with 1 where the question is another one."""
import sys
from pathlib import Path

sys.path.insert(0, str(Path(__file__).parent.parent / "examples/independent"))
from questions import read  # noqa: E402


def form(row):
    return " ".join(f"{'-' if number < 0 else '+'} {abs(number)} h{place}" for place, number in sorted(row.items())) or "0 h1"


def main():
    question = read(sys.stdin.read())[0]
    if question.verb != "prove" or len(question.targets) != 1:
        sys.exit(1)
    target = form(question.targets[0])
    print(f"Minimize\n least: {target}\nSubject To\n bound: {target} >= -1")
    for number, generator in enumerate(question.generators()):
        print(f" c{number}: {form(generator.row)} {'=' if generator.equation else '>='} 0")
    print("Bounds")
    for place in range(2 ** len(question.names), question.size() + 1):
        print(f" h{place} free")
    print("End")


main()
