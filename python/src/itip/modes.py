"""The reports of the modes copy, best and sharing, as lines about the questions that they ask, which `tell` reads (docs/reference/reports.md)."""

from __future__ import annotations

import json
import re
from collections.abc import Mapping
from dataclasses import replace
from typing import Any, NamedTuple

from .copies import copied, read_copies
from .errors import Forged
from .evidence import Generators, point
from .questions import Prove, Question, parse
from .reports import cut, decoded

MOST = 2**64 - 1  # in a question file


class Asked(NamedTuple):
    """A question of a file: what the mode makes of it, and a file of the mode with it alone."""

    made: Question
    alone: str


class Shown(NamedTuple):
    """What shows an answer: a line of a report, or, where no question holds its numbers, the same as the mode's line has it."""

    report: str
    plain: str = ""


def asked(mode: str, file: str, number: int) -> Asked:
    """A question by its number, from 1, of a file that the program has answered. It can have the copies of the file's head."""
    head, *questions = cut(file)
    if mode == "sharing":
        from .sharing import read_sharing

        who, asks = read_sharing(head)
        lines = ["vars " + ", ".join((who.secret, *who.parties)), *(f"given {part.text()}" for part in who.given())]
        return Asked(parse("\n".join([*lines, re.sub("^best ", "prove ", asks)]) + "\n"), file)
    text, copies = questions[number - 1], read_copies(head)
    return Asked(copied(parse(text), copies) if copies else parse(text), head + text)


def heading(mode: str, file: str) -> list[str]:
    """What mode `sharing` says before its answer: how many minimal qualified and maximal unqualified sets there are."""
    if mode != "sharing":
        return []
    from .sharing import read_sharing

    who, _ = read_sharing(cut(file)[0])
    return [f"sharing {len(who.minimal())} {len(who.maximal())}"]


def is_misfit(line: str) -> bool:
    """Whether no question is asked by the line of a report."""
    return bool(decoded(line).get("answer") == "misfit")


def misfit(line: str) -> str:
    """Why none is asked, as the mode's own line says it."""
    cause = str(decoded(line).get("cause"))
    return cause if cause == "other" else f"misfit {cause}"


def shown(line: str, question: Question) -> tuple[str, list[Shown]]:
    """What the line of a report says of the question that is asked, without its details, and what shows that it is true."""
    try:
        return _shown(decoded(line), question)
    except (KeyError, ValueError, TypeError, IndexError, AttributeError):
        raise Forged(f"no line of a report has this shape: {line[:200]}") from None


def _shown(value: Mapping[str, Any], question: Question) -> tuple[str, list[Shown]]:
    word = value["answer"]
    if word == "undecided":
        return undecided(value), []
    if word == "yes":
        return word, [yes_by(question, value["proofs"])]
    if word in ("no", "none"):
        return word, [no_at(question, value["point"], value.get("side", "forward"))]
    assert isinstance(question.goal, Prove)
    above, below = map(int, value["factor"])
    greater, less = question.goal.relation.left, question.goal.relation.right
    first, *others = value["proofs"]
    parts = [yes_by(asking(question, Prove(above * greater >= below * less)), [first])]
    if word == "best":
        parts.append(no_at(asking(question, Prove((above - 1) * greater >= below * less)), value["point"]))
    parts += [yes_by(asking(question, Prove(0 * greater >= greater)), [other]) for other in others]
    return f"{word} {above}/{below}", parts


def undecided(value: Mapping[str, Any]) -> str:
    """The words of an undecided answer, as the mode's own line has them."""
    at = [value["at"]] if value["cause"] not in ("scale", "size") else []
    phase = ["in", str(value["phase"])] if value.get("phase") else []
    return " ".join(["undecided", value["cause"], *at, *phase])


def of_report(line: str) -> tuple[str, list[str]]:
    """What the line of a report says of factors, and the lines of a yes and a no that show it, empty where no question holds their numbers;
    with copies by the question with them, for a sharing file by the one that it makes. Of `undecided` and `misfit` nothing is shown."""
    if is_misfit(line):
        return misfit(line), []
    value = decoded(line)
    file, mode = (value["sharing"], "sharing") if "sharing" in value else (value.get("copies", "") + value.get("question", ""), "best")
    said, parts = shown(line, asked(mode, file, 1).made)
    return said, [part.report for part in parts]


def asking(question: Question, goal: Prove) -> Question:
    return replace(question, goal=goal, source=None)


def report_line(answer: str, question: Question, **keys: Any) -> str:
    text = question.text()
    is_held = all(int(number) <= MOST for number in re.findall("[0-9]+", text))
    return json.dumps({"answer": answer, "question": text, **keys}) if is_held else ""


def yes_by(question: Question, proofs: list[dict[str, Any]]) -> Shown:
    """A yes by its proofs."""
    line = report_line("yes", question, proofs=proofs)
    return Shown(line) if line else Shown("", "as weights " + " and ".join(weights_text(proof, question) for proof in proofs))


def weights_text(proof: Mapping[str, Any], question: Question) -> str:
    """A proof `L : w G + ..`."""
    generators = Generators(question)
    terms = " + ".join(f"{weight} {generators.name(number)}" for number, weight in proof["weights"])
    return f"{proof['scale']} : {terms or '0'}"


def proof_of(text: str, generators: Generators) -> dict[str, Any]:
    """The proof that such a text tells; a generator without a number says nothing."""
    scale, _, terms = text.partition(" : ")
    weighed = [term.split(" ", 1) for term in terms.split(" + ") if term != "0"]
    numbered = [(generators.number(name), weight) for weight, name in weighed]
    return {"scale": scale, "weights": [[number, weight] for number, weight in numbered if number is not None]}


def no_at(question: Question, numbers: list[str], side: str = "forward") -> Shown:
    """A no by the numbers of its point."""
    line = report_line("no", question, point=numbers, side=side)
    return Shown(line) if line else Shown("", f"as point {point(list(map(int, numbers)), question.variables, question.rates).text()}")
