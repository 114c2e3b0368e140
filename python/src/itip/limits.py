"""Which limit a refused file passes, and by how much, for `./ask`: a count of what stands in the file (docs/reference/grammar.md, "Limits")."""

from __future__ import annotations

import re

from .errors import NotationError

TYPE_CHECKING = False
if TYPE_CHECKING:
    from collections.abc import Iterator, Mapping, Sequence
    from fractions import Fraction
    from typing import Tuple

    from .notation import Key
    from .questions import Question

    Count = Tuple[str, int, int]  # what is counted, how many there are, and how many there may be

NAME = re.compile("[A-Za-z][A-Za-z0-9_]*")
SIGNS = re.compile("<=|>=|=|[-+]")
MOST_NAMES = 10  # of a question where nothing else is said, and of a containment
MOST_PARTIES = 8
MOST_ENTRIES = 4_000_000
VERBS = {"prove": "prove 0 >= 0", "eliminate": "eliminate R", "contain": "contain"}


def passed(text: str, word: str, number: int, column: int, names: int = MOST_NAMES) -> str:
    """`variables of this question: 11, of at most 10` for a refusal at a place of a file. Nothing where no count is past its limit.

    `names` is how many variables a question may name.
    """
    lines = [line.partition("#")[0].replace("\t", " ").rstrip(" \r") for line in text.split("\n")]
    if word not in ("many", "large") or number > len(lines):
        return ""
    if word == "large" and _word(lines[number - 1]) != "region":
        return _entries(lines, number)
    counts = _counts(lines, number, column, names)
    return next((f"{what}: {count:,}, of at most {most:,}" for what, count, most in counts if count > most), "")


def _counts(lines: Sequence[str], number: int, column: int, names: int) -> Iterator[Count]:
    """What a line may have too many of, by its first word, beginning with what is at the place."""
    line = lines[number - 1]
    first, named = _word(line), line.strip()[len(_word(line)) :]
    is_first = not line[: column - 1].strip(" ")
    token = re.match("[A-Za-z0-9_]*", line[column - 1 :])
    yield "letters of this name", len(token.group()) if token else 0, 16
    begin, end = _question(lines, number)
    question = lines[begin:end]
    if first == "vars":
        yield "questions of this file", _many(lines, first), 1000
        yield "variables of this question", len(NAME.findall(named)), names
    elif first == "region":
        yield "variables of a question about regions", sum(len(NAME.findall(one)) - 1 for one in question[:1]), MOST_NAMES
    elif first == "aux":
        yield "auxiliaries of this region", len(NAME.findall(named)), 4
        variables = [name for one in question[:1] for name in NAME.findall(one)[1:]]
        yield "variables of this region, with its auxiliaries", len(variables) + len(NAME.findall(named)), MOST_NAMES
    elif first == "rates":
        yield "rates of this question", len(NAME.findall(named)), 16
    elif first in ("given", "row", "try", "prove", "best"):
        if is_first:
            yield f"`{first}` lines of this question", _many(question, first), 64
        yield from _parts(named)
    elif first == "copy":
        yield "copies of this head", _many(lines, first), 4
        yield "names of this set", len(NAME.findall(named.partition(" over ")[2])), 4
    elif first == "parties":
        yield "parties", len(NAME.findall(named)), MOST_PARTIES if names == MOST_NAMES else names - 1
    elif first == "qualified":
        yield "`qualified` lines of this file", _many(lines, first), 64


def _parts(relation: str) -> Iterator[Count]:
    """Lists of a chain or an independence, and terms of a relation on both sides; a 0 is one."""
    word = _word(relation)
    if word in ("markov", "indep"):
        yield "lists of this line", len(re.split("->|;", relation.partition("|")[0])), 16
    else:
        outside = re.sub(r"\([^()]*\)", "", relation)
        yield "terms of this relation", sum(bool(part.strip(" ")) for part in SIGNS.split(outside)), 256


def _word(line: str) -> str:
    found = NAME.match(line.strip(" "))
    return found.group() if found else ""


def _many(lines: Sequence[str], word: str) -> int:
    return sum(_word(line) == word for line in lines)


def _question(lines: Sequence[str], number: int) -> tuple[int, int]:
    """Where the question of a line begins, and where it ends."""
    begin = max((place for place in range(number) if _word(lines[place]) == "vars"), default=0)
    return begin, next((place for place in range(number, len(lines)) if _word(lines[place]) == "vars"), len(lines))


def _entries(lines: Sequence[str], number: int) -> str:
    """How large the table is of the question whose last line this is. Nothing where it can't be read."""
    from .questions import parse

    begin, _ = _question(lines, number)
    asks = VERBS.get(_word(lines[number - 1]), "")  # (what stands behind the verb isn't read yet)
    try:
        rows, columns = table(parse("\n".join([*filter(None, lines[begin : number - 1]), asks]) + "\n"))
    except (NotationError, IndexError):
        return ""
    entries = rows * columns
    return f"rows times columns of its table: {rows:,} x {columns:,} = {entries:,}, of at most {MOST_ENTRIES:,}" if entries > MOST_ENTRIES else ""


def table(question: Question) -> tuple[int, int]:
    """The rows and columns of a question's table. An elimination's has no `row` lines, a containment's those of the first region."""
    from .evidence import elemental_count
    from .notation import Constraint
    from .questions import Contain, Eliminate

    variables, given = list(question.variables), list(question.given)
    relations = [] if isinstance(question.goal, Eliminate) else list(question.rows)
    if isinstance(question.goal, Contain):
        first = question.goal.first
        variables += first.auxiliaries
        given += first.given
        relations += first.rows
    constraints = sum(2 * len(part.sums()) if isinstance(part, Constraint) else 1 + (part.sign == "=") for part in [*given, *relations])
    equations = [says for part in given for says in (part.sums() if isinstance(part, Constraint) else [part.target()] if part.sign == "=" else [])]
    rows = len(question.rates) + closed_sets(variables, [says.joint() for says in equations])
    return rows, elemental_count(len(variables)) + constraints + rows


def closed_sets(variables: Sequence[str], equations: Sequence[Mapping[Key, Fraction]]) -> int:
    """How many sets hold all that they determine, without that of the constant variables.

    A function is an equation that says of a set and a larger one that they have one entropy.
    """
    bits = {name: 1 << place for place, name in enumerate(variables)}
    functions = []
    for says in equations:
        sets = {sum(bits[name] for name in key): number for key, number in says.items() if not isinstance(key, str)}
        less, more = min(sets, default=0) if len(sets) == 2 else 0, max(sets, default=0)
        if len(sets) in (1, 2) and less & ~more == 0 and abs(sets[more]) == 1 and (len(sets) == 1 or sets[less] == -sets[more]):
            functions.append((less, more))
    return sum(all(less & ~number or not more & ~number for less, more in functions) for number in range(1 << len(variables))) - 1
