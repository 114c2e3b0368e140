"""What would make a relation true that isn't: single conditional independences and functions, for `./ask --if` (docs/guide/ask.md).

A condition is three sets of variables, by their numbers (docs/reference/reports.md): A, B, C for I(A;B|C) = 0, and A, A, C for H(A|C) = 0.
"""

from __future__ import annotations

from .reports import decoded

TYPE_CHECKING = False
if TYPE_CHECKING:
    from collections.abc import Callable, Iterator, Sequence
    from typing import Tuple

    Condition = Tuple[int, int, int]
    Point = Sequence[int]  # the values of all sets, by their numbers
    Ask = Callable[[Sequence[str]], Sequence[str]]  # the lines of a report about these questions

MOST_VARIABLES = 6
MOST_COMPARED = 5000  # questions about two conditions
YES, NO = '{"answer":"yes"', '{"answer":"no"'


def variables(question: str) -> list[str]:
    """The names of the variables of a question, which begins with them."""
    return question.partition("\n")[0].replace(",", " ").split()[1:]


def would_do(line: str, ask: Ask) -> tuple[list[str], int]:
    """The weakest conditions that make a yes of the no that a line of a report says, as lines of a question file; how many stayed undecided."""
    found = decoded(line)
    question = Question(found["question"])
    failing = point(found)
    tried = sorted((one for one in conditions(len(question.names)) if not holds(one, failing)), key=question.order)
    answers = ask([question.given(one, question.goal) for one in tried])
    enough = [one for one, answer in zip(tried, answers) if answer.startswith(YES)]
    everything, are_enough = (1 << len(question.names)) - 1, set(enough)
    least = [one for one in enough if are_enough.isdisjoint(weaker(one, everything))]
    told = sorted(shortest(question, weakest(question, least, ask), enough, ask), key=question.order)
    return [question.line(one) for one in told], sum(not answer.startswith((YES, NO)) for answer in answers)


class Question:
    """The text of a question, to ask with one line more."""

    def __init__(self, text: str) -> None:
        *self.head, self.goal = text.splitlines()
        self.names = variables(text)

    def given(self, one: Condition, goal: str) -> str:
        """The question with a condition, and with this last line."""
        return "\n".join([*self.head, self.line(one), goal]) + "\n"

    def line(self, one: Condition) -> str:
        """A condition as question files have it."""
        left, right, known = map(self.listed, one)
        if one[0] == one[1]:
            return f"given func {left} of {known}" if known else f"given H({left}) = 0"
        return f"given markov {left} -> {known} -> {right}" if known else f"given indep {left}; {right}"

    def goal_of(self, one: Condition) -> str:
        """The line that asks whether a condition is true."""
        left, right, known = map(self.listed, one)
        return f"prove I({left};{right}|{known}) <= 0" if known else f"prove I({left};{right}) <= 0"

    def listed(self, number: int) -> str:
        return ",".join(name for place, name in enumerate(self.names) if number >> place & 1)

    def order(self, one: Condition) -> tuple[bool, int, str]:
        """Independences before functions, which imply some, and of each kind those with fewer names before others."""
        return one[0] == one[1], sum(bin(number).count("1") for number in one), self.line(one)


def conditions(variables: int) -> Iterator[Condition]:
    """All conditions on this number of variables: two disjoint sets given a third one, and one variable that others determine."""
    everything = (1 << variables) - 1
    for known in range(everything + 1):
        free = everything & ~known
        for left in subsets(free):
            yield from (in_order(left, right, known) for right in subsets(free & ~left) if left < right)
        yield from ((one, one, known) for one in members(free))


def subsets(number: int) -> Iterator[int]:
    """All subsets but the empty one."""
    subset = number
    while subset:
        yield subset
        subset = (subset - 1) & number


def members(number: int) -> Iterator[int]:
    """The sets of one variable each."""
    return (1 << place for place in range(number.bit_length()) if number >> place & 1)


def in_order(left: int, right: int, known: int) -> Condition:
    """The side with the variable that is declared first stands first."""
    return (left, right, known) if left & -left < right & -right else (right, left, known)


def weaker(one: Condition, everything: int) -> Iterator[Condition]:
    """What a condition implies by Shannon's inequalities, a step away: what it implies besides is implied by one of these, or by it alone."""
    left, right, known = one
    if left == right:
        others = everything & ~(left | known)
        yield from ((left, right, known | name) for name in members(others))
        if others:
            yield in_order(left, others, known)
        return
    for side, other in ((left, right), (right, left)):
        for name in members(side) if side & (side - 1) else ():
            yield in_order(side ^ name, other, known)
            yield in_order(side ^ name, other, known | name)


def point(found: dict[str, object]) -> Point:
    """The values at the point of a line that says no."""
    values = found["point"]
    assert isinstance(values, list)
    return [0, *map(int, values)]


def holds(one: Condition, at: Point) -> bool:
    left, right, known = one
    return at[left | known] + at[right | known] == at[left | right | known] + at[known]


def weakest(question: Question, enough: Sequence[Condition], ask: Ask) -> list[Condition]:
    """Those conditions that imply no other one where the question's lines are true. Of equal ones the first is left.

    Past MOST_COMPARED questions all stay that are left.
    """
    left = list(enough)
    asked = 0
    may_imply = {one: set(enough) for one in enough}
    for one in enough:
        others = [other for other in left if other != one and one in may_imply[other]] if one in left else []
        asked += len(others)
        if asked > MOST_COMPARED:
            break
        for other, line in zip(others, ask([question.given(other, question.goal_of(one)) for other in others])):
            if line.startswith(YES):
                left.remove(other)
            elif line.startswith(NO):
                at = point(decoded(line))
                may_imply[other] = {third for third in may_imply[other] if holds(third, at)}
    return left


def shortest(question: Question, found: Sequence[Condition], enough: Sequence[Condition], ask: Ask) -> list[Condition]:
    """In place of each of the found ones the first of `enough` that is equal to it where the question's lines are true."""
    pairs = [(one, other) for one in found for other in enough if implies(other, one) and question.order(other) < question.order(one)]
    answers = ask([question.given(one, question.goal_of(other)) for one, other in pairs])
    equal = {one: one for one in found}
    for (one, other), answer in reversed(list(zip(pairs, answers))):
        if answer.startswith(YES):
            equal[one] = other
    return list(equal.values())


def implies(one: Condition, other: Condition) -> bool:
    """Whether a condition implies another one of its kind by Shannon's inequalities alone."""
    if (one[0] == one[1]) != (other[0] == other[1]):
        return False
    more = other[2] & ~one[2]
    if one[0] == one[1]:
        return one[0] == other[0] and one[2] & ~other[2] == 0
    return one[2] & ~other[2] == 0 and any(
        other[0] & ~left == 0 and other[1] & ~right == 0 and more & ~((left & ~other[0]) | (right & ~other[1])) == 0
        for left, right in ((one[0], one[1]), (one[1], one[0]))
    )
