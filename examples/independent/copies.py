"""Files with a head: the copies of variables that it asks for, a question with them, or why the question can't have them.

A copy of a variable over a set has with each part of the set the joint entropy that the variable has with it, and given the set it is
independent of all other variables before it (Zhang and Yeung, "On characterization of entropy function via information
inequalities", 1998).
"""

from closures import table_size
from questions import LINES, USUAL, File, Generator, Line, Question, lines_of, row_of

# the most copies, and the most names of a set
COPIES, PARTS = 4, 4


class Misfit(Exception):
    """Why a question can't have copies: the words of its line. It stands in the question's place, and nothing is asked by it."""

    verb = None


class Copy:
    """A copy by its name, the name of its variable, and the names of its set."""

    def __init__(self, name, of, over):
        self.name, self.of, self.over = name, of, over
        self.text = f"copy {name} of {of} over {','.join(over) or 0}\n"


def copy_of(line, room):
    """The copy of a line of the head; `room` says that one more may stand there."""
    line.rule(line.peek() == "copy", "word")
    line.rule(room, "many")
    line.next()
    name, over = named(line), []
    line.want("of")
    of = named(line)
    line.want("over")
    number = line.value()
    if number is not None:
        line.rule(number == 0, "word")
        line.next()
    else:
        over.append(named(line))
        while line.take(","):
            over.append(named(line, len(over) < PARTS))
    line.end()
    return Copy(name, of, over)


def named(line, room=True):
    """The next token, which must be a name, known or not; `room` says that one more may stand there."""
    name = line.name()
    line.rule(room, "many")
    line.next()
    return name


def read_with_head(text, limits=USUAL):
    """The copies that the head asks for, and the questions after it; `Fault` where there is none of both. Lines are counted from the
    file's first one."""
    copies, lines = [], lines_of(text)
    for number, plain in enumerate(lines, 1):
        if not plain.strip(" "):
            continue
        line = Line(plain, number)
        if line.peek() == "vars":
            return copies, File(lines, number, limits).questions
        copies.append(copy_of(line, len(copies) < COPIES))
    return copies, []


def extended(question, copies, limits=USUAL):
    """The question with copies; `Misfit` where it can't have them."""
    if question.verb != "prove":
        raise Misfit("verb")
    names, lines, added = list(question.names), question.givens, []
    for number, copy in enumerate(copies, 1):
        taken, full = copy.name in names + question.rates, len(names) == limits.variables
        if taken or full or not {copy.of, *copy.over} <= set(names) or copy.of in copy.over:
            raise Misfit(f"copy {number}")
        old, over, new = 2 ** names.index(copy.of), sum(2 ** names.index(name) for name in set(copy.over)), 2 ** len(names)
        rows = [row_of([(1, new | part), (-1, old | part)]) for part in range(over + 1) if part | over == over]
        others = new - 1 - over
        rows.append(row_of([(1, new | over), (1, others | over), (-1, new | others | over), (-1, over)]))
        for row in rows:
            lines += 1
            added.append(Generator(f"given {lines}", row, True, True))
        names.append(copy.name)
    if lines > LINES:
        raise Misfit("many")
    made = Question(names)
    made.rates, made.verb = question.rates, question.verb

    def moved(row):
        """The same row, where rates stand after more sets."""
        before = 2 ** len(question.names)
        return {at if at < before else at - before + 2 ** len(names): c for at, c in row.items()}

    own = [Generator(g.name, moved(g.row), g.equation, g.given) for g in question.constraints]
    made.constraints = [g for g in own if g.given] + added + [g for g in own if not g.given]
    made.targets = [moved(row) for row in question.targets]
    sign, left, right = question.sides
    made.sides = sign, moved(left), moved(right)
    if limits.entries is not None and table_size(len(names), len(made.rates), made.constraints) > limits.entries:
        raise Misfit("large")
    return made
