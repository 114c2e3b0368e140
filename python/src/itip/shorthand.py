"""Files with less to write, as question files, for `./ask`: what each line makes, and where each place of what is made was written (docs/guide/ask.md).

A made line has its line as written, and texts with their columns there, both from 1; 0 is the column of what nobody wrote.
"""

from __future__ import annotations

from itertools import islice

from .console import as_bytes, as_text
from .reports import MOST_BYTES

TYPE_CHECKING = False
if TYPE_CHECKING:
    from collections.abc import Iterator, Sequence
    from typing import List, Tuple

    Piece = Tuple[str, int]
    Line = Tuple[int, List[Piece]]

VERBS, HEAD = ("prove", "eliminate"), ("vars", "rates", "given", "row")
SIGNS = ("<=", ">=", "=")
LETTERS = frozenset("ABCDEFGHIJKLMNOPQRSTUVWXYZabcdefghijklmnopqrstuvwxyz")
IN_NAMES = LETTERS | frozenset("0123456789_")
BLANKS = " \t\r"
MOST_LINES = 65  # that a line makes: one more than a question may have


class Made:
    """A question file and the places of its own that were written elsewhere; without lines it is as written."""

    def __init__(self, text: str, lines: Sequence[Line] = (), written: int = 0) -> None:
        self.text, self.lines, self.written = text, lines, written

    def place(self, line: int, column: int) -> tuple[int, int]:
        """Where a place was written."""
        if line > len(self.lines):
            return line - len(self.lines) + self.written, column
        number, pieces = self.lines[line - 1]
        begin = end = 1
        for text, written in pieces:
            if column < begin + len(text):
                return number, written + column - begin if written else end
            begin += len(text)
            end = written + len(text) if written else end
        return number, end


def made(text: str) -> Made:
    """What a file makes: of each line a line or some, and of each verb after another one a question with all lines before it but verbs."""
    written = as_bytes(text).decode("latin-1").split("\n")  # (places count bytes)
    bare = [line.partition("#")[0].rstrip(BLANKS) for line in written]
    words = [word_at(line, 0)[0] for line in bare]
    asks_later = later_verbs(words)
    lines: list[Line] = []
    head: list[str] = []
    size, is_asked = 0, False
    for at, (line, word) in enumerate(zip(bare, words)):
        if word in ("vars", "region"):  # (a containment has one verb)
            head, is_asked = [], False
        new = expanded(at + 1, line, word)
        before = len(lines)
        if is_asked and (word in VERBS or (asks_later[at] and word in HEAD)):
            lines += [(at + 1, [(one, 0)]) for one in head]
            is_asked = False
        lines += new or [(at + 1, [(written[at], 1)])]
        size += sum(len(line_text(one)) + 1 for one in lines[before:])
        if size > MOST_BYTES and len(lines) > at + 1:
            break  # (the program refuses it for its length)
        if word in VERBS:
            is_asked = bool(head)
        elif word in HEAD and (head or word == "vars"):
            head += [line_text(one) for one in new] or [line]
    if len(lines) == len(written):
        return Made(text)
    return Made(as_text("\n".join(map(line_text, lines)).encode("latin-1")), lines, len(written))


def line_text(line: Line) -> str:
    return "".join(text for text, _ in line[1])


def later_verbs(words: Sequence[str]) -> list[bool]:
    """Whether a verb follows each line, before the next `vars`."""
    found, asks = [], False
    for word in reversed(words):
        found.append(asks)
        asks = word in VERBS or (asks and word != "vars")
    return found[::-1]


def word_at(line: str, at: int) -> Piece:
    """The word that begins at a place, after blanks, and where it ends."""
    while at < len(line) and line[at] in BLANKS:
        at += 1
    end = at
    while end < len(line) and line[end] in IN_NAMES:
        end += 1
    return line[at:end], end


def expanded(number: int, line: str, word: str) -> list[Line]:
    """The lines that a line in fewer words makes; none where it is one of a question file."""
    if word not in ("given", "row"):
        return []
    _, begin = word_at(line, 0)
    second, _ = word_at(line, begin)
    if word == "given" and second in ("sum", "common"):
        made_lines = sums(tokens(line)) if second == "sum" else common(tokens(line))
    elif word == "given" and second in ("markov", "indep", "func"):
        made_lines = []
    else:
        made_lines = relations(line, begin)
    return [(number, pieces) for pieces in made_lines]


# Functions


def tokens(line: str) -> list[Piece]:
    """The names and signs of a line, each with its column."""
    found: list[Piece] = []
    at = 0
    while at < len(line):
        name, end = word_at(line, at)
        if name:
            found.append((name, end - len(name) + 1))
        elif end < len(line):
            found.append((line[end], end + 1))
            end += 1
        at = end
    return found


def cut(parts: Sequence[Piece], sign: str) -> list[list[Piece]]:
    """The parts between signs."""
    found: list[list[Piece]] = [[]]
    for part in parts:
        if part[0] == sign:
            found.append([])
        else:
            found[-1].append(part)
    return found


def names(parts: Sequence[Piece]) -> list[Piece]:
    """The names of a list with commas; none where it isn't one."""
    listed = cut(parts, ",")
    are_names = all(len(one) == 1 and one[0][0][0] in LETTERS for one in listed)
    return [name for one in listed for name in one] if are_names else []


def together(parts: Sequence[Piece]) -> list[Piece]:
    return [piece for place, part in enumerate(parts) for piece in ([(",", 0), part] if place else [part])]


def sums(line: Sequence[Piece]) -> list[list[Piece]]:
    """`given sum T of X, Y`: each of the three is a function of the others."""
    given, word, *rest = line
    every = names(rest[:1]) + names(rest[2:])
    if [text for text, _ in rest[1:2]] != ["of"] or len(every) < 2:
        return []
    return [function(given, word, [one], [other for other in every if other is not one]) for one in every[:MOST_LINES]]


def function(given: Piece, word: Piece, what: Sequence[Piece], of: Sequence[Piece]) -> list[Piece]:
    return [("given ", given[1]), ("func ", word[1]), *together(what), (" of ", 0), *together(of)]


def common(line: Sequence[Piece]) -> list[list[Piece]]:
    """`given common Z of A, B`, or of lists with `;` between: a function of either, given which they are independent."""
    given, word, *rest = line
    place = next((place for place, (text, _) in enumerate(rest) if text == "of"), 0)
    what, after = names(rest[:place]), rest[place + 1 :]
    sides = [names(side) for side in cut(after, ";")]
    sides = [[name] for name in sides[0]] if len(sides) == 1 else sides
    if not what or len(sides) != 2 or not all(sides):
        return []
    left, right = map(together, sides)
    independent = [("given ", given[1]), ("I(", word[1]), *left, (";", 0), *right, ("|", 0), *together(what), (") = 0", 0)]
    return [*(function(given, word, what, side) for side in sides), independent]


# Relations


def relations(line: str, begin: int) -> list[list[Piece]]:
    """A chain of signs of one direction, or several sides: a relation for each sign, or for each pair of a left side and a right one."""
    outside = "".join(part.partition(")")[2] if place else part for place, part in enumerate(line.split("(")))
    if "," not in outside and outside.count("=") < 2:
        return []
    signs, commas = signs_of(line, begin)
    kinds = {sign for _, sign in signs} - {"="}
    parts = list(between(line, begin, [*signs, *commas]))
    if not signs or not all(text for text, _ in parts) or len(kinds) > 1 or (len(signs) > 1 and commas):
        return []
    word = (line[:begin].lstrip(BLANKS) + " ", len(line[:begin]) - len(line[:begin].lstrip(BLANKS)) + 1)
    if len(signs) > 1:
        pairs = list(zip(parts, signs[:MOST_LINES], parts[1:]))
    else:
        (middle,) = signs
        lefts = [part for part in parts if part[1] <= middle[0]]
        rights = [part for part in parts if part[1] > middle[0]]
        pairs = list(islice(((left, middle, right) for left in lefts for right in rights), MOST_LINES))
    return [[word, left, (f" {sign} ", at), right] for left, (at, sign), right in pairs]


def signs_of(line: str, begin: int) -> tuple[list[tuple[int, str]], list[tuple[int, str]]]:
    """The signs of relations, and the commas, that stand outside of brackets."""
    signs, commas = [], []
    depth, at = 0, begin
    while at < len(line):
        depth += {"(": 1, ")": -1}.get(line[at], 0)
        sign = next((sign for sign in SIGNS if line.startswith(sign, at)), "") if not depth else ""
        if sign:
            signs.append((at, sign))
        elif line[at] == "," and not depth:
            commas.append((at, ","))
        at += len(sign) or 1
    return signs, commas


def between(line: str, begin: int, signs: Sequence[tuple[int, str]]) -> Iterator[Piece]:
    """What stands before, between and after signs, without blanks around it."""
    for at, sign in [*sorted(signs), (len(line), "")]:
        part = line[begin:at]
        yield part.strip(BLANKS), begin + len(part) - len(part.lstrip(BLANKS)) + 1
        begin = at + len(sign)
