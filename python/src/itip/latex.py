"""LaTeX with the package amsmath: formulas in the notation of question files, and relations as lines of align*."""

from __future__ import annotations

import re

TYPE_CHECKING = False  # (typing takes longer to load than ./ask takes to answer)
if TYPE_CHECKING:
    from collections.abc import Iterable, Sequence

    from .notation import Relation

WIDTH = 72  # of a line, in letters of the text form
LEFT = 40  # of what stands left of a sign
BEHIND = 28  # of a comment behind a relation
SIGNS = {"<=": r"\le", ">=": r"\ge", "=": "="}  # as text and as LaTeX
ESCAPES = str.maketrans({"\\": r"\textbackslash{}", "~": r"\~{}", "^": r"\^{}", **{sign: "\\" + sign for sign in "#$%&_{}"}})
# the name of a line; a name or a number, with the bracket that makes it the word of an entropy; a fraction; a bar; a sign
LINE = r"\((given|row)[ ~]([0-9.]+)\)"
TOKEN = re.compile(LINE + r"|([0-9]+)/([0-9]+) |([A-Za-z0-9_]+)(\(?)|\||[<>]=")
NUMBER = re.compile("-?[0-9]+")
ATOM = re.compile(r"[A-Za-z_][A-Za-z0-9_]*|[HIh]\([A-Za-z0-9_,;|]+\)|" + LINE)
# a sign, or a term: its sign, its number and what that counts
PIECE = re.compile(r"<=|>=|=|(?:[-+] )*(?:-?[0-9]+(?:/[0-9]+)? (?=[A-Za-z_(]))?[^ ]+")


def escaped(text: str) -> str:
    r"""A text as LaTeX sets it letter by letter.

    >>> print(escaped("50% of X_1"))
    50\% of X\_1
    """
    return text.translate(ESCAPES)


class Names:
    r"""How names are set: the letters, and what follows them as an index. Of two that would look alike the second is set as it is written.

    >>> names = Names()
    >>> print(names("X1"), names("Key"), names("X_1"), names("X1"))
    X_{1} \mathit{Key} \mathit{X\_1} X_{1}
    """

    def __init__(self) -> None:
        self.set: dict[str, str] = {}

    def __call__(self, name: str) -> str:
        if name not in self.set:
            self.set[name] = self._chosen(name)
        return self.set[name]

    def _chosen(self, name: str) -> str:
        letters = re.sub("[^A-Za-z].*", "", name)
        index = name[len(letters) :].removeprefix("_")
        tex = rf"\mathit{{{letters}}}" if len(letters) > 1 else letters
        if index:
            tex += f"_{{{escaped(index)}}}"
        return rf"\mathit{{{escaped(name)}}}" if not letters or tex in self.set.values() else tex


def formula(text: str, names: Names | None = None) -> str:
    r"""A sum, a relation or a part of one.

    >>> print(formula("1/2 H(X1) + 2 R <= I(X1;Key|Z)"))
    \tfrac{1}{2}\,H(X_{1}) + 2 R \le I(X_{1};\mathit{Key}\mid Z)
    >>> print(formula("I(X;Y) - 2 (given 1)"))
    I(X;Y) - 2 (\text{given 1})
    """
    known = names or Names()

    def written(token: re.Match[str]) -> str:
        line, number, above, below, word, bracket = token.groups()
        if line:
            return rf"(\text{{{line} {number}}})"
        if above:
            return rf"\tfrac{{{above}}}{{{below}}}\,"
        if word:
            return token[0] if bracket or NUMBER.fullmatch(word) else known(word)
        return SIGNS.get(token[0], r"\mid ")

    return TOKEN.sub(written, text)


def in_one_word(text: str) -> str:
    """A text whose names of lines are one word each.

    >>> print(in_one_word("I(X;Y) - 2 (given 1)"))
    I(X;Y) - 2 (given~1)
    """
    return re.sub(LINE, r"(\1~\2)", text)


def is_relation(text: str) -> bool:
    """Whether a text is one: sums with signs between them. A sign may begin it."""
    due, signs, is_counted = True, 0, False  # whether a term is due, and whether a number stands before it
    for place, word in enumerate(in_one_word(text).split()):
        if word in SIGNS:
            if due and place:
                return False
            due, signs, is_counted = True, signs + 1, False
        elif word in ("+", "-"):
            if due and word == "+":
                return False
            due, is_counted = True, False
        elif NUMBER.fullmatch(word):
            if not due:
                return False
            due, is_counted = False, True
        elif ATOM.fullmatch(word):
            if not due and not is_counted:
                return False
            due, is_counted = False, False
        else:
            return False
    return signs > 0 and not due


def aligned(relations: Iterable[Relation], width: int = WIDTH) -> str:
    """The relations, aligned at their signs and broken where they are wider than `width` letters."""
    return align([(relation.text(), "") for relation in relations], Names(), width)


def align(rows: Sequence[tuple[str, str]], names: Names, width: int = WIDTH) -> str:
    """The same of their texts, each with a comment: behind it, or where that has commas or is long below it."""
    left = max((len(re.split(" *(?:<=|>=|=)", text, maxsplit=1)[0]) for text, _ in rows), default=0)
    room = 0 if left > LEFT else left + 1
    lines: list[str] = []
    for text, comment in rows:
        lines += _relation(text, room, names, width)
        if ", " in comment or len(comment) > BEHIND:
            lines += _comment(comment)
        elif comment:
            lines[-1] += rf" && \text{{{_words(comment)}}}"
    return "\\begin{align*}\n  " + " \\\\\n  ".join(lines) + "\n\\end{align*}"


def _relation(text: str, room: int, names: Names, width: int) -> list[str]:
    """The lines of one relation, with so much room before its sign; without any, all begins at the left and the sign stands below."""
    lines = [""]
    signs = used = 0
    for place, piece in enumerate(PIECE.findall(" ".join(in_one_word(text).split()))):
        if piece in SIGNS:
            if signs or (place and not room):
                lines.append("")
            lines[-1] += (" &" if lines[-1] else "&") + ("" if room else r"\quad ") + SIGNS[piece]
            signs, used = signs + 1, 0
            continue
        if not place and not room:
            lines[-1] = "&"
        size = len(piece) + 1
        if used and used + size > width - room and (signs or not room):
            lines.append(r"&\quad {} " + formula(piece, names))
            used = size + 4
        else:
            lines[-1] += ("" if lines[-1] in ("", "&") else " ") + formula(piece, names)
            used += size
    return lines


def _comment(text: str) -> list[str]:
    """A comment as lines of its own, broken at its commas and signs."""
    lines, used = [""], 0
    for part in re.split("(?<=,) | (?=[+-] )", text):
        if lines[-1] and used + len(part.rstrip(",")) > WIDTH:
            lines.append("")
            used = 0
        lines[-1] += (" " if lines[-1] else "") + _words(part)
        used += len(part) + 1
    return [rf"&\quad\text{{{line}}}" for line in lines]


def _words(text: str) -> str:
    """The words of a comment, with a minus between them as a sign."""
    return re.sub("(^| )- ", r"\1$-$ ", escaped(text))
