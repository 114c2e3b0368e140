"""Questions as LaTeX states them: their variables, what is given, and what is asked (docs/guide/ask.md)."""

from __future__ import annotations

import re

from .latex import Names, align, formula

TYPE_CHECKING = False
if TYPE_CHECKING:
    from collections.abc import Sequence

TOKEN = re.compile(r"[A-Za-z][A-Za-z0-9_]*|[0-9]+|<=|>=|->|:=|[^ ]")
TIGHT = re.compile(r" ?([(),;|/]) ?")  # signs without blanks
COUNTED = re.compile(r"(/[0-9]+)(?=[A-Za-z])")
CONSTRAINT = re.compile("(markov|indep|func) +([A-Za-z].*)")


def spaced(text: str) -> str:
    """A relation with a blank around each sign outside of brackets, and none inside.

    >>> print(spaced("2H( X , Y|Z )>=1 / 2 I(X;Y) -R"))
    2 H(X,Y|Z) >= 1/2 I(X;Y) - R
    """
    tight = TIGHT.sub(r"\1", " ".join(TOKEN.findall(text)))
    return COUNTED.sub(r"\1 ", re.sub(r"\)(?=[^ ),;|])", ") ", tight))


def listed(text: str, names: Names, before: str = "", after: str = "") -> str:
    """A list of names as formulas of their own, in a sentence."""
    return ", ".join(f"${before}{names(name)}{after}$" for name in re.split("[ ,]+", text.strip(" ,")))


def grouped(text: str, names: Names) -> str:
    """A list of names in a formula: one, or several in brackets."""
    inside = formula(re.sub(" *, *", ",", text.strip()), names)
    return f"({inside})" if "," in inside else inside


def constraint(text: str, names: Names) -> str:
    r"""A chain, an independence or a function as a formula; nothing where it is none of them.

    >>> print(constraint("markov U -> X -> Y1,Y2", Names()), constraint("indep A; B | C", Names()), constraint("func Z of X", Names()))
    U \to X \to (Y_{1},Y_{2}) A \perp B\mid C H(Z\mid X) = 0
    """
    found = CONSTRAINT.fullmatch(text.strip())
    if not found:
        return ""
    word, rest = found.groups()
    if word == "func":
        what, _, of = rest.partition(" of ")
        return formula(f"H({re.sub(' ', '', what)}|{re.sub(' ', '', of)}) = 0", names)
    between, sign = ("->", r" \to ") if word == "markov" else (";", r" \perp ")
    lists, _, known = rest.partition("|")
    condition = r"\mid " + grouped(known, names) if known else ""
    return sign.join(grouped(part, names) for part in lists.split(between)) + condition


def copied(text: str, names: Names) -> str:
    """A line of a head of copies, in a sentence."""
    _, name, _, of, _, over = text.split(" ", 5)
    known = "no variable" if over.strip() == "0" else f"${formula(over.replace(' ', ''), names)}$"
    return f"${names(name)}$ a copy of ${names(of)}$ over {known}"


class Statement:
    """A question's LaTeX in the making."""

    def __init__(self, names: Names, mode: str) -> None:
        self.names, self.mode = names, mode
        self.parts: list[str] = []  # of what is stated: sentences and formulas
        self.sentence: list[str] = []  # what waits: sentences, what is given in formulas, and relations
        self.given: list[str] = []
        self.rows: list[tuple[str, str]] = []
        self.regions = 0

    def take(self, line: str) -> None:
        word, _, rest = line.strip().partition(" ")
        if word in ("given", "row"):
            is_constraint = constraint(rest, self.names)
            if is_constraint:
                self.given.append(f"${is_constraint}$")
            else:
                self.rows.append((spaced(rest), ""))
        elif word in ("prove", "best"):
            self._ask_relation(rest, word)
        elif word in ("eliminate", "contain"):
            self._close_given()
            self.sentence.append(self._asked(word, rest))
            self._close_sentence()
        elif word == "region":
            self._close_given()
            self.regions += 1
            self.sentence.append(f"The {'first' if self.regions == 1 else 'second'} region:")
        else:
            self._declare(word, rest)

    def _declare(self, word: str, rest: str) -> None:
        if word == "copy":
            self.given.append(copied(f"copy {rest}", self.names))
        elif word == "qualified":
            self.given.append(f"$\\{{{formula(rest.replace(' ', ''), self.names)}\\}}$ qualified")
        elif word in DECLARED:
            self.sentence.append(f"{DECLARED[word]} {listed(rest, self.names)}.")

    def _asked(self, word: str, rest: str) -> str:
        if word == "contain":
            return "Asked is whether the first region lies in the second."
        wanted = "are all bounds on the rates other than" if self.mode == "outer" else "is the region without"
        return f"Asked {wanted} {listed(rest, self.names)}."

    def _ask_relation(self, text: str, word: str) -> None:
        self._close_given()
        is_factor = word == "best" or self.mode == "best"
        self.sentence.append("Asked is the least $c$ with $c$ times the left side at least the right side:" if is_factor else "Asked is whether")
        self._close_sentence()
        self.parts.append(align([(spaced(text), "")], self.names))

    def _close_given(self) -> None:
        if self.given:
            self.sentence.append("Given: " + ", ".join(self.given) + (", and" if self.rows else "."))
        elif self.rows and not self.regions:
            self.sentence.append("Given:")
        self._close_sentence()
        if self.rows:
            self.parts.append(align(self.rows, self.names))
        self.given, self.rows = [], []

    def _close_sentence(self) -> None:
        if self.sentence:
            self.parts.append(" ".join(self.sentence))
        self.sentence = []


DECLARED = {"vars": "Random variables", "rates": "Rates", "aux": "Auxiliary variables", "secret": "The secret", "parties": "Parties"}


def stated(text: str, names: Names, mode: str) -> list[str]:
    """The sentences and formulas that state a question, given as `cut` hands it out."""
    statement = Statement(names, mode)
    for line in text.splitlines():
        statement.take(line)
    return statement.parts


def signature(prover: str, docs: str, settings: dict[str, str]) -> str:
    """A comment that says which program answered, by which kit it was proved, and with which budget it was asked; nothing of one that can't be read."""
    from hashlib import sha256

    try:
        with open(prover, "rb") as file:
            found = sha256(file.read()).hexdigest()
    except OSError:
        return ""
    dist = f"{docs}/../dist"
    notes = next(filter(lambda notes: notes.get("itip") == found, map(noted, (f"{dist}/built-from", f"{dist}/out/passed"))), None)
    where = ", proved and built in this checkout" if prover.endswith("/crates/itip/out/itip") else ""
    of = f"of commit {notes['commit']}, proved by {notes['kit']}" if notes else f"with the SHA-256 {found}{where}"
    words = " ".join(word for pair in settings.items() for word in pair)
    budget = words if "--pivots" in settings else f"{words} --pivots 20000, and none where that is too few"
    return f"% answered by the program itip {of}; asked with {budget}\n"


def noted(path: str) -> dict[str, str]:
    """What a file like dist/built-from says; nothing where there is none."""
    try:
        with open(path, encoding="utf-8") as file:
            return dict(line.rstrip("\n").split(" ", 1) for line in file)
    except (OSError, ValueError):
        return {}
