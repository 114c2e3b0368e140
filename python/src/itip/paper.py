"""What `tell` tells, as LaTeX for a paper: a sentence for each answer, and the lines below it as lines of align* (docs/guide/ask.md)."""

from __future__ import annotations

import re

from .ask import THEN
from .latex import WIDTH, Names, align, escaped, formula, is_relation
from .limits import MOST_NAMES
from .stated import constraint, copied, spaced, stated

TYPE_CHECKING = False
if TYPE_CHECKING:
    from collections.abc import Sequence

PREAMBLE = r"""\documentclass{article}
\usepackage[margin=1in]{geometry}
\usepackage{amsmath}
\allowdisplaybreaks
\begin{document}
"""
END = "\\end{document}\n"
NAME, LIST = "[A-Za-z][A-Za-z0-9_]*", "[A-Za-z0-9_,]+"
# the facts of a point: what is set as a formula, and the words around it
FACTS = (
    (re.compile(rf"((?:H\({LIST}\)|{NAME}) = (?:-?[0-9]+|{NAME}))"), "{}"),
    (re.compile(f"({NAME}) constant"), r"{}\text{{ constant}}"),
    (re.compile(f"func ([A-Za-z0-9_]+) of ({LIST})"), r"{}\text{{ a function of }}{}"),
    (re.compile("indep ([A-Za-z0-9_;]+)"), r"{}\text{{ independent}}"),
)
CODES = ("over GF(", "no linear code")  # how lines about linear codes begin
# a ray of an outer bound: what it is, its rates with their numbers, and maybe the rate per which they are
RAY = re.compile(rf"(corner|point|ray|direction|line) (.*) = ([^=]*?)(?: per ({NAME}))?")
SENTENCES = {
    "yes": "This has a proof from Shannon's inequalities and what is given:",
    "no": "This does not follow from Shannon's inequalities: at the following point what is given holds, and this fails.",
    "region": "The region is given by these {} rows:",
    "region 0": "The region is given by no row.",
    "region 1": "The region is given by this row:",
    "open": "No substitution was proved, of {} that were tried.",
    "outer": "All that Shannon's inequalities and what is given say of these rates follows from these {} rows:",
    "outer 0": "Shannon's inequalities and what is given say nothing of these rates.",
    "outer 1": "All that Shannon's inequalities and what is given say of these rates follows from this row:",
    "best": "The least factor is ${}$: it holds by the proof, and at the point below the two sides are equal with it:",
    "none": "No factor holds: at the following point the left side is 0, and the right side is above 0.",
    "unbounded": "The factor ${}$ holds, and so does each smaller number, since the left side is never above 0:",
}

# what is said of a point of more names than usual
CLOSED = "Any other set has the value of the least set around it that has one."


def is_wide(values: str) -> bool:
    """Whether the values of a point are those of more names than usual, so that they leave out the sets that aren't closed. The set of all
    names is closed."""
    return any(len(value.split(",")) > MOST_NAMES for value in values.split() if value.startswith("h("))


def typeset(told: str, questions: Sequence[str] = (), mode: str = "answer") -> str:
    """What is told, line for line, each answer below its question."""
    paper = Paper(questions, mode)
    for line in told.removesuffix("\n").split("\n") if told else []:
        paper.take(line)
    paper.close_answer()
    return "".join(part + "\n" for part in paper.parts)


class Paper:
    """LaTeX in the making. Names are set alike in all of it."""

    def __init__(self, questions: Sequence[str], mode: str) -> None:
        self.questions, self.mode = questions, mode
        self.parts: list[str] = []
        self.names = Names()
        self.first = ""  # of the answer that waits, and the lines below it
        self.below: list[str] = []
        self.rows: list[tuple[str, str]] = []  # of its relations, those that wait, each with its comment

    def take(self, line: str) -> None:
        if line.startswith("  "):
            self.below.append(line[2:])
            return
        self.close_answer()
        if re.match("[0-9]+ [a-z]", line):
            self.first = line
        elif line.startswith("# "):
            self.parts.append(rf"\section*{{\texttt{{{escaped(line[2:])}}}}}")
        else:
            self._put_letters(line)

    def close_answer(self) -> None:
        """Sets the answer that waits, if there is one."""
        if not self.first:
            return
        number, word = self.first.split()[:2]
        asked = [part for text in self.questions[int(number) - 1 : int(number)] for part in stated(text, self.names, self.mode)]
        self.parts += [rf"\paragraph{{{number}.}} {part}" if not place else part for place, part in enumerate([*asked, self._sentence()])]
        if word == "outer":
            self._put_bound(self.below)
        else:
            place = next((place for place, line in enumerate(self.below) if line.endswith(THEN) or line.startswith("# no ")), len(self.below))
            self._put_lines(self.below[:place])
            self._put_files(self.below[place:])
        self.first, self.below = "", []

    def _put_lines(self, lines: Sequence[str]) -> None:
        is_step = False
        for line in lines:
            if line.startswith(" ") != is_step:
                self._close_relations()
                is_step = not is_step
                if is_step:
                    self.parts.append("Step by step:")
            self._put_line(line)
        self._close_relations()

    def _put_files(self, lines: Sequence[str]) -> None:
        """What makes a yes of a no, which is told as lines of question files: a condition alone, or copies and then a proof."""
        conditions = [line[len("given ") : -len(THEN)] for line in lines if line.startswith("given ") and line.endswith(THEN)]
        if conditions:
            formulas = (constraint(line, self.names) or formula(spaced(line), self.names) for line in conditions)
            self.parts.append("It has a proof where any of these holds too: " + ", ".join(f"${one}$" for one in formulas) + ".")
        self.parts += [f"{line[2:].capitalize()}." for line in lines if line.startswith("# no ")]
        copies = [copied(line.removesuffix(THEN), self.names) for line in lines if line.startswith("copy ")]
        if copies:
            self.parts.append(f"It has a proof with {', '.join(copies)}:")
            self._put_lines(lines[next(place for place, line in enumerate(lines) if line.startswith("prove ")) + 1 :])

    def _put_bound(self, lines: Sequence[str]) -> None:
        """The rows of an outer bound, then their proofs with the steps, and then a list of its rays, each with its point."""
        rays = next((place for place, line in enumerate(lines) if RAY.fullmatch(line)), len(lines))
        rows, items = lines[:rays], lines[rays:]
        proofs = [line[2:] for line in rows if line.startswith("  ")]
        self._put_lines([line for line in rows if not line.startswith(" ")])
        if proofs:
            self.parts.append(r"\par Their proofs, in this order:")
            self._put_lines(proofs)
        if items:
            self.parts += [r"\par These span all rates at which that holds:", r"\begin{itemize}"]
            for line in items:
                self._put_ray(line)
            self.parts.append(r"\end{itemize}")

    def _put_ray(self, line: str) -> None:
        """A ray as an item of the list; of what stands below it a line in it."""
        found = RAY.fullmatch(line)
        if not found:
            self._put_line(line)
            self._close_relations()
            return
        word, names, numbers, per = found.groups()
        set_numbers = re.sub(r"(-?)([0-9]+)/([0-9]+)", r"\1\\tfrac{\2}{\3}", numbers)
        unit = f" per ${formula(per, self.names)}$" if per else ""
        self.parts.append(rf"\item {word} ${formula(names, self.names)} = {set_numbers}${unit}")

    def _sentence(self) -> str:
        """The sentence for the first line. Without a formula below it, it ends with a point."""
        number, word, *rest = self.first.split()
        if word == "contained":
            parts = [f"${self._substitution(part)}$" for part in rest]
            listed = " and ".join(filter(None, [", ".join(parts[:-1]), *parts[-1:]]))
            said = "The first region is contained in the second" + (f", with {listed}" if parts else "") + ":"
        elif word == "undecided":
            said = rf"This stayed undecided: \texttt{{{escaped(self.first[len(number) + 11 :])}}}."
        elif word in SENTENCES:
            said = SENTENCES.get(" ".join([word, *rest[:1]]), SENTENCES[word]).format(*rest, "")
        else:
            said = rf"\texttt{{{escaped(self.first[len(number) + 1 :])}}}"
        return said if self.below else re.sub(":$", ".", said)

    def _substitution(self, part: str) -> str:
        name, _, chosen = part.partition(":=")
        left = formula(name, self.names)
        right = formula(f"({chosen})" if "," in chosen else chosen, self.names)
        return left + " := " + (r"\emptyset" if chosen == "0" else right)

    def _own_line(self, line: str) -> str:
        """A line of a containment's second region with its sets put in, as a sentence."""
        found = re.fullmatch(r"# ((?:given|row) [0-9.]+)(?: with (.*?))?(?:: (.*?))?(, by Shannon's inequalities)?", line)
        if not found:
            return rf"\par\texttt{{{escaped(line)}}}"
        name, chosen, relation, by = found.groups()
        sets = " with " + ", ".join(f"${self._substitution(part)}$" for part in chosen.split(", ")) if chosen else ""
        said = f": ${formula(relation, self.names)}$" if relation else ""
        return rf"\par {name.capitalize()}{sets}{said}{by or ''}."

    def _put_line(self, line: str) -> None:
        """A relation, which waits for more; a line that it proves; a point; its facts; or what is no formula."""
        if line.startswith(("# given ", "# row ")):
            self._close_relations()
            self.parts.append(self._own_line(line))
            return
        text, *comments = re.split(" *# ", line.lstrip(" "))
        comment = "; ".join(comments)
        if text.startswith("as row "):
            text = text[len("as row ") :]
            comment = "as the report has it" + (", " + comment if comment else "")
        if is_relation(text):
            self.rows.append((text, comment))
            return
        self._close_relations()
        if text.startswith(CODES):
            self.parts.append(self._code(text))
            return
        is_point = text.startswith("as point ")
        values, _, maps = text.removeprefix("as point ").partition(" alike ") if is_point else (text, "", "")
        lines = self._point(values) if is_point else self._facts(values)
        if lines:
            self.parts.append("\\begin{align*}\n  " + lines + "\n\\end{align*}")
            self.parts += [self._maps(maps)] if maps else []
            self.parts += [CLOSED] if is_point and is_wide(values) else []
        else:
            self._put_letters(line)

    def _close_relations(self) -> None:
        if self.rows:
            self.parts.append(align(self.rows, self.names))
            self.rows = []

    def _put_letters(self, line: str) -> None:
        self.parts.append(rf"\par{{\raggedright\texttt{{{escaped(line)}}}\par}}")

    def _point(self, text: str) -> str:
        """The values of a point, as many in a line as fit."""
        values = text.split()
        columns = max(1, WIDTH // (max(map(len, values), default=0) + 6))
        pairs = [[*value.split("="), ""] for value in values]
        written = [f"{formula(left, self.names)} &= {right}" for left, right, *_ in pairs]
        lines = [written[place : place + columns] for place in range(0, len(written), columns)]
        return ", \\\\\n  ".join(map(", & ".join, lines))

    def _maps(self, text: str) -> str:
        """The maps of names that take sets to sets of the same value, as a sentence."""
        maps = [[move.split("->") for move in moves.split()] for moves in text.split(", ")]
        written = ["$" + r",\ ".join(rf"{formula(x, self.names)} \mapsto {formula(y, self.names)}" for x, y in moves) + "$" for moves in maps]
        return "Each set has the value of its image under " + " and under ".join(written) + "."

    def _code(self, text: str) -> str:
        """A linear code, or why there is none, as a sentence."""
        first, _, rest = text.partition(": ")
        first = re.sub(r"GF\(([0-9])\)", r"$\\mathrm{GF}(\1)$", first)
        code, _, times = rest.partition("; the point")
        if first.startswith("over"):
            parts = [self._variable(part) for part in re.findall(rf"{NAME} constant|{NAME} = \([^()]*\)", code)]
            return f"A linear code {first} has these ranks: " + ", ".join(parts) + (f"; the point{times}" if times else "") + "."
        four = re.sub(rf"(?<=for )({NAME}), ({NAME}); ({NAME}), ({NAME})$", lambda found: self._four(found.groups()), rest)
        return first[:1].upper() + first[1:] + (f": {four}" if four else "") + "."

    def _variable(self, part: str) -> str:
        name, _, of = part.partition(" = ")
        return f"${formula(name, self.names)} = {formula(of, self.names)}$" if of else f"${formula(part.partition(' ')[0], self.names)}$ constant"

    def _four(self, four: Sequence[str]) -> str:
        first, second, third, fourth = (f"${formula(name, self.names)}$" for name in four)
        return f"{first}, {second}; {third}, {fourth}"

    def _facts(self, text: str) -> str:
        """Facts with `, ` between them. Nothing, where one is none."""
        out, used = "&", 0
        for place, fact in enumerate(text.split(", ")):
            found = next(((match, words) for pattern, words in FACTS if (match := pattern.fullmatch(fact))), None)
            if found is None:
                return ""
            if place:
                is_full = used + len(fact) > WIDTH
                out += ", \\\\\n  &" if is_full else r",\quad "
                used = 0 if is_full else used
            match, words = found
            out += words.format(*(formula(part, self.names) for part in match.groups()))
            used += len(fact) + 6
        return out
