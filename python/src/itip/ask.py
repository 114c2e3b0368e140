"""The command ./ask: what question files ask, answered in the field's own notation (docs/guide/ask.md).

It runs two programs: `itip` answers, and `tell` writes the answers anew.
"""

from __future__ import annotations

from .console import as_bytes, as_text, end_by_signals, put, run, say, show
from .errors import ItipError
from .reports import MOST_BYTES, UNDECIDED, batches, cut, decoded, why_open
from .shorthand import Made, made

TYPE_CHECKING = False
if TYPE_CHECKING:
    from collections.abc import Iterator, Sequence

USAGE = "usage: ./ask [WORDS] FILE.., with the words that ./ask --help lists"
HELP = """usage: ./ask [WORDS] FILE..
Answers question files in the field's own notation (docs/guide/ask.md); - is standard input.
--steps      below each proof its steps
--short      proofs with the least sum of terms, which may take long
--whole      proofs with the terms of the lines that they name, to be pasted
--needs      behind each needed row of a region a point at which it alone fails
--if         below each no the weakest independences and functions that make a yes of it, on up to six variables
--copies     below each no the first copy, or pair of copies, with which it is a yes
--code       below each no a linear code over GF(2) or GF(3) whose ranks are the point's entropies, judged by itip check
--latex      for LaTeX; with --document as a whole document
--copy       a file with a head of copies, which a file that begins with `copy` is without this word
--sharing    a sharing file, which a file that begins with `secret` is without this word
--best       least factors, of a file with a head of copies too
--outer      outer bounds in the rates that `eliminate` leaves
--per RATE   with --outer, corner points per unit of this rate
--proofs     with --outer, below each row its proof, and below each corner or ray a point that is there
--run bland  by the run with Bland's rule alone; without it quick runs come first
--pivots N   at most N steps for each run with Bland's rule, or none; what is undecided then isn't asked anew
--rows N     at most N rows in an elimination, or in a step of an outer bound
--tries N    at most N candidates in a containment, or rays of an outer bound
--names N    up to N names in a question, from 10 to 16, with tables of any size; without it ten
--made       the question file that a file with less to write makes, in the place of answers
--version    which program this is
"""
VERSION = "ask 1\n"
MODES = ("copy", "best", "sharing", "outer")
REPORTS: dict[str, tuple[str, ...]] = {"answer": ("--format", "json"), "outer": ()}  # the words for a report; the lines of `outer` have marks
FEW_STEPS = "100"
THEN = "  # then yes"  # behind what makes a yes of a no
SETTINGS = ("--run", "--pivots", "--rows", "--tries", "--names")
WORDS = bytes(code if bytes([code]).isalnum() or code == ord("_") else ord(" ") for code in range(256))  # all but words as blanks


class WordsError(Exception):
    """The words of the call have no reading; the text may say why."""


class Unasked(Exception):
    """The program refuses questions that nobody wrote: what it says of them."""


class Words:
    """What the words of a call ask for."""

    def __init__(self, words: Sequence[str]) -> None:
        self.files = list(words)
        self.mode = ""  # where none is named each file tells its own
        self.options: set[str] = set()
        self.telling: list[str] = []  # the words for `tell`
        self.settings = {"--run": "quick"}  # those for `itip`, each with its value
        self.per = ""  # the rate per which corner points are told
        while self.files and self.files[0].startswith("-") and self.files[0] != "-":
            word = self.files.pop(0)
            if word == "--":
                break
            self._take(word)
        if not self.files or ("--document" in self.options and "--latex" not in self.options):
            raise WordsError
        if self.mode != "outer" and (self.per or "--proofs" in self.options):
            raise WordsError
        if self.mode:
            self.for_questions()
        if "--whole" not in self.telling:
            self.telling.append("--named")

    def for_questions(self) -> None:
        """Refuses the words that are for question files alone."""
        if self.options & {"--if", "--copies", "--code"}:
            raise WordsError

    def _take(self, word: str) -> None:
        if word in ("--steps", "--short", "--whole"):
            self.telling.append(word)
        elif word in ("--latex", "--document", "--needs", "--if", "--copies", "--code", "--made", "--proofs"):
            self.options.add(word)
        elif {self.mode, word} in ({"copy", "--best"}, {"best", "--copy"}):
            self.mode = "best"  # (which reads a head too)
        elif word.startswith("--") and word[2:] in MODES and self.mode in ("", word[2:]):
            self.mode = word[2:]
        elif word in SETTINGS and self.files:
            self.settings[word] = self.files.pop(0)
        elif word == "--per" and self.files and self.files[0]:
            self.per = self.files.pop(0)
        else:
            raise WordsError


class Asker:
    """A call: its words, the folder of the docs, and the paths of both programs."""

    def __init__(self, words: Words, docs: str, prover: str, teller: str) -> None:
        self.words, self.docs, self.prover, self.teller = words, docs, prover, teller
        self.is_signed = False  # whether the LaTeX says who answered

    def answer_all(self) -> int:
        """Answers the files. The status is the first other than 0."""
        statuses = []
        for name in self.words.files:
            if len(self.words.files) > 1:
                self._put(f"# {name}\n")
            statuses.append(self._answer(name))
        return next(filter(None, statuses), 0)

    def document_all(self) -> int:
        """The same between a preamble and the end of a document."""
        from .paper import END, PREAMBLE

        put(PREAMBLE)
        status = self.answer_all()
        put(END)
        return status

    def _answer(self, name: str) -> int:
        try:
            with open(0 if name == "-" else name, "rb") as file:
                text = as_text(file.read(MOST_BYTES + 1))
        except OSError as fault:
            say(f"{name} can't be read: {fault.strerror}")
            return 4
        name = "standard input" if name == "-" else name
        mode = self.words.mode or mode_of(text)
        if mode != "answer":
            self.words.for_questions()
        questions = Made(text) if mode == "sharing" else made(text)
        if "--made" in self.words.options:
            return put(questions.text)
        status, written = self._itip(mode, questions.text)
        if status == 2:
            raise WordsError
        if status == 3:
            self._explain(name, text, questions, written)
            return 3
        for number, variable in unused(text):
            say(f"{name}, question {number}: no line says anything of the variable {variable}")
        lines = written.split("\n")[:-1]
        if status and mode == "outer":  # (the program was cut off)
            from .outer import whole_answers

            lines = whole_answers(lines)
        told_status, told = self._told_by(mode, name, questions.text, lines)
        put_status = self._put(told) if "--latex" not in self.words.options else self._put_paper(told, mode, questions.text)
        return status or put_status or told_status

    def _put(self, told: str) -> int:
        if "--latex" not in self.words.options:
            return put(told)
        from .paper import typeset

        return put(typeset(told))

    def _put_paper(self, told: str, mode: str, text: str) -> int:
        """Puts answers as LaTeX, each below its question, and once above them who answered."""
        from .paper import typeset
        from .stated import signature

        head, *asked = cut(text)
        texts = [head] if mode == "sharing" else [head + one for one in asked]
        signed = "" if self.is_signed else signature(self.prover, self.docs, self.words.settings)
        self.is_signed = True
        return put(signed + typeset(told, texts, mode))

    # The programs

    def _itip(self, mode: str, text: str, is_heard: bool = True, **settings: str) -> tuple[int, str]:
        """The status of `itip`, by other settings where some are named, and what it writes of a file: but in mode `outer` a report.

        Where not heard it has no standard error.
        """
        chosen = {**self.words.settings, **{f"--{name}": value for name, value in settings.items()}}
        words = [mode, *REPORTS.get(mode, ("--report",)), *(word for pair in chosen.items() for word in pair)]
        if settings.get("pivots") == "none":
            end_by_signals()
        return run([self.prover, *words], text, is_heard)

    def _tell(self, report: Sequence[str], words: Sequence[str] = ()) -> tuple[int, str]:
        return run([self.teller, *words], "".join(line + "\n" for line in report))

    # What is told

    def _told_by(self, mode: str, name: str, file: str, lines: Sequence[str]) -> tuple[int, str]:
        """The status of `tell`, and what is told of the lines of a mode."""
        if mode == "answer":
            return self._told(name, lines)
        return self._told_bounds(name, file, lines) if mode == "outer" else self._told_in_mode(mode, name, file, lines)

    def _told(self, name: str, lines: Sequence[str]) -> tuple[int, str]:
        """The status of `tell`, and what it writes of a report."""
        report = [self._settled(name, number, line) for number, line in enumerate(lines, 1)]
        status, told = self._tell(report, self.words.telling)
        if not self.words.options & {"--needs", "--if", "--copies", "--code"}:
            return status, told
        answers = grouped(told)
        for number, (line, answer) in enumerate(zip(report, answers), 1):
            answer[1:] = self._with_more(name, number, line, answer[1:])
        return status, "".join(line + "\n" for answer in answers for line in answer)

    def _with_more(self, name: str, number: int, line: str, told: list[str]) -> list[str]:
        """What is told below an answer, with what more the words of the call ask for."""
        if line.startswith('{"answer":"region"') and "--needs" in self.words.options:
            return self._with_needs(name, number, line, told)
        if not line.startswith('{"answer":"no"') or not told:
            return told
        more = self._code(name, number, line) if "--code" in self.words.options else []
        more += self._conditions(name, number, line) if "--if" in self.words.options else []
        more += self._copies(name, number, line) if "--copies" in self.words.options else []
        return [*told, *("  " + part for part in more)]

    def _settled(self, name: str, number: int, line: str) -> str:
        """The line of a report, or a new one where more steps may say more."""
        why = why_open(line)
        if not why or "--pivots" in self.words.settings:
            return line
        say_anew(name, number, why)
        status, anew = self._itip("answer", decoded(line)["question"], pivots="none")
        return anew.split("\n")[0] if status == 0 and anew.count("\n") == 1 else line

    def _with_needs(self, name: str, number: int, line: str, told: Sequence[str]) -> list[str]:
        """The told rows of a region, each needed one with a point at which all others hold and it doesn't."""
        from .needs import need_questions, with_points

        rows = [row[2:] for row in told]
        status, report = self._itip("answer", need_questions(decoded(line)["question"], rows), False, pivots="none")
        lines = report.split("\n")
        if status:
            say(f"{name}, question {number}: why its rows are needed can't be asked: {lines[0]}")
            return list(told)
        _, answers = self._tell(lines[:-1])
        return ["  " + row for row in with_points(rows, grouped(answers))]

    def _code(self, name: str, number: int, line: str) -> list[str]:
        """A linear code at the point of a no, or why there is none."""
        from . import linear

        found = decoded(line)
        said, coded = linear.told(found)
        names = self.words.settings.get("--names", "")
        check = [self.prover, "check", *(["--names", names] if names else [])]
        verdict = run(check, coded + "\n")[1] if coded else "1 valid\n"
        if verdict != "1 valid\n":
            say(f"{name}, question {number}: itip check finds of the code: {verdict.partition(' ')[2].strip()}")
            return [linear.NONE]
        return [said]

    def _conditions(self, name: str, number: int, line: str) -> list[str]:
        """What would make a yes of a no: lines of a question file."""
        from .conditions import MOST_VARIABLES, variables, would_do

        if len(variables(decoded(line)["question"])) > MOST_VARIABLES:
            say(f"{name}, question {number}: what would make it true is looked for on up to six variables")
            return []
        try:
            found, undecided = would_do(line, self._report)
        except Unasked as fault:
            say(f"{name}, question {number}: what would make it true can't be asked: {fault}")
            return []
        if undecided:
            say(f"{name}, question {number}: {undecided} more conditions stayed undecided after so many steps")
        return [one + THEN for one in found] or ["# no one independence or function makes it a yes"]

    def _report(self, questions: Sequence[str]) -> list[str]:
        """The report about many questions that nobody wrote, by quick runs and few other steps."""
        lines: list[str] = []
        for batch in batches(questions):
            status, written = self._itip("answer", "".join(batch), False, pivots=FEW_STEPS, run="quick")
            if status:
                raise Unasked(written.removesuffix("\n"))
            lines += written.split("\n")[:-1]
        return lines

    def _copies(self, name: str, number: int, line: str) -> list[str]:
        """The file with copies that makes a yes of a no, and below it how its answer is told."""
        from .heads import STEPS, with_copies

        say(f"{name}, question {number}: copies are tried, for a minute at most; Ctrl-C ends it")
        end_by_signals()
        file, said = with_copies(decoded(line)["question"], self.prover)
        if not file:
            return [f"# {said}"]
        status, written = self._itip("copy", file, run="quick", pivots=str(STEPS))
        _, told = self._told_in_mode("copy", name, file, written.split("\n")[:-1]) if status == 0 else (status, "")
        first, *lines = file.split("\n")[:-1]
        return [first + THEN, *lines, *(below[2:] for below in told.split("\n")[1:-1])]

    def _told_in_mode(self, mode: str, name: str, file: str, lines: Sequence[str]) -> tuple[int, str]:
        """The same of the report of another mode."""
        from . import modes

        told: list[str] = []
        statuses = [0]
        for number, line in enumerate(lines, 1):
            if modes.is_misfit(line):
                told.append(modes.misfit(line) if mode == "sharing" else f"{number} {modes.misfit(line)}")
                continue
            asked = modes.asked(mode, file, number)
            if why_open(line) and "--pivots" not in self.words.settings:
                say_anew(name, number, UNDECIDED)
                status, anew = self._itip(mode, asked.alone, pivots="none")
                line = anew.split("\n")[0] if status == 0 and anew.count("\n") == 1 else line
            first, parts = modes.shown(line, asked.made)
            told += [*modes.heading(mode, file), f"{number} {first}"]
            for part in parts:
                status, below = self._told_below(part.report) if part.report else (0, [f"  {part.plain}"])
                statuses.append(status)
                told += below
        return max(statuses), "".join(line + "\n" for line in told)

    def _told_bounds(self, name: str, file: str, lines: Sequence[str]) -> tuple[int, str]:
        """The same of the lines of mode `outer`."""
        from . import modes, outer

        told: list[str] = []
        statuses = [0]
        for number, answer in outer.by_question(lines):
            asked = modes.asked("outer", file, number)
            if self.words.per and answer != [f"{number} other"] and self.words.per not in outer.staying(asked.made):
                raise WordsError(f"{name}, question {number}: {self.words.per} is no rate that stays, so no corner is told per unit of it")
            why = outer.why_open(answer)
            if why and "--pivots" not in self.words.settings:
                say_anew(name, number, why)
                status, anew = self._itip("outer", asked.alone, pivots="none")
                answer = [f"{number} {line.partition(' ')[2]}" for line in anew.split("\n")[:-1]] if status == 0 else answer
            told.append(answer[0])
            if answer[0].split(" ")[1] != "outer":
                continue
            parts = outer.parts(asked.made, outer.read_bound(asked.made, answer), self.words.per)
            status, report = self._tell([part.shown.report for part in parts if part.shown.report], self.words.telling)
            statuses.append(status)
            told += outer.told(parts, grouped(report), "--proofs" in self.words.options)
        return max(statuses), "".join(line + "\n" for line in told)

    def _told_below(self, line: str) -> tuple[int, list[str]]:
        """The status of `tell`, and what it writes below the first line of an answer; of an invalid one that, in its place."""
        # (the lines that names would count are those of a made question)
        status, told = self._tell([line], [word for word in self.words.telling if word not in ("--named", "--whole")])
        first, *below = told.split("\n")[:-1] or [""]
        return status, below if status != 1 else [f"  {first.partition(' ')[2]}"]

    def _explain(self, name: str, text: str, questions: Made, refusal: str) -> None:
        """Writes a refusal, and says what it means, and what to write."""
        from .refusals import explained

        place, *words = refusal.split()[1:]
        if place == "long":
            self._put(refusal)
            say(f"{name} {'makes' if questions.lines else 'has'} more than {MOST_BYTES} bytes")
            return
        number, column = questions.place(*map(int, place.split(":")))
        word = " ".join(words)
        self._put(f"refused {number}:{column} {word}\n")
        say(f"{name}, line {number}, column {column}:")
        line = [*as_bytes(text).split(b"\n"), b""][number - 1].removesuffix(b"\r")
        show(*(f"    {as_text(part)}" for part in explained(self.docs, word, line, column)))
        if word in ("many", "large"):
            from .limits import MOST_NAMES, passed

            names = int(self.words.settings.get("--names", MOST_NAMES))
            counted = passed(questions.text, word, *map(int, place.split(":")), names)
            if counted:
                show(f"    {counted}")


def mode_of(text: str) -> str:
    """The mode of a file, by its first word: files with a head begin with `copy`, and sharing files with `secret`."""
    for line in text.split("\n"):
        first, *_ = line.partition("#")[0].replace("\t", " ").strip(" \r").split(" ")
        if first:
            return {"copy": "copy", "secret": "sharing"}.get(first, "answer")
    return "answer"


def say_anew(name: str, number: int, why: str) -> None:
    say(f"{name}, question {number}: {why}. It is asked anew without a budget, which may take long; Ctrl-C ends it")


def unused(text: str) -> Iterator[tuple[int, str]]:
    """The variables that only `vars` and `aux` lines name, with the number of the first question about them. What a head names isn't among them."""
    asked = number = 0
    names: list[str] = []
    head: set[str] = set()
    used: set[str] = set()
    for line in [*as_bytes(text).split(b"\n"), b"vars"]:
        first, *others = line.partition(b"#")[0].translate(WORDS).decode().split() or [""]
        if first == "vars":
            yield from ((number, name) for name in names if name not in used)
            head = head if number else used
            number, names, used = asked + 1, [], set(head)
        asked += first in ("prove", "eliminate", "contain")
        if first in ("vars", "aux"):
            names += others
        else:
            used.update(others)


def grouped(told: str) -> list[list[str]]:
    """The lines of each answer that is told, its first line among them."""
    answers: list[list[str]] = []
    for line in told.split("\n")[:-1]:
        if line.startswith("  ") and answers:
            answers[-1].append(line)
        else:
            answers.append([line])
    return answers


def refuse(why: str = "") -> int:
    """Says what the words may be, and maybe why these have no reading."""
    say(*filter(None, [why]), USAGE)
    return 2


def main(docs: str, prover: str, teller: str, lack: str, *words: str) -> int:
    """The status of a call. Where there is no program `lack` says why."""
    if words[:1] in (("--help",), ("--version",)):
        return put(HELP if words[0] == "--help" else VERSION) if len(words) == 1 else refuse()
    try:
        read = Words(words)
        if lack:
            say(*lack.split("\n"))
            return 7
        asker = Asker(read, docs, prover, teller)
        return asker.document_all() if "--document" in read.options else asker.answer_all()
    except WordsError as fault:
        return refuse(str(fault))
    except ItipError as fault:
        say(str(fault))
        return 7
    except KeyboardInterrupt:
        return 130
