"""What the program has to write for the words of a call and an input: answers in each format, best factors, bounds of secret
sharing, verdicts on a report, refusals."""

import re
import shlex

import best
import bounds
import contain
import defined
import eliminate
import sharing
from contain import Containment
from copies import Misfit, extended, read_with_head
from generate import generated_file
from questions import USUAL, Fault, read, wide
from reports import answer_json, best_json, judge, misfit_json, report_json

# the most bytes of a question file
BYTES = 1048576


def options(words):
    """The value after each word, an option's among them; `--rows=5` is `--rows 5`."""
    words = [part for word in words for part in word.split("=")]
    return dict(zip(words, words[1:]))


def limits_of(words):
    """How large a file's questions may be, by the words of a call."""
    names = options(words).get("--names")
    return wide(int(names)) if names else USUAL


# the word of the mode may stand behind options
MODES = ("answer", "check", "bench", "copy", "best", "outer", "sharing")


class Answers:
    """The answers that are due to the questions of a file, asked for in their order: a containment tries what the last one found."""

    def __init__(self, words=()):
        chosen = {"--pivots": "20000", "--rows": "512", "--tries": "256", "--format": "text"} | options(words)
        self.pivots = None if chosen["--pivots"] == "none" else int(chosen["--pivots"])
        self.rows, self.tries = int(chosen["--rows"]), int(chosen["--tries"])
        self.mode = next((word for word in words if word in MODES), "answer")
        self.format, self.is_quick = chosen["--format"], chosen.get("--run") == "quick"
        self.reports, self.kept, self.steps = "--report" in words, None, 0

    def answer(self, question):
        """The end and what it found."""
        if question.verb == "eliminate":
            end, found, self.steps = eliminate.eliminate(question, self.rows, self.pivots)
            return end, found
        if question.verb == "contain":
            end, found = Containment(question).answer(self.pivots, self.tries, self.kept)
            self.kept = found[0] if end == "contained" else self.kept
            return end, found
        end, found, self.steps = defined.prove(question, self.pivots)
        return end, found

    def asks_factor(self, question):
        return self.mode == "best" or isinstance(question, sharing.Made) and question.least

    def report(self, question):
        """The line of a report."""
        if isinstance(question, (Misfit, sharing.TooMany)):
            return misfit_json(question.about, str(question))
        if self.mode == "outer":
            return bounds.report(question, self.rows, self.tries, self.pivots)
        if self.asks_factor(question) and not best.asks_factor(question):
            return misfit_json(question.about, "other")
        if self.asks_factor(question):
            return best_json(question.about, question, *best.Best(question, self.pivots).answer())
        return report_json(question.about, question, *self.answer(question))

    def lines(self, number, question):
        if self.reports:
            return [self.report(question)]
        if isinstance(question, Misfit):
            return [f"{number} misfit {question}"]
        if isinstance(question, sharing.TooMany):
            return [f"misfit {question}"]
        heading = [f"sharing {question.minimal} {question.maximal}"] if isinstance(question, sharing.Made) else []
        return heading + self.lines_of_answer(number, question)

    def lines_of_answer(self, number, question):
        if self.mode == "outer":
            return bounds.lines(number, question, self.rows, self.tries, self.pivots)
        if self.asks_factor(question):
            return [best.line(number, question, self.pivots)]
        end, found = self.answer(question)
        if self.format == "json":
            return [answer_json(question, end, found)]
        if question.verb == "eliminate":
            return eliminate.lines(number, question, end, found)
        if question.verb == "prove":
            lines, shown = defined.lines(number, question, end, found), (question, question.targets, found)
        else:
            containment = Containment(question)
            lines = containment.lines(number, end, found)
            shown = (containment.first, containment.obligations(found[0]), found[1]) if end == "contained" else None
        if self.format == "proof" and end in ("yes", "contained"):
            lines += contain.proof_lines(number, *shown)
        return lines


def asked(words, text):
    """The questions of a file that are answered in the mode of these words; in mode `copy`, and in mode `best` where there is a head, with
    the copies of the file's head, or the reason against them; in mode `sharing` the one that is made of the file. Each has the texts of
    what it is about, as a report tells them. `Fault` where the file has no reading."""
    if "sharing" in words:
        question = sharing.made(text)
        question.about = {"sharing": re.sub("[^\0-\x7f]", "?", text)}
        return [question]
    limits = limits_of(words)
    copies, questions = read_with_head(text, limits) if "copy" in words or "best" in words else ([], read(text, limits))
    if "copy" not in words and not copies:
        for question in questions:
            question.about = {"question": question.text}
        return questions

    def with_copies(question):
        try:
            found = extended(question, copies, limits)
        except Misfit as misfit:
            found = misfit
        found.about = {"copies": "".join(copy.text for copy in copies), "question": question.text}
        return found

    return [with_copies(question) for question in questions]


def bench_line(words):
    """The line of mode `bench`."""
    chosen, answers = {"--seed": "1", "--count": "100"} | options(words), Answers(words)
    seed, count = int(chosen["--seed"]), int(chosen["--count"])
    ends = [answers.answer(question)[0] for question in read(generated_file(seed, count))]
    undecided = sum(end not in ("yes", "no") for end in ends)
    counts = f"yes {ends.count('yes')} no {ends.count('no')} undecided {undecided} region 0 contained 0 open 0"
    return f"bench seed {seed} count {count} {counts}"


def verdict_lines(report, limits=USUAL):
    """A verdict for each line of a report."""
    return [judge(number, text, limits) for number, text in enumerate(lines_of_report(report), 1)]


def lines_of_report(report):
    """The lines of a report, bytes without line ends."""
    lines = report.split(b"\n")
    return [line.removesuffix(b"\r") for line in (lines if lines[-1] else lines[:-1])]


def outcome(words, source):
    """The text and the status that are due, where the words have a reading and the source is bytes."""
    if "bench" in words:
        return bench_line(words) + "\n", 0
    if "check" in words:
        lines = verdict_lines(source, limits_of(words))
        return "".join(line + "\n" for line in lines), int(any(" invalid " in line for line in lines))
    if len(source) > BYTES:
        return "refused long\n", 3
    try:
        questions = asked(words, source.decode("latin-1"))
    except Fault as fault:
        return f"refused {fault}\n", 3
    answers = Answers(words)
    return "".join(line + "\n" for number, question in enumerate(questions, 1) for line in answers.lines(number, question)), 0


def rows_of(text):
    """The calls of a file of rows, as `check` beside this folder has them: words, input, status and output."""
    words, status = ["answer"], 0
    for line in text.split("\n"):
        if line.startswith("@ "):
            status, *words = shlex.split(line[2:])
        elif line and line[0] != "#":
            source, _, output = line.rpartition(" =>")
            source = re.sub(r"<<(.*)\*([0-9]+)>>", lambda piece: piece[1] * int(piece[2]), source)
            yield words, bytes_of(source), int(status), bytes_of(output.removeprefix(" ")).decode("latin-1")


def bytes_of(text):
    """A text with escapes as `printf` reads them by %b."""
    escapes = {"n": "\n", "t": "\t", "r": "\r", "\\": "\\"}
    escape = re.compile(r"\\(?:0([0-7]{1,3})|(.))")
    return escape.sub(lambda found: chr(int(found[1], 8)) if found[1] else escapes[found[2]], text).encode("latin-1")
