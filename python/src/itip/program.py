"""The programs, called as processes: `itip`, which answers and judges, and `tell`, which writes answers in the field's notation."""

from __future__ import annotations

import os
import re
import signal
import subprocess
import warnings
from collections.abc import Sequence
from contextlib import suppress
from dataclasses import dataclass, field, fields
from pathlib import Path
from typing import Any, Optional, Union

from .errors import Forged, MissingProgram, ProgramFailed, Refused, TimedOut
from .refusals import hint, meaning
from .reports import MOST_BYTES, batches, decoded, why_open

ANSWER = ("answer", "--format", "json")  # the words with which the program writes a report
BEST = ("best", "--report")
LONG = f"a file has at most {MOST_BYTES} bytes"
ENDS = {2: "the words have no reading", 4: "a read failed", 5: "a write failed", 6: "there was too little memory"}

Budget = Union[int, None, str]  # a number of steps, None for any number, or "usual"
AnyPath = Union[str, "os.PathLike[str]"]


class Notice(UserWarning):
    """What `./itip` says beside an answer, as that this machine hasn't proved the program yet."""


def _repository() -> Optional[Path]:
    """Where ITIP_HOME says, else around this package."""
    named = os.environ.get("ITIP_HOME")
    around = [Path(named)] if named else Path(__file__).resolve().parents
    return next((folder for folder in around if (folder / "crates" / "itip").is_dir()), None)


@dataclass
class Itip:
    """How to call the programs.

    `home` is the repository: without it ITIP_HOME, or the folders around this package. `prover` and `teller` are paths of the
    programs, where they lie elsewhere. `run` is "quick" or "bland": with "bland" each answer is the one that docs/guide/answers.md fixes.
    `pivots` is the budget of steps of each defined run, None for none; "usual" is that of the program, and what stays undecided by
    it is asked once more without a budget, as `./ask` does. `names` is how many variables a question may name, from 10 to 16, with tables
    of any size; without it they are ten at most. `timeout` is how many seconds one call of a program may take. With
    `judge` each answer goes through `itip check` before it is handed out.
    """

    home: Optional[AnyPath] = None
    prover: Optional[AnyPath] = None
    teller: Optional[AnyPath] = None
    run: str = "quick"
    pivots: Budget = "usual"
    names: Optional[int] = None
    timeout: Optional[float] = None
    judge: bool = False
    calls: int = field(default=0, init=False, compare=False)

    # The programs

    def repository(self) -> Path:
        found = Path(self.home) if self.home else _repository()
        if not found:
            raise MissingProgram("the repository of itip isn't around this package: set ITIP_HOME to its folder, or configure(home=..)")
        return found

    def _path(self, name: str) -> Path:
        """What this machine proved; where it hasn't, the script at the top, which chooses what runs in its place and says so."""
        home = self.repository()
        proved = home / "crates" / name / "out" / name
        return proved if proved.exists() else home / name

    def prover_path(self) -> Path:
        return Path(self.prover) if self.prover else self._path("itip")

    def teller_path(self) -> Path:
        return Path(self.teller) if self.teller else self._path("tell")

    def _run(self, program: Path, words: Sequence[str], text: str) -> tuple[int, str]:
        """One call: its status and what it wrote. A timeout or an interrupt ends the program, and all that it started."""
        self.calls += 1
        pipe = subprocess.PIPE
        try:
            process = subprocess.Popen([program, *words], stdin=pipe, stdout=pipe, stderr=pipe, start_new_session=True)
        except OSError as fault:
            raise MissingProgram(_how_to_build(program, fault.strerror or str(fault))) from None
        with process:
            try:
                written, notice = process.communicate(text.encode(), self.timeout)
            except subprocess.TimeoutExpired:
                _end(process)
                raise TimedOut(f"no answer within {self.timeout} seconds: raise timeout, or lower pivots") from None
            except BaseException:
                _end(process)
                raise
        said = notice.decode(errors="replace").strip()
        if process.returncode == 7:
            raise MissingProgram(said or f"{program} gives no answer")
        if said and process.returncode in (0, 1):
            warnings.warn(said, Notice, stacklevel=2)
        return process.returncode, written.decode(errors="replace")

    def itip(self, words: Sequence[str], text: str) -> str:
        """What `itip WORDS` writes about a text, which it may refuse."""
        status, written = self._run(self.prover_path(), words, text)
        if status == 3:
            raise self._refusal(written, text)
        if status not in (0, 1):
            raise ProgramFailed(f"itip {' '.join(words)} ended with status {status}: {ENDS.get(status, 'it was cut off')}")
        return written

    # Reports

    def report(self, questions: Sequence[str], pivots: Budget = "usual", words: Sequence[str] = (), mode: Sequence[str] = ANSWER) -> list[str]:
        """The report of the questions, a line for each. As many as fit go into one call. `mode` has its first words."""
        lines: list[str] = []
        for batch in batches(questions):
            found = self.file_report("".join(batch), pivots, words, mode)
            if len(found) != len(batch):
                raise ProgramFailed(f"{len(batch)} questions got {len(found)} answers")
            lines += found
        return lines

    def file_report(self, text: str, pivots: Budget = "usual", words: Sequence[str] = (), mode: Sequence[str] = ANSWER) -> list[str]:
        """The report of a question file."""
        budget = self.pivots if pivots == "usual" else pivots
        lines = self._judged(text, budget, words, mode)
        if budget == "usual":
            lines = [self._settled(line, words, mode) if why_open(line) else line for line in lines]
        return lines

    def _judged(self, text: str, budget: Budget, words: Sequence[str], mode: Sequence[str]) -> list[str]:
        pivots = [] if budget == "usual" else ["--pivots", "none" if budget is None else str(budget)]
        lines = self.itip([*mode, "--run", self.run, *pivots, *self.name_words(), *words], text).splitlines()
        if self.judge:
            for line, verdict in zip(lines, self.check(lines)):
                if verdict.startswith("invalid"):
                    raise Forged(f"{verdict}: {line}")
        return lines

    def _settled(self, line: str, words: Sequence[str], mode: Sequence[str]) -> str:
        """The answer to the same question without a budget."""
        lines = self._judged(str(decoded(line).get("question")), None, words, mode)
        if len(lines) != 1:
            raise ProgramFailed(f"one question got {len(lines)} answers")
        return lines[0]

    def name_words(self) -> list[str]:
        """The words for how many variables a question may name."""
        return [] if self.names is None else ["--names", str(self.names)]

    def check(self, report: Sequence[str]) -> list[str]:
        """The verdict of `itip check` on each line of a report: `valid`, `skipped`, or `invalid` and why."""
        written = self.itip(["check", *self.name_words()], "".join(line + "\n" for line in report)).splitlines()
        verdicts = [line.partition(" ")[2] for line in written]
        if len(verdicts) != len(report):
            raise ProgramFailed(f"{len(report)} lines got {len(verdicts)} verdicts")
        return verdicts

    def tell(self, report: Sequence[str], words: Sequence[str] = ()) -> list[list[str]]:
        """What `tell` writes about each line of a report: the first line without its number, then those below it."""
        status, written = self._run(self.teller_path(), words, "".join(line + "\n" for line in report))
        told: list[list[str]] = []
        for line in written.splitlines():
            if not line.startswith("  "):
                told.append([line.partition(" ")[2]])
            elif told:
                told[-1].append(line[2:])
        if status not in (0, 1) or len(told) != len(report):
            raise ProgramFailed(f"tell ended with status {status}, and told of {len(told)} answers out of {len(report)}")
        return told

    # Refusals

    def _refusal(self, written: str, source: str) -> Exception:
        found = re.fullmatch(r"refused (?:(\d+):(\d+) )?(\w+)\n", written)
        if not found:
            return ProgramFailed(f"itip refused the file without a reason: {written[:200]!r}")
        line, column, word = int(found[1] or 0), int(found[2] or 0), found[3]
        source = source.replace("\r\n", "\n")
        if not line:
            return Refused(word, 0, 0, source, LONG)
        at = b"".join(source.encode().split(b"\n")[line - 1 : line])
        means, says = "", ""
        with suppress(MissingProgram, OSError):
            docs = self.repository() / "docs"
            means = meaning(docs, word)
            says = hint(docs, word, at[: column - 1], at[column - 1 :])
        return Refused(word, line, column, source, means, says)


def _how_to_build(program: Path, why: str) -> str:
    said = f"{program} can't be run ({why}), so there is no answer"
    if program.name != "tell" or program.parent.name != "out":
        return said
    return f"{said}. To prove and build it: (cd {program.parents[1]} && rt run <stdin)"


def _end(process: subprocess.Popen[bytes]) -> None:
    """Ends a process and all that it started: `./itip` is given the time to remove what it wrote."""
    for number, seconds in ((signal.SIGTERM, 5), (signal.SIGKILL, None)):
        with suppress(ProcessLookupError):
            os.killpg(process.pid, number)
        with suppress(subprocess.TimeoutExpired):
            process.wait(seconds)


_default = Itip()


def default() -> Itip:
    """How the programs are called where nothing else is said."""
    return _default


def configure(**settings: Any) -> Itip:
    """Sets how all later calls reach the programs, by the fields of `Itip`: configure(timeout=60), configure(pivots=None)."""
    for name, value in settings.items():
        if name not in {known.name for known in fields(Itip) if known.init}:
            raise TypeError(f"{name!r} is no setting of the programs")
        setattr(_default, name, value)
    return _default
