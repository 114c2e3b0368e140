"""The command ./ask: its words, statuses and bytes, and its modes against the program's own lines and the literature."""

import json
import os
import re
import signal
import subprocess
import sys
import tempfile
import time
import unittest
from fractions import Fraction
from pathlib import Path

from itip import H, I, best, copy, prove, relation, rv, sharing
from itip.ask import MODES, SETTINGS, grouped, mode_of, unused
from itip.program import default

from .programs import FEW_STEPS, WithPrograms

ROOT = Path(__file__).resolve().parents[2]
EXAMPLES = ROOT / "examples"
SOURCES = ROOT / "python" / "src"
USAGE = b"ask: usage: ./ask [WORDS] FILE.., with the words that ./ask --help lists\n"
BOOT = "import sys; sys.path.insert(0, sys.argv[1]); from itip.ask import main; sys.exit(main(*sys.argv[2:]))"
ANEW = "It is asked anew without a budget, which may take long; Ctrl-C ends it\n"
# the region of Slepian and Wolf, as docs/guide/first-questions.md has it
BINNED = (
    "vars X, Y\nrates R, Q, S, T\nrow S >= H(X)\nrow T >= H(Y)\nrow S - R <= I(X;Y)\nrow T - Q <= I(X;Y)\n"
    "row S - R + T - Q <= I(X;Y)\neliminate S, T\n"
)
# a path of four parties (Capocelli, De Santis, Gargano and Vaccaro 1993): its inner two shares have three times the secret's entropy
PATH = "secret s\nparties a, b, c, d\nqualified a, b\nqualified b, c\nqualified c, d\n"


class Asks(WithPrograms):
    def file(self, text, name="mine.txt"):
        folder = tempfile.TemporaryDirectory()
        self.addCleanup(folder.cleanup)
        path = Path(folder.name) / name
        path.write_bytes(text if isinstance(text, bytes) else text.encode())
        return str(path)

    def command(self, *words, prover=None):
        """./ask by these programs, those of this package where none is named."""
        paths = [SOURCES, ROOT / "docs", prover or default().prover_path(), default().teller_path()]
        return [sys.executable, "-I", "-S", "-c", BOOT, *map(str, paths), "", *words]

    def ask(self, *words, prover=None):
        """The status, standard output and standard error."""
        done = subprocess.run(self.command(*words, prover=prover), capture_output=True, check=False)
        return done.returncode, done.stdout.decode(), done.stderr.decode()

    def asks(self, text, *words, **settings):
        """The lines that a file is answered by, with status 0 and nothing on standard error."""
        status, told, said = self.ask(*words, self.file(text), **settings)
        self.assertEqual((status, said), (0, ""))
        return told.splitlines()

    def are_equations(self, proofs):
        """Each proof is true of all maps of sets and rates to numbers: pasted, it has one by nothing."""
        answers = default().itip(["answer"], "".join(map(self.pasted, proofs))).splitlines()
        self.assertEqual(answers, [f"{number} yes 1 : 0 and 1 : 0" for number in range(1, len(proofs) + 1)])

    def pasted(self, proof):
        sets = r"[HI]\(([^)]*)\)"
        variables = dict.fromkeys(re.findall(r"\w+", " ".join(re.findall(sets, proof)))) or ["X"]
        rates = dict.fromkeys(re.findall(r"[A-Za-z]\w*", re.sub(sets, "", proof)))
        head = f"vars {', '.join(variables)}\n" + (f"rates {', '.join(rates)}\n" if rates else "")
        return f"{head}prove {proof}\n"


class Calls(Asks):
    def test_script(self):
        """The script at the top, from another folder and through a link."""
        with tempfile.TemporaryDirectory() as folder:
            (Path(folder) / "here").symlink_to(ROOT)
            (Path(folder) / "mine.txt").write_text(BINNED)
            done = subprocess.run(["here/ask", "mine.txt"], cwd=folder, capture_output=True, check=False)
        self.assertEqual((done.returncode, done.stdout), (0, b"1 region 3\n  R >= H(X|Y)  # row 1 + row 3\n  Q >= H(Y|X)  # row 2 + row 4\n  R + Q >= H(X,Y)  # row 1 + row 2 + row 5\n"))

    def test_words(self):
        path = self.file("vars X\nprove H(X) >= 0\n")
        for words in [
            [], ["--steps"], ["--latx", "f"], ["--help", "f"], ["--document", "f"], ["--"], ["--copy", "--outer", "f"], ["--answer", "f"],
            ["-copy", "f"], ["--latex=1", "f"], ["--pivots"], ["--pivots", "7"], ["--run", "fast", path], ["--pivots", "few", path],
            ["--tries", "7", "--copy", path],
        ]:  # fmt: skip
            done = subprocess.run(self.command(*words), capture_output=True, check=False)
            self.assertEqual((done.returncode, done.stdout, done.stderr), (2, b"", USAGE), words)

    def test_help(self):
        """It lists each word, and docs/guide/ask.md the same list."""
        status, shown, said = self.ask("--help")
        self.assertEqual((status, said), (0, ""))
        words = re.findall("--[a-z]+", shown)
        known = [*MODES, "steps", "short", "whole", "latex", "document", "needs", "if", "copies", "code", "made", "per", "proofs", "version"]
        self.assertEqual(sorted(set(words) - {"--help"}), sorted([*SETTINGS, *(f"--{word}" for word in known)]))
        self.assertIn(f"```\n{shown}```\n", (ROOT / "docs" / "guide" / "ask.md").read_text())
        self.assertEqual(self.ask("--version"), (0, "ask 1\n", ""))

    def test_settings(self):
        """They go to the program as they are, and with a budget of one's own nothing is asked anew."""
        path = self.file("vars X, Y, Z\nprove H(X) + H(Y) + H(Z) >= H(X,Y,Z)\n")
        self.assertEqual(self.ask("--run", "bland", "--pivots", "1", path), (0, "1 undecided pivots 1\n", ""))
        self.assertEqual(self.asks(PATH + "prove H(b) + H(c) >= 3 H(s)\n", "--run", "bland", "--pivots", "1"), ["sharing 3 3", "1 undecided pivots 1"])
        self.assertEqual(self.ask("--rows", "1", self.file(BINNED)), (0, "1 undecided rows S\n", ""))
        outside = self.file("vars X, Y\nrates R\nregion\nrow R <= H(X,Y)\nregion\nrow R <= H(X)\ncontain\n")
        self.assertEqual(self.ask("--tries", "1", outside)[:2], (0, "1 open 1\n"))

    def test_names_of_lines(self):
        """A proof names the lines that it needs; by `--whole` it has their terms."""
        head, goal = "vars X, Y, Z\n", "prove I(X;Y) >= I(X;Z)\n"
        chain, function = (self.file(head + line + goal) for line in ("given markov X -> Y -> Z\n", "given func Z of Y\n"))
        self.assertEqual(self.ask(chain)[1], "1 yes\n  I(X;Y) - I(X;Z) = I(X;Y|Z) - (given 1)\n")
        self.assertEqual(self.ask("--whole", chain)[1], "1 yes\n  I(X;Y) - I(X;Z) = I(X;Y|Z) - I(X;Z|Y)\n")
        for words in [(), ("--whole",)]:
            self.assertEqual(self.ask(*words, function)[1], "1 yes\n  I(X;Y) - I(X;Z) = I(X;Y|Z)  # by given 1\n")

    def test_input(self):
        """`-` is standard input."""
        for text, due in [(b"vars X\nprove H(X) >= 0\n", (0, b"1 yes\n  H(X) = H(X)\n", b"")), (b"vars\n", (3, b"refused 1:5 word\n", b"ask: standard input, line 1, column 5:"))]:
            done = subprocess.run(self.command("-"), input=text, capture_output=True, check=False)
            self.assertEqual((done.returncode, done.stdout, done.stderr[: len(due[2])]), due)

    def test_modes_of_files(self):
        """A file says by its first word whether it has a head of copies, or is a sharing file."""
        copies = "copy R of A over C, D\nvars A, C, D\nprove I(A;C|D) >= 0\n"
        path = PATH + "prove H(b) + H(c) >= 3 H(s)\n"
        for text, mode in [(copies, "--copy"), (f"\n# a head\n\t{copies}", "--copy"), (path, "--sharing"), (path.replace("\n", "\r\n"), "--sharing")]:
            self.assertEqual(self.asks(text), self.asks(text, mode))
        self.assertEqual([mode_of(text) for text in ("", "#copy", "copying", "secrets s", "secret\ts", "vars copy")], ["answer"] * 4 + ["sharing", "answer"])

    def test_no_program(self):
        command = self.command("f")
        command[-2] = "why\nwhat to do"
        done = subprocess.run(command, capture_output=True, check=False)
        self.assertEqual((done.returncode, done.stdout, done.stderr), (7, b"", b"ask: why\nask: what to do\n"))

    def test_files(self):
        """The status is the first other than 0, and all files are answered."""
        right = self.file("vars X\nprove H(X) >= 0\n")
        wrong = self.file("vars X\nprove H(X) < 0\n")
        status, told, said = self.ask(right, "/nowhere", wrong, str(ROOT), right)
        self.assertEqual(status, 4)
        self.assertEqual([line for line in told.splitlines() if line[0] != " "], [
            f"# {right}", "1 yes", "# /nowhere", f"# {wrong}", "refused 2:12 byte", f"# {ROOT}", f"# {right}", "1 yes",
        ])  # fmt: skip
        self.assertIn("ask: /nowhere can't be read: No such file or directory\n", said)
        self.assertIn(f"ask: {ROOT} can't be read: Is a directory\n", said)
        self.assertEqual(self.ask(wrong, "/nowhere")[0], 3)

    def test_bytes(self):
        """Names of files and lines of theirs go through, whatever their bytes."""
        folder = os.fsencode(tempfile.mkdtemp())
        name = folder + b"/a\xff b"
        Path(os.fsdecode(name)).write_bytes(b"vars X\nprove \xe9 >= 0\n")
        done = subprocess.run(self.command(os.fsdecode(name)), capture_output=True, check=False)
        self.assertEqual((done.returncode, done.stdout), (3, b"refused 2:7 byte\n"))
        self.assertTrue(done.stderr.startswith(b"ask: " + name + b", line 2, column 7:\n    prove \xe9 >= 0\n          ^\n    byte: a byte"))
        Path(os.fsdecode(name)).unlink()
        os.rmdir(folder)

    def test_refused(self):
        """The example of docs/guide/ask.md, and what has no line to show."""
        page = (ROOT / "docs" / "guide" / "ask.md").read_text()
        shown = re.search(r"(?s)  refused 2:12 byte\n(  ask: mine.txt.*?)  ```", page)[1].replace("\n  ", "\n")[2:]
        path = self.file("vars X, Y\nprove H(X) < H(X,Y)\n")
        status, told, said = self.ask(path)
        self.assertEqual((status, told, said.replace(path, "mine.txt")), (3, "refused 2:12 byte\n", shown))
        path = self.file("vars X")
        self.assertTrue(self.ask(path)[2].startswith(f"ask: {path}, line 2, column 1:\n    unfinished: "))
        path = self.file("#" * 1_048_577)
        self.assertEqual(self.ask(path), (3, "refused long\n", f"ask: {path} has more than 1048576 bytes\n"))
        self.assertEqual(self.ask("--latex", path)[1], "\\par{\\raggedright\\texttt{refused long}\\par}\n")

    def test_full(self):
        path = self.file("vars X\nprove H(X) >= 0\n")
        for words in ([path], ["--latex", path]):
            with open("/dev/full", "wb") as full:
                done = subprocess.run(self.command(*words), stdout=full, stderr=subprocess.PIPE, check=False)
            self.assertEqual((done.returncode, done.stderr), (5, b"ask: standard output can't be written: No space left on device\n"))
        reading, writing = os.pipe()
        os.close(reading)
        done = subprocess.run(self.command(path), stdout=writing, stderr=subprocess.PIPE, check=False)
        os.close(writing)
        self.assertEqual((done.returncode, done.stderr), (5, b""))

    def test_program_that_fails(self):
        path = self.file("vars X\nprove H(X) >= 0\n")
        for body, due, begin in [
            ("sys.exit(4)\n", 4, ""),
            ("os.kill(os.getpid(), 9)\n", 137, ""),
            ("honest()\nprint('{', end='')\nsys.exit(6)\n", 6, "1 yes\n  H(X) = H(X)\n"),
        ]:
            status, told, _ = self.ask(path, prover=self.program(body).prover)
            self.assertEqual((status, told), (due, begin))
        self.assertEqual(self.ask(path, prover="/nowhere")[::2], (7, "ask: /nowhere can't be run (No such file or directory), so there is no answer\n"))

    def test_interrupts(self):
        """An interrupt ends the program too, and so does any signal while it runs without a budget."""
        sleep = "open(__file__ + '.pid', 'w').write(f'{os.getpid()}\\n')\ntime.sleep(60)\n"
        anew = f"if '--pivots' not in sys.argv:\n    sys.exit(honest('--pivots', '1'))\n{sleep}"
        # (a job that a shell starts with `&`, or by nohup, begins by ignoring some)
        default = "for number in (signal.SIGINT, signal.SIGTERM, signal.SIGHUP): signal.signal(number, signal.SIG_DFL)"
        begin = f"import os, signal, sys\n{default}\nos.execv(sys.argv[1], sys.argv[1:])"
        path = self.file("vars X, Y, Z\nprove H(X) + H(Y) + H(Z) >= H(X,Y,Z)\n")
        for number, due, body in [(signal.SIGINT, 130, sleep), (signal.SIGINT, 130, anew), (signal.SIGTERM, 143, anew), (signal.SIGHUP, 129, anew)]:
            slow = self.program(body)
            note = Path(f"{slow.prover}.pid")
            command = [sys.executable, "-c", begin, *self.command(path, prover=slow.prover)]
            call = subprocess.Popen(command, stdout=subprocess.PIPE, stderr=subprocess.PIPE)
            for _ in range(600):
                if note.exists() and note.read_text().endswith("\n"):
                    break
                time.sleep(0.05)
            call.send_signal(number)
            told, said = call.communicate(timeout=30)
            self.assertEqual((call.returncode, told, b"Traceback" in said), (due, b"", False))
            self.ends(note.read_text().strip())

    def ends(self, process):
        """An orphan's end may wait to be read."""
        for _ in range(100):
            try:
                state = Path(f"/proc/{process}/stat").read_text().rpartition(")")[2].split()[0]
            except OSError:
                return
            if state == "Z":
                return
            time.sleep(0.05)
        self.fail("the program goes on")

    def test_unused(self):
        self.assertEqual(list(unused("vars X, Y, Z # W\nprove I(X;Y) >= 0\nvars X, of\ngiven func X of X\nprove H(X) >= 0\n")), [(1, "Z")])
        self.assertEqual(list(unused("vars X\nrates R\nregion\nrow R <= H(X)\nregion\naux U, V\nrow R <= H(V)\ncontain\n")), [(1, "U")])
        self.assertEqual(list(unused("copy R of A over B\nvars A, B, C\nprove 0 >= 0\nvars A, D\nprove 0 >= 0\n")), [(1, "C"), (2, "D")])
        path = self.file("vars X, Y\nprove H(X) >= 0\n")
        self.assertEqual(self.ask(path), (0, "1 yes\n  H(X) = H(X)\n", f"ask: {path}, question 1: no line says anything of the variable Y\n"))

    def test_grouped(self):
        self.assertEqual(grouped("1 yes\n  a\n    b\n2 no\n  c\n"), [["1 yes", "  a", "    b"], ["2 no", "  c"]])

    def test_anew(self):
        """What stays undecided by steps is asked once more without a budget, in each mode, and standard error says so."""
        few = self.program(FEW_STEPS).prover
        shannon = "vars X, Y, Z\nprove H(X) + H(Y) + H(Z) >= H(X,Y,Z)\n"
        for text, words, number, due in [
            (f"vars X\nprove H(X) >= 0\n{shannon}", [], 2, ["1 yes", "2 yes"]),
            (f"copy R of X over Y\nvars X, Y\nprove H(X) >= 0\n{shannon}", ["--copy"], 2, ["1 yes", "2 yes"]),
            (f"vars X\nprove H(X) <= H(X)\n{shannon}", ["--best"], 2, ["1 other", "2 best 1/1"]),
            (f"copy R of X over Y\nvars X\nprove H(X) >= 0\n{shannon}", ["--best"], 2, ["1 misfit copy 1", "2 best 1/1"]),
            (f"{PATH}prove H(b) + H(c) >= 3 H(s)\n", ["--sharing"], 1, ["sharing 3 3", "1 yes"]),
            (f"{PATH}best H(b) + H(c) >= H(s)\n", ["--sharing"], 1, ["sharing 3 3", "1 best 1/3"]),
        ]:
            path = self.file(text)
            status, told, said = self.ask(*words, path, prover=few)
            self.assertEqual((status, [first for first, *_ in grouped(told)]), (0, due))
            self.assertIn(f"ask: {path}, question {number}: is undecided after so many steps. {ANEW}", said)

    def test_unsettled(self):
        """A row of which too few steps say nothing is settled by more."""
        few = self.program(FEW_STEPS).prover
        path = self.file(BINNED)
        status, told, said = self.ask(path, prover=few)
        self.assertEqual((status, told), self.ask(path)[:2])
        self.assertEqual(said, f"ask: {path}, question 1: has rows that may not be needed. {ANEW}")

    def test_needs(self):
        """Slepian and Wolf's region, and of each row a point at which it alone fails."""
        first, *rows = self.asks(BINNED, "--needs")
        self.assertEqual([first, rows[0]], ["1 region 3", "  R >= H(X|Y)  # row 1 + row 3  # needed: X constant, Y constant, R = -1, Q = 1"])
        self.assertEqual([row.partition("  #")[0] for row in rows], ["  R >= H(X|Y)", "  Q >= H(Y|X)", "  R + Q >= H(X,Y)"])
        self.assertTrue(all("  # needed: " in row for row in rows))

    def test_needs_that_are_refused(self):
        body = "if 'none' in sys.argv:\n    print('refused 1:1 word')\n    print('sad', file=sys.stderr)\n    sys.exit(3)\nsys.exit(honest())\n"
        path = self.file(BINNED)
        status, told, said = self.ask("--needs", path, prover=self.program(body).prover)
        self.assertEqual((status, told), self.ask(path)[:2])
        self.assertEqual(said, f"ask: {path}, question 1: why its rows are needed can't be asked: refused 1:1 word\n")


class Modes(Asks):
    """Modes copy, best and sharing, whose own lines stand beside the examples: from the literature, and another implementation."""

    def firsts(self, path):
        """The lines of the mode beside a file, without their details: those of quick runs, where they say more."""
        quick = path.with_suffix(".quick")
        stored = quick if quick.exists() else path.with_suffix(".out")
        return [self.first(line) for line in stored.read_text().splitlines()]

    @staticmethod
    def first(line):
        """A line without its details; any factor shows that factors are unbounded."""
        words = line.split(" ")
        return " ".join(words[: {"yes": 2, "no": 2, "none": 2, "best": 3, "unbounded": 2}.get(words[1], len(words))])

    def judge(self, mode, folder, pattern):
        """Each file is answered as its mode answers it, by proofs that are equations: how many."""
        paths = sorted((EXAMPLES / folder).glob(pattern))
        status, told, _ = self.ask(f"--{mode}", *map(str, paths))
        answers = grouped(told)
        due = [line for path in paths for line in (f"# {path}", *self.firsts(path))]
        self.assertEqual((status, [self.first(first) for first, *_ in answers]), (0, due))
        proofs = []
        for first, *below in answers:
            word = first.split()[1]
            self.assertEqual(len(below), {"yes": 1, "no": 1, "none": 1, "best": 2, "unbounded": 2}.get(word, 0), first)
            proofs += [line.strip() for line in below[: {"yes": 1, "best": 1, "unbounded": 2}.get(word, 0)]]
        self.are_equations(proofs)
        return len(proofs)

    def test_copy(self):
        self.assertGreater(self.judge("copy", "copies", "[!bm]*.txt"), 5)
        told = self.asks((EXAMPLES / "copies" / "zhang-yeung.txt").read_text(), "--copy")
        self.assertEqual([line for line in told if line[0] != " "], ["1 yes", "2 yes", "3 no"])

    def test_misfits(self):
        path = EXAMPLES / "copies" / "misfits.txt"
        status, told, _ = self.ask("--copy", str(path))
        self.assertEqual((status, [answer[0] for answer in grouped(told)]), (0, self.firsts(path)))

    def test_copy_like_the_package(self):
        """Zhang and Yeung 1998: not Shannon's, and true by one copy."""
        a, c, d, one = rv("A C D R")
        wanted = relation("2 I(C;D) <= I(A;B) + I(A;C,D) + 3 I(C;D|A) + I(C;D|B)")
        text = prove(wanted).question
        self.assertEqual(self.asks(text)[0], "1 no")
        answer = prove(wanted, copies=[copy(one, a, c + d)])
        self.assertEqual(self.asks(f"copy R of A over C, D\n{text}", "--copy"), ["1 yes", *("  " + line for line in answer.told)])

    def test_best(self):
        self.assertGreater(self.judge("best", ".", "best-[!c]*.txt"), 10)
        self.assertGreater(self.judge("best", "copies", "best-*.txt"), 4)

    def test_best_with_copies(self):
        """How far Ingleton's inequality may fail: by 1/4 of the whole by Shannon's inequalities, and by 1/5 with the copy of Zhang and Yeung."""
        head, text = "copy R of A over C, D\n", "vars A, B, C, D\nprove H(A,B,C,D) >= I(C;D) - I(C;D|A) - I(C;D|B) - I(A;B)\n"
        self.assertEqual(self.asks(text, "--best")[0], "1 best 1/4")
        told = self.asks(head + text, "--best")
        self.assertEqual(told[0], "1 best 1/5")
        self.are_equations([told[1].strip()])
        for words in (["--best", "--copy"], ["--copy", "--best"]):
            self.assertEqual(self.asks(head + text, *words), told)
        a, b, c, d, one = rv("A B C D R")
        found = best(H(a, b, c, d), I(c & d) - I(c & d | a) - I(c & d | b) - I(a & b), copies=[copy(one, a, c + d)])
        self.assertEqual(found.value, Fraction(1, 5))
        self.assertEqual([f"  {line}" for line in (*found.holds.told, *found.attained.told)], told[1:])
        paper = "\n".join(self.asks(head + text, "--best", "--latex"))
        self.assertIn("Given: $R$ a copy of $A$ over $C,D$.", paper)
        self.assertIn("The least factor is $1/5$", paper)

    def test_best_of_the_literature(self):
        """Shearer's 1/2, of the edges of a triangle (1986): the pairs of one variable in three show that no smaller one does."""
        told = self.asks("vars X, Y, Z\nprove H(X,Y) + H(Y,Z) + H(X,Z) >= H(X,Y,Z)\n", "--best")
        self.assertEqual(told[0], "1 best 1/2")
        self.assertTrue(told[1].startswith("  H(X,Y) + H(Y,Z) + H(X,Z) - 2 H(X,Y,Z) = "))
        self.are_equations([told[1].strip()])
        with_steps = self.asks("vars X, Y, Z\nprove H(X,Y) + H(Y,Z) + H(X,Z) >= H(X,Y,Z)\n", "--best", "--steps")
        self.assertEqual((with_steps[:2], with_steps[-1:]), (told[:2], told[2:]))
        self.are_equations([line.strip() for line in with_steps[2:-1]])

    def test_best_at_its_point(self):
        """At the values of the mode's line the factor is an equation, and tell has told them from there."""
        line = default().itip(["best", "--run", "quick"], "vars X, Y\nprove H(X) + H(Y) >= H(X,Y)\n").strip()
        self.assertEqual(line.split(" at ")[0], "1 best 1/1 1 : 1 I(X;Y)")
        told = self.asks("vars X, Y\nprove H(X) + H(Y) >= H(X,Y)\n", "--best")
        self.assertEqual(told[:2], ["1 best 1/1", "  H(X) + H(Y) - H(X,Y) = I(X;Y)"])
        facts = dict(fact.split(" = ") for fact in told[2].strip().split(", ") if " = " in fact)
        values = dict(value.split("=") for value in line.split(" at ")[1].split())
        self.assertTrue(facts and all(values[name.replace("H", "h")] == value for name, value in facts.items()))

    def test_numbers_past_those_of_questions(self):
        """The proof of 2 E - 3 F has numbers that no question file holds: the mode's own text stands for it."""
        text = "vars X, Y\nprove 18446744073709551615 H(X,Y) >= 12297829382473034410 H(X)\n"
        _, _, _, proof = default().itip(["best"], text).strip().split(" ", 3)
        weights, values = proof.split(" at ")
        self.assertEqual(self.asks(text, "--best"), ["1 best 2/3", f"  as weights {weights}", f"  as point {values}"])

    def test_sharing(self):
        self.assertGreater(self.judge("sharing", "sharing", "[!m]*.txt"), 8)
        many = EXAMPLES / "sharing" / "many.txt"
        self.assertEqual(self.asks(many.read_text(), "--sharing"), ["misfit many"])

    def test_sharing_of_the_literature(self):
        self.assertEqual(self.asks(f"{PATH}prove H(b) + H(c) >= 3 H(s)\n", "--sharing")[:2], ["sharing 3 3", "1 yes"])
        told = self.asks(f"{PATH}best H(b) + H(c) >= H(s)\n", "--sharing")
        self.assertEqual(told[:2], ["sharing 3 3", "1 best 1/3"])
        self.are_equations([told[2].strip()])

    def test_page(self):
        """What docs/guide/ask.md shows of the modes."""
        page = (ROOT / "docs" / "guide" / "ask.md").read_text()
        for told in [
            self.asks("vars X, Y, Z\nprove H(X,Y) + H(Y,Z) + H(X,Z) >= H(X,Y,Z)\n", "--best"),
            self.asks(f"{PATH}prove H(b) + H(c) >= 3 H(s)\n", "--sharing"),
        ]:
            self.assertIn("\n```\n" + "".join(line + "\n" for line in told) + "```\n", page)

    def test_points_that_are_alike(self):
        """Of a point of eleven names one of the sets that a symmetry makes alike is told, and the symmetry: by hand. Only X and Y aren't
        constant, each has the value 2, and both have 3; no other two names have the same coefficient."""
        constant = " + ".join(f"{number} H({name})" for number, name in enumerate("ABCDEFGJK", 1))
        question = f"vars {', '.join('ABCDEFGJKXY')}\ngiven {constant} = 0\nprove I(X;Y) <= 0\n"
        values = [("0", "2", "2", "3")[number >> 9] for number in range(1, 2**11)]
        report = json.dumps({"answer": "no", "point": values, "question": question, "side": "forward"})
        sets = ["h(A,B,C,D,E,F,G,J,K)=0", "h(A,B,C,D,E,F,G,J,K,X)=2", "h(A,B,C,D,E,F,G,J,K,X,Y)=3"]
        self.assertEqual(default().tell([report], [])[0], ["no", f"as point {' '.join(sets)} alike X->Y Y->X"])

    def test_sharing_like_the_package(self):
        s, a, b, c, d = rv("s a b c d")
        answer = sharing(s, a + b, b + c, c + d).prove("H(b) + H(c) >= 3 H(s)")
        # (the lines of the made question aren't the file's, so the proof doesn't name them)
        verdict, proof = default().tell([answer.report], [])[0]
        self.assertEqual(self.asks(f"{PATH}prove H(b) + H(c) >= 3 H(s)\n", "--sharing")[1:], [f"1 {verdict}", f"  {proof}"])

    def test_sides_of_an_equation(self):
        """A point violates that side of an equation which is negative there."""
        for relation_, side in [("H(a) = H(a,b)", "forward"), ("H(a,b) = H(a)", "back")]:
            told = self.asks(f"secret s\nparties a, b\nqualified a, b\nprove {relation_}\n", "--sharing")
            self.assertEqual([line for line in told if line[0] != " "], ["sharing 1 2", "1 no"], side)
            self.assertNotIn("invalid", told[2])

    def test_refused(self):
        for mode, text, refusal in [
            ("copy", "copy R of A over A, 0\nvars A\nprove H(A) >= 0\n", "refused 1:21 word"),
            ("best", "vars X\nprove H(X) < 0\n", "refused 2:12 byte"),
            ("sharing", "secret s\nparties a\nprove H(a) >= H(s)\n", "refused 3:1 word"),
        ]:
            path = self.file(text)
            status, told, said = self.ask(f"--{mode}", path)
            self.assertEqual((status, told), (3, refusal + "\n"))
            place = refusal.split()[1].split(":")
            self.assertTrue(said.startswith(f"ask: {path}, line {place[0]}, column {place[1]}:\n    {text.splitlines()[int(place[0]) - 1]}\n"))

    def test_latex(self):
        told = "\n".join(self.asks("vars X, Y\nprove H(X) + H(Y) >= H(X,Y)\n", "--best", "--latex"))
        self.assertIn("\\begin{align*}\n  H(X) + H(Y) - H(X,Y) &= I(X;Y)\n\\end{align*}", told)
        self.assertIn("\nThe least factor is $1/1$: ", told)
        self.assertEqual(self.asks(PATH + "prove H(a) >= H(s)\n", "--sharing", "--latex")[1], "\\par{\\raggedright\\texttt{sharing 3 3}\\par}")


class Loading(unittest.TestCase):
    def run_python(self, code):
        command = [sys.executable, "-I", "-S", "-c", f"import sys; sys.path.insert(0, {str(SOURCES)!r})\n{code}"]
        done = subprocess.run(command, capture_output=True, check=False)
        self.assertEqual((done.returncode, done.stderr), (0, b""))
        return done.stdout.decode().split()

    def test_lazy(self):
        """The package loads what a name needs when it is used, and ./ask little of it."""
        heavy = "[name for name in ('itip.everything', 'itip.notation', 'itip.outer', 'typing', 'enum', 're', 'json', 'subprocess') if name in sys.modules]"
        self.assertEqual(self.run_python(f"import itip, itip.ask\nprint(*{heavy})"), [])
        light = "*sorted(name for name in sys.modules if name.startswith('itip.'))"
        self.assertEqual(self.run_python(f"import itip.ask\nprint({light})"), [f"itip.{name}" for name in ("ask", "console", "errors", "reports", "shorthand")])
        self.assertIn("itip.everything", self.run_python(f"import itip\nitip.H\nprint(*{heavy})"))

    def test_names(self):
        """Names that modules have too stay those of functions, whatever was loaded before."""
        code = "import itip.ask, itip.sharing\nfrom itip import ask, sharing\nprint(ask.__name__, sharing.__name__, itip.ask is ask)"
        self.assertEqual(self.run_python(code), ["ask", "sharing", "True"])
        code = "import itip\nprint(hasattr(itip, 'nothing'), 'prove' in dir(itip), hasattr(itip, '__wrapped__'))"
        self.assertEqual(self.run_python(code), ["False", "True", "False"])
        self.assertEqual(self.run_python("from itip import *\nprint(prove.__name__, I.__name__)"), ["prove", "I"])
