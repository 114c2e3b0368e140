"""./ask --copies: against inequalities of the literature, each told file asked by itself."""

import signal
import subprocess
import sys
import time

from itip.heads import with_copies
from itip.program import default

from .test_ask import EXAMPLES, ROOT, Asks

TRIED = "copies are tried, for a minute at most; Ctrl-C ends it"
ZHANG_YEUNG = "vars A, B, C, D\nprove 2 I(C;D) <= I(A;B) + I(A;C,D) + 3 I(C;D|A) + I(C;D|B)\n"
# Dougherty, Freiling and Zeger 2006, the fourth
DOUGHERTY_FREILING_ZEGER = "vars A, B, C, D\nprove 2 I(A;B) <= 3 I(A;B|C) + 3 I(A;C|B) + 3 I(B;C|A) + 2 I(A;B|D) + 2 I(C;D)\n"


class Copies(Asks):
    def judge(self, text, copies, *words):
        """The told file has so many copies and then the question, its answer is yes, and the proof below it is an equation."""
        path = self.file(text)
        status, told, said = self.ask("--copies", *words, path)
        self.assertEqual((status, said), (0, f"ask: {path}, question 1: {TRIED}\n"))
        first, point, *below = [line[2:] if line.startswith("  ") else line for line in told.splitlines()]
        self.assertEqual((first, below[0].endswith("  # then yes")), ("1 no", True))
        file = below[: copies + text.count("\n")]
        self.assertEqual((sum(line.startswith("copy ") for line in below), "\n".join(file[copies:]) + "\n"), (copies, text))
        alone = self.asks("\n".join(file) + "\n", "--copy", *words)
        self.assertEqual(alone, ["1 yes", *("  " + line for line in below[len(file) :])])
        self.are_equations([line.strip() for line in alone[1:]])

    def test_literature(self):
        self.judge(ZHANG_YEUNG, 1)
        self.judge(ZHANG_YEUNG, 1, "--steps")
        self.judge(DOUGHERTY_FREILING_ZEGER, 2)

    def test_conditions_and_rates(self):
        """What is given stays in the file, and rates are nothing that is copied."""
        rates = "vars A, B, C, D\nrates R\ngiven H(A) >= 0\nrow R >= 2 I(C;D)\nrow R <= 2 I(C;D)\n"
        self.judge(rates + "prove R <= I(A;B) + I(A;C,D) + 3 I(C;D|A) + I(C;D|B)\n", 1)

    def test_none(self):
        path = self.file("vars A, B, C\nprove H(A,B) + H(B,C) <= H(A,B,C) + H(B)\nprove H(A) >= 0\n".replace("\nprove H(A)", "\nvars A\nprove H(A)"))
        status, told, said = self.ask("--copies", path)
        self.assertEqual((status, told.splitlines()[2:]), (0, ["  # no copy and no pair of copies makes it a yes (0 tried)", "2 yes", "  H(A) = H(A)"]))
        self.assertEqual(said, f"ask: {path}, question 1: {TRIED}\n")

    def test_what_is_tried(self):
        """What fails for random variables, here for one coin four times, no copies prove."""
        file, said = with_copies("vars A, B, C, D\nprove H(A) + H(B) + H(C) + H(D) >= 5 H(A,B,C,D)\n", str(default().prover_path()))
        self.assertEqual(file, "")
        self.assertRegex(said, r"^no copy and no pair of copies makes it a yes \([1-9][0-9]* tried\)$")

    def test_open_file(self):
        """The program may be an open file, as ./ask has it where nothing can be unpacked in dist/."""
        program = next(path for path in (ROOT / place / "out" / "itip" for place in ("crates/itip", "dist")) if path.exists())
        with open(program, "rb") as file:
            command = self.command("--copies", self.file(ZHANG_YEUNG), prover=f"/proc/self/fd/{file.fileno()}")
            done = subprocess.run(command, capture_output=True, check=False, pass_fds=[file.fileno()])
        self.assertEqual((done.returncode, b"\n  copy R of " in done.stdout), (0, True), done.stderr)

    def test_interrupt(self):
        """Ctrl-C ends the search and the program."""
        slow = self.program("sys.exit(honest()) if 'copy' not in sys.argv and '--pivots' not in sys.argv else time.sleep(60)\n")
        command = self.command("--copies", self.file(ZHANG_YEUNG), prover=slow.prover)
        begin = "import os, signal, sys\nsignal.signal(signal.SIGINT, signal.SIG_DFL)\nos.execv(sys.argv[1], sys.argv[1:])"
        call = subprocess.Popen([sys.executable, "-c", begin, *command], stdout=subprocess.PIPE, stderr=subprocess.PIPE)
        self.assertIn(TRIED, call.stderr.readline().decode())
        time.sleep(0.5)
        call.send_signal(signal.SIGINT)
        told, said = call.communicate(timeout=30)
        self.assertEqual((call.returncode, told, b"Traceback" in said), (130, b"", False))

    def test_page(self):
        told = self.ask("--copies", self.file(ZHANG_YEUNG))[1].splitlines()
        self.assertIn("\n```\n" + "".join(line + "\n" for line in told[2:5]) + "```\n", (ROOT / "docs" / "guide" / "ask.md").read_text())
        told = self.asks("vars X, Y, Z\nprove I(X;Z) <= I(X;Y)\n", "--if")
        self.assertIn("\n```\n" + "".join(line + "\n" for line in told) + "```\n", (ROOT / "docs" / "guide" / "ask.md").read_text())
        self.assertIn(ZHANG_YEUNG.splitlines()[1], (EXAMPLES / "zhang-yeung.txt").read_text())
