"""Why there is no answer: refused files, and programs that are missing, fail, hang, lie, or answer something else."""

import os
import signal
import tempfile
import threading
import time
import unittest
from pathlib import Path
from unittest import mock

from itip import Forged, H, I, Itip, MissingProgram, No, Notice, ProgramFailed, Refused, TimedOut, Undecided, ask, markov, prove, rv
from itip.answers import read

from .programs import BLAND, FEW_STEPS, WithPrograms

X, Y, Z = rv("X Y Z")
ROOT = Path(__file__).resolve().parents[2]


class Refusals(unittest.TestCase):
    def test_slips(self):
        """Each slip of docs/slips.txt, with its place and what to write in its stead."""
        rows = [row for row in (ROOT / "docs" / "slips.txt").read_text().splitlines() if not row.startswith("#")]
        self.assertGreater(len(rows), 40)
        for row in rows:
            word, _, _, said, file, refused = row.split("\t")
            file = file.replace("\\n", "\n")
            with self.assertRaises(Refused) as caught:
                ask(file)
            fault = caught.exception
            self.assertEqual((f"refused {fault.line}:{fault.column} {fault.word}", fault.word), (refused, word))
            self.assertEqual(fault.hint, said)
            self.assertIn(f"{word}: ", str(fault))

    def test_place(self):
        with self.assertRaises(Refused) as caught:
            ask("vars X\n\nprove\tH(X) > 0\n")
        self.assertEqual(
            str(caught.exception),
            "line 3, column 12: byte: a byte that begins no token\n    prove\tH(X) > 0\n         \t     ^\n"
            "the signs are `<=`, `>=` and `=`: strict ones aren't asked about",
        )

    def test_large(self):
        with self.assertRaises(Refused) as caught:
            prove(H(*rv("A B C D E F G J K L")) >= 0)
        self.assertEqual(caught.exception.word, "large")

    def test_long_line(self):
        with self.assertRaises(Refused) as caught:
            ask("vars A, B\nprove " + " + ".join(["H(A)"] * 300) + " >= 0\n")
        self.assertEqual(caught.exception.word, "many")
        line, caret = str(caught.exception).split("\n")[1:3]
        self.assertLess(len(line), 110)
        self.assertEqual(line[caret.index("^")], "H")

    def test_long_file(self):
        with self.assertRaises(Refused) as caught:
            ask("#" * 1_048_577)
        self.assertEqual((caught.exception.word, caught.exception.line), ("long", 0))


class Programs(WithPrograms):
    def test_missing(self):
        with tempfile.TemporaryDirectory() as home:
            with self.assertRaisesRegex(MissingProgram, "can't be run"):
                prove(H(X) >= 0, program=Itip(home=home))
        with self.assertRaisesRegex(MissingProgram, r"To prove and build it: \(cd .*crates/tell && rt run <stdin\)"):
            Itip(teller="crates/tell/out/tell").tell([])

    def test_no_answer(self):
        """Where `./itip` has no program it says why, with status 7."""
        with self.assertRaisesRegex(MissingProgram, "it isn't built here"):
            prove(H(X) >= 0, program=self.program("print('it isn\\'t built here', file=sys.stderr)\nsys.exit(7)\n"))

    def test_notice(self):
        with self.assertWarnsRegex(Notice, "UNPROVED"):
            self.assertTrue(prove(H(X) >= 0, program=self.program("print('UNPROVED answer', file=sys.stderr)\nsys.exit(honest())\n")))

    def test_timeout(self):
        slow = self.program("time.sleep(60)\n", timeout=0.5)
        began = time.monotonic()
        with self.assertRaisesRegex(TimedOut, "within 0.5 seconds"):
            prove(H(X) >= 0, program=slow)
        self.assertLess(time.monotonic() - began, 20)

    def test_interrupt(self):
        """Ctrl-C ends the program, and what it started."""
        self.take_interrupts()
        slow = self.program(
            "inner = subprocess.Popen(['sleep', '60'])\n"
            "open(__file__ + '.pids', 'w').write(f'{os.getpid()} {inner.pid}\\n')\ninner.wait()\n"
        )
        pids = Path(f"{slow.prover}.pids")

        def interrupt():
            while not (pids.exists() and pids.read_text().endswith("\n")):
                time.sleep(0.05)
            os.kill(os.getpid(), signal.SIGINT)

        threading.Thread(target=interrupt).start()
        with self.assertRaises(KeyboardInterrupt):
            prove(H(X) >= 0, program=slow)
        for pid in pids.read_text().split():
            status = Path(f"/proc/{pid}/stat")  # an orphan may wait for its end to be read
            self.assertTrue(not status.exists() or status.read_text().rpartition(")")[2].split()[0] == "Z")

    def test_statuses(self):
        for body in [*(f"sys.exit({status})\n" for status in (2, 4, 5, 6, 99)), "os.kill(os.getpid(), 9)\n"]:
            with self.assertRaises(ProgramFailed):
                prove(H(X) >= 0, program=self.program(body))

    def test_other_output(self):
        for body, error in [
            ("pass\n", ProgramFailed),
            ("sys.exit(3)\n", ProgramFailed),
            ("print('{}')\n", Forged),
            ("print('yes')\n", Forged),
            ("print('[]')\n", Forged),
            ("honest()\nprint('{}')\n", ProgramFailed),
        ]:
            with self.assertRaises(error, msg=body):
                prove(H(X) >= 0, program=self.program(body))

    def test_settled(self):
        """What the usual budget leaves undecided is asked once more without one, and with a budget of one's own it isn't."""
        relation = "H(X) + H(Y) + H(Z) >= H(X,Y,Z) + I(X;Y|Z)"
        self.assertIsInstance(prove(relation, program=BLAND, pivots=1), Undecided)
        program = self.program(FEW_STEPS)
        self.assertEqual(prove(relation, program=program).word, prove(relation).word)
        self.assertEqual(program.calls, 2)
        self.assertIsInstance(prove(relation, program=program, pivots=1), Undecided)

    def test_liars(self):
        """Answers that are none to the question that was asked."""
        yes, no = prove(H(X) >= 0), prove(H(X) >= H(Y))
        for asked, line in [
            (no, yes.report),
            (yes, yes.report.replace('"proofs":[', '"proofs":[{"scale":"1","weights":[]},')),
            (yes, yes.report.replace('"scale"', '"scales"')),
            (yes, yes.report.replace('[0,"1"]', "0")),
            (yes, yes.report.replace('"yes"', '"region"')),
            (yes, yes.report.replace('"yes"', '"open"')),
            (no, no.report.replace('"point":[', '"point":["1",')),
            (no, no.report.replace('"point":[', '"point":["x",')),
            (yes, yes.report[:-1]),
        ]:
            with self.assertRaises(Forged):
                read(asked.asked, line, Itip())
        with self.assertRaisesRegex(Forged, "another question"):
            prove(H(Y) >= 0, program=self.program(f"print({yes.report!r})\n"))
        lost = self.program(f"print({yes.report!r})\n")
        with self.assertRaisesRegex(ProgramFailed, "2 questions got 1 answers"):
            ask("vars X\nprove H(X) >= 0\n" * 2, program=lost)
        with self.assertRaisesRegex(Forged, "another question"):
            ask("vars Y\nprove H(Y) >= 0\n", program=lost)

    def test_tampered(self):
        """The forgery of docs/reference/reports.md."""
        answer = prove(I(X & Z) <= I(X & Y), given=markov(X, Y, Z))
        line = answer.report.replace('[4,"1"]', '[4,"2"]')
        wrong = read(answer.asked, line, answer.program)
        for judge in (wrong.check, wrong.tell):
            with self.assertRaisesRegex(Forged, r"mismatch h\(Z\) -1 -2"):
                judge()
        self.assertFalse(wrong.certificate.adds_up())
        negative = read(answer.asked, answer.report.replace('[4,"1"]', '[4,"-1"]'), answer.program)
        self.assertFalse(negative.certificate.adds_up())

    def test_judge(self):
        """With `judge` no answer is handed out that `itip check` finds invalid."""
        given = markov(X, Y, Z)
        forged = prove(I(X & Z) <= I(X & Y), given).report.replace('[4,"1"]', '[4,"2"]')
        liar = self.program(f"sys.exit(honest()) if 'check' in sys.argv else print({forged!r})\n")
        self.assertTrue(prove(I(X & Z) <= I(X & Y), given, program=liar))
        liar.judge = True
        with self.assertRaisesRegex(Forged, "mismatch"):
            prove(I(X & Z) <= I(X & Y), given, program=liar)
        self.assertIsInstance(prove(H(X) >= H(Y), program=Itip(judge=True)), No)

    def test_repository(self):
        """ITIP_HOME comes before the folders around the package; without a proved program `./itip` is called."""
        with mock.patch.dict(os.environ), tempfile.TemporaryDirectory() as home:
            os.environ.pop("ITIP_HOME", None)
            self.assertEqual(Itip().repository(), ROOT)
            (Path(home) / "crates" / "itip").mkdir(parents=True)
            os.environ["ITIP_HOME"] = home
            self.assertEqual(Itip().repository(), Path(home))
            script = Path(home) / "itip"
            script.write_text("#!/bin/sh\necho 'no program' >&2\nexit 7\n")
            script.chmod(0o755)
            with self.assertRaisesRegex(MissingProgram, "no program"):
                prove(H(X) >= 0)
            os.environ["ITIP_HOME"] = f"{home}/elsewhere"
            with self.assertRaisesRegex(MissingProgram, "set ITIP_HOME"):
                prove(H(X) >= 0)
