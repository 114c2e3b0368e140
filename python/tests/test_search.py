"""The search for copies: against inequalities of the literature, with its progress, its limits and interrupts."""

import contextlib
import io
import os
import signal
import threading
import unittest

from itip import H, I, Itip, Refused, Undecided, find_copies, prove, relation, rv
from itip.questions import Prove, question
from itip.search import candidates

from .programs import BLAND, WithPrograms

A, B, C, D = rv("A B C D")
ZHANG_YEUNG = relation("2 I(C;D) <= I(A;B) + I(A;C,D) + 3 I(C;D|A) + I(C;D|B)")
# Dougherty, Freiling and Zeger 2006, the fourth
DOUGHERTY_FREILING_ZEGER = relation("2 I(A;B) <= 3 I(A;B|C) + 3 I(A;C|B) + 3 I(B;C|A) + 2 I(A;B|D) + 2 I(C;D)")


class Searches(WithPrograms):
    def test_zhang_yeung(self):
        found = find_copies(ZHANG_YEUNG)
        self.assertEqual([one.text() for one in found.copies], ["copy R of A over C, D"])
        self.assertEqual(found.answer.check(), "valid")
        self.assertTrue(prove(ZHANG_YEUNG, copies=found.copies))

    def test_two_copies(self):
        seen = []
        found = find_copies(DOUGHERTY_FREILING_ZEGER, progress=lambda done, total, text: seen.append((done, total, text)))
        self.assertEqual((len(found.copies), found.answer.check()), (2, "valid"))
        self.assertEqual([done for done, _, _ in seen], sorted(done for done, _, _ in seen))
        self.assertEqual(seen[-1][0], seen[-1][1])

    def test_none(self):
        self.assertEqual(str(find_copies(I(A & B) >= 0)), "no copy (1 tried, 0 undecided, 0 left)")
        none = find_copies("I(A;B) <= I(A;C)", most=1)
        self.assertFalse(none)
        self.assertEqual((none.copies, none.answer, none.left), ((), None, 0))

    def test_limits(self):
        self.assertEqual(find_copies(DOUGHERTY_FREILING_ZEGER, limit=5).tried, 5)
        out_of_time = find_copies(DOUGHERTY_FREILING_ZEGER, seconds=0)
        self.assertEqual((bool(out_of_time), out_of_time.tried), (False, 0))
        self.assertGreater(out_of_time.left, 100)
        few_steps = find_copies(ZHANG_YEUNG, pivots=1, limit=7, batch=3, program=BLAND)
        self.assertEqual((few_steps.tried, few_steps.undecided), (7, 7))

    def test_room(self):
        """What would pass the limit of 64 lines isn't tried."""
        many = [H(A) >= k * I(A & B) - k * H(B) for k in range(1, 58)]
        self.assertEqual(find_copies("H(A) + H(C) >= H(B) + H(D)", many, most=1).left, 0)

    def test_batches(self):
        program = Itip()
        find_copies(DOUGHERTY_FREILING_ZEGER, limit=11, batch=4, program=program)
        self.assertEqual(program.calls, 3)

    def test_bar(self):
        with contextlib.redirect_stderr(io.StringIO()) as shown:
            find_copies(ZHANG_YEUNG, progress=True)
        self.assertIn("[##############################]", shown.getvalue())
        self.assertTrue(shown.getvalue().endswith("\n"))

    def test_interrupt(self):
        """Ctrl-C goes through, from within a call."""
        self.take_interrupts()
        slow = self.program("time.sleep(60)\n")
        threading.Timer(1, lambda: os.kill(os.getpid(), signal.SIGINT)).start()
        with self.assertRaises(KeyboardInterrupt):
            find_copies(ZHANG_YEUNG, program=slow)

    def test_candidates(self):
        def tried(target, given, most):
            return list(candidates(question(Prove(target), given, about=[target]), most))

        # all of one variable over two of the others: 4 * 3, and over three that leave none to be independent of: none
        plain = tried(H(A) + 2 * H(B) + 3 * H(C) + 4 * H(D) >= 0, [], 1)
        self.assertEqual(len(plain), 1 + 12)
        # of these one is left where all variables are alike, and where A and B alone are, A over C and D is B over C and D
        self.assertEqual(len(tried(H(A, B, C, D) >= 0, [], 1)), 1 + 1)
        self.assertEqual(len(tried(H(A, B) + 2 * H(C) + 3 * H(D) >= 0, [], 1)), 1 + 7)
        # what is given counts
        self.assertEqual(len(tried(H(A, B, C, D) >= 0, [H(A) == H(B)], 1)), len(tried(H(A, B) + H(C, D) + H(A) + H(B) >= 0, [], 1)))
        # ten variables have no room for one more
        self.assertEqual(tried(H(*rv("A B C D E F G J K L")) >= 0, [], 2), [()])
        for chosen in tried(H(A, B, C, D) >= 0, [], 3):
            self.assertLessEqual(len(chosen), 3)
            self.assertEqual(len({one.name for one in chosen}), len(chosen))
