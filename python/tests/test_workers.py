"""Many questions on many workers: threads, processes, and Dask where it is there."""

import importlib.util
import unittest
from concurrent.futures import Executor, Future, ProcessPoolExecutor, ThreadPoolExecutor

from itip import Forged, H, Itip, MissingProgram, No, TimedOut, WorkerLost, Yes, prove_all, rv

from .programs import WithPrograms

X, Y = rv("X Y")
# the k-th holds exactly where k is a multiple of 7
MANY = [(k + 1) * H(X, Y) >= (k % 7) * H(Y) + (k + 1) * H(X) for k in range(350)]


class Swapped(Executor):
    """Hands out the answers of the call before, or none."""

    def __init__(self, gives_none):
        self.gives_none = gives_none
        self.last = []

    def submit(self, call, *words, **more):
        lines, self.last = self.last, call(*words, **more)
        done = Future()
        done.set_result([] if self.gives_none else lines or self.last[::-1])
        return done


class Workers(WithPrograms):
    def judge(self, executor, relations=MANY, batch=30):
        """Each question has its own answer, in order: the one that a single call gives."""
        answers = prove_all(relations, executor=executor, batch=batch)
        self.assertEqual([answer.report for answer in answers], [answer.report for answer in prove_all(relations)])
        for place, answer in enumerate(answers):
            self.assertIsInstance(answer, Yes if place % 7 == 0 else No)
        self.assertEqual(answers[7].check(), "valid")

    def test_threads(self):
        with ThreadPoolExecutor(4) as executor:
            self.judge(executor)
            self.assertEqual(prove_all([], executor=executor), [])

    def test_processes(self):
        with ProcessPoolExecutor(2) as executor:
            self.judge(executor, MANY[:50], 7)

    def test_faults(self):
        """What a worker's call raises is raised here."""
        slow = self.program("time.sleep(60)\n", timeout=1)
        for program, error in [(Itip(prover="/nowhere/itip"), MissingProgram), (slow, TimedOut)]:
            with ProcessPoolExecutor(2) as executor, self.assertRaises(error):
                prove_all(MANY[:20], executor=executor, batch=5, program=program)

    def test_lost_worker(self):
        killer = self.program("os.kill(os.getppid(), 9)\n")
        with ProcessPoolExecutor(2) as executor, self.assertRaises(WorkerLost):
            prove_all(MANY[:20], executor=executor, batch=5, program=killer)

    def test_mixed_up(self):
        for gives_none, error in [(False, Forged), (True, WorkerLost)]:
            with self.assertRaises(error):
                prove_all(MANY[:20], executor=Swapped(gives_none), batch=5)

    @unittest.skipUnless(importlib.util.find_spec("distributed"), "Dask isn't there")
    def test_dask(self):
        from distributed import Client, LocalCluster

        with LocalCluster(n_workers=2, threads_per_worker=1, dashboard_address=None) as cluster, Client(cluster) as client:
            self.judge(client.get_executor(), MANY[:50], 7)
            with self.assertRaises(MissingProgram):
                prove_all(MANY[:20], executor=client.get_executor(), batch=5, program=Itip(prover="/nowhere/itip"))
            with self.assertRaises(WorkerLost):
                killer = self.program("os.kill(os.getppid(), 9)\n")
                prove_all(MANY[:20], executor=client.get_executor(retries=0), batch=5, program=killer)


if __name__ == "__main__":
    unittest.main()
