"""Programs that fail, hang, lie, or answer something else, as small scripts in the place of `itip`."""

import signal
import stat
import sys
import tempfile
import unittest
from pathlib import Path

from itip import Itip
from itip.program import default

BLAND = Itip(run="bland")  # which a budget of one step leaves undecided
FEW_STEPS = "sys.exit(honest() if '--pivots' in sys.argv else honest('--pivots', '1'))\n"


class WithPrograms(unittest.TestCase):
    def program(self, body, **settings):
        """A program that does what the body says; there, `honest()` calls the true one with the same input and words, but for its defined run."""
        folder = tempfile.TemporaryDirectory()
        self.addCleanup(folder.cleanup)
        path = Path(folder.name) / "itip"
        head = (
            f"#!{sys.executable}\nimport os, subprocess, sys, time\n"
            "def honest(*more):\n"
            "    words = ['bland' if word == 'quick' else word for word in sys.argv[1:]]\n"
            f"    return subprocess.call([{str(default().prover_path())!r}, *words, *more])\n"
        )
        path.write_text(head + body)
        path.chmod(path.stat().st_mode | stat.S_IXUSR)
        return Itip(prover=path, **settings)

    def take_interrupts(self):
        """Has an interrupt raise KeyboardInterrupt in this test: a job that a shell starts with `&` begins by ignoring interrupts."""
        self.addCleanup(signal.signal, signal.SIGINT, signal.signal(signal.SIGINT, signal.default_int_handler))
