"""What pip installs: a wheel with all of the package, made by the standard library alone, which finds the programs by ITIP_HOME."""

import base64
import hashlib
import os
import subprocess
import sys
import tempfile
import unittest
import zipfile
from importlib.util import module_from_spec, spec_from_file_location
from pathlib import Path

PYTHON = Path(__file__).resolve().parents[1]
PROVES = """
from itip import *
X, Y, Z = rv("X Y Z")
print(prove(I(X & Z) <= I(X & Y), given=markov(X, Y, Z)).check())
"""


class Install(unittest.TestCase):
    def setUp(self):
        folder = tempfile.TemporaryDirectory()
        self.addCleanup(folder.cleanup)
        self.folder = Path(folder.name)
        spec = spec_from_file_location("wheels", PYTHON / "wheels.py")
        self.wheels = module_from_spec(spec)
        spec.loader.exec_module(self.wheels)

    def unpacked(self, name):
        """The files of a wheel, whose record has the length and the sum of each but itself."""
        with zipfile.ZipFile(self.folder / name) as wheel:
            wheel.extractall(self.folder / "site")
            files = {path: wheel.read(path) for path in wheel.namelist()}
        record = [line.rsplit(",", 2) for line in files["itip-0.1.dist-info/RECORD"].decode().splitlines()]
        self.assertEqual(sorted(path for path, _, _ in record), sorted(files))
        for path, found, length in record[:-1]:
            due = base64.urlsafe_b64encode(hashlib.sha256(files[path]).digest()).rstrip(b"=").decode()
            self.assertEqual((found, int(length)), (f"sha256={due}", len(files[path])))
        return files

    def run_there(self, **environment):
        command = [sys.executable, "-S", "-c", f"import sys; sys.path.insert(0, {str(self.folder / 'site')!r})\n{PROVES}"]
        without = {name: value for name, value in os.environ.items() if name not in ("PYTHONPATH", "ITIP_HOME")}
        return subprocess.run(command, cwd=self.folder, env={**without, **environment}, capture_output=True, check=False)

    def test_wheel(self):
        files = self.unpacked(self.wheels.build_wheel(str(self.folder)))
        modules = {f"itip/{path.name}" for path in (PYTHON / "src" / "itip").iterdir() if path.suffix}
        self.assertEqual({path for path in files if "dist-info" not in path}, modules)
        self.assertIn("itip/py.typed", files)
        done = self.run_there(ITIP_HOME=str(PYTHON.parent))
        self.assertEqual((done.returncode, done.stdout.decode().splitlines()[-1:]), (0, ["valid"]), done.stderr)
        done = self.run_there()
        self.assertEqual(done.returncode, 1)
        self.assertIn(b"MissingProgram: the repository of itip isn't around this package: set ITIP_HOME", done.stderr)

    def test_same(self):
        """The wheel is the same whenever it is made, and its version that of the package."""
        made = [(self.folder / self.wheels.build_wheel(str(self.folder))).read_bytes() for _ in range(2)]
        self.assertEqual(made[0], made[1])
        import itip

        self.assertIn(f"\nVersion: {itip.__version__}\n".encode(), self.unpacked("itip-0.1-py3-none-any.whl")["itip-0.1.dist-info/METADATA"])

    def test_editable(self):
        files = self.unpacked(self.wheels.build_editable(str(self.folder)))
        self.assertEqual(files["itip.pth"].decode(), f"{PYTHON / 'src'}\n")
        with self.assertRaises(self.wheels.UnsupportedOperation):
            self.wheels.build_sdist(str(self.folder))
