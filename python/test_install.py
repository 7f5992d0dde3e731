"""`pip install ./python` without a network: what it installs, and that it works with the library inside and without."""

import importlib.util
import os
import shutil
import subprocess
import sys
import tempfile
import unittest

from okubinrafo import library

HERE = os.path.dirname(os.path.abspath(__file__))
DOCUMENT = os.path.join(os.path.dirname(HERE), "examples", "document")
ASKED = ["report", os.path.join(DOCUMENT, "register.csv"), "--limits", os.path.join(DOCUMENT, "limits.csv")]


@unittest.skipUnless(importlib.util.find_spec("pip"), "pip is not installed")
class Install(unittest.TestCase):
    def setUp(self):
        folder = tempfile.TemporaryDirectory()
        self.addCleanup(folder.cleanup)
        self.sources, self.installed = (os.path.join(folder.name, name) for name in ("python", "installed"))
        shutil.copytree(HERE, self.sources, ignore=shutil.ignore_patterns("*.so", "__pycache__"))

    def install(self, *flags):
        flags = [*flags, "--quiet", "--no-index", "--disable-pip-version-check", "--target", self.installed]
        command = [sys.executable, "-m", "pip", "install", *flags, self.sources]
        installed = subprocess.run(command, capture_output=True, timeout=120)
        self.assertEqual(installed.returncode, 0, installed.stderr.decode())
        self.assertTrue(os.path.isdir(os.path.join(self.installed, "okubinrafo-0.2.0.dist-info")))

    def report(self, **changes):
        environment = {**os.environ, "PYTHONPATH": self.installed, **changes}
        command = [sys.executable, "-m", "okubinrafo", *ASKED]
        return subprocess.run(command, env=environment, cwd="/", capture_output=True, timeout=120)

    def answered(self, ran):
        self.assertEqual(ran.returncode, 0, ran.stderr.decode())
        self.assertTrue(ran.stdout.endswith(b"1,56.66,56.65,over,2,2\r\n"))

    def test_with_the_library_inside(self):
        shutil.copy(library._path(), os.path.join(self.sources, "okubinrafo", "libokubinrafo.so"))
        self.install("--no-build-isolation")
        self.answered(self.report(OKUBINRAFO_LIB=""))

    def test_with_the_library_elsewhere(self):
        self.install()
        self.assertEqual(self.report(OKUBINRAFO_LIB="").returncode, 3)
        self.answered(self.report(OKUBINRAFO_LIB=library._path()))


if __name__ == "__main__":
    unittest.main()
