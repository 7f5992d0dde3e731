"""The blocks of docs/PYTHON.md run as they stand there, one after the other, and give what it says."""

import contextlib
import io
import os
import re
import shutil
import subprocess
import tempfile
import unittest

HERE = os.path.dirname(os.path.abspath(__file__))
TOP = os.path.dirname(HERE)
EXAMPLES = ("quarter/register.csv", "quarter/limits.csv", "network.asc", "tracks/movements.csv", "tracks/tracks.csv")


def blocks(document):
    """The fenced blocks of a document in order, as (language, text)."""
    with open(os.path.join(TOP, "docs", document), encoding="utf-8") as file:
        return re.findall(r"^```(\w+)\n(.*?)^```$", file.read(), re.MULTILINE | re.DOTALL)


@contextlib.contextmanager
def folder_with_examples():
    """Changes to a folder of its own that has the quarter's files, the network, and the flights."""
    before = os.getcwd()
    with tempfile.TemporaryDirectory() as folder:
        for name in EXAMPLES:
            shutil.copy(os.path.join(TOP, "examples", name), folder)
        os.chdir(folder)
        try:
            yield folder
        finally:
            os.chdir(before)


def run_sh(text):
    environment = {**os.environ, "PYTHONPATH": HERE, "PYTHONDONTWRITEBYTECODE": "1"}
    ran = subprocess.run(["sh", "-euc", text], env=environment, capture_output=True, timeout=120)
    if ran.returncode:
        raise AssertionError(f"status {ran.returncode} of {text}: {ran.stderr.decode()}")
    return ran.stdout.decode().replace("\r\n", "\n")


def run_python(text, names):
    out = io.StringIO()
    with contextlib.redirect_stdout(out):
        exec(compile(text, "docs/PYTHON.md", "exec"), names)
    return out.getvalue()


class Documents(unittest.TestCase):
    def test_python_md(self):
        found, names, ran = blocks("PYTHON.md"), {"__name__": "document"}, 0
        with folder_with_examples():
            for (language, text), (following, expected) in zip(found, [*found[1:], ("", "")]):
                if language not in ("python", "sh"):
                    continue
                with self.subTest(block=text):
                    answer = run_python(text, names) if language == "python" else run_sh(text)
                    self.assertEqual(following, "text", "a block says what it prints")
                    self.assertEqual(answer, expected)
                    ran += 1
        self.assertGreaterEqual(ran, 5)


if __name__ == "__main__":
    unittest.main()
