"""tools/bench: that what measures still runs. What it measures is no test's."""

import os
import re
import subprocess
import sys
import unittest

from testing.program import TOP

KERNELS = ["matmul", "histogram", "reduction", "messages", "sparse"]


class Benches(unittest.TestCase):
    def ran(self, *words, status=0):
        environ = {**os.environ, "GPURACE_PROGRAM": os.environ["GPURACE"]}
        ran = subprocess.run([sys.executable, TOP / "tools" / "bench", *words], env=environ, stdout=subprocess.PIPE, stderr=subprocess.PIPE, text=True,
                             timeout=600, check=False)
        self.assertEqual(ran.returncode, status, ran.stderr)
        return ran.stdout

    def test_replay_of_kernels(self):
        text = self.ran("replay", "2000", "--turns", "1")
        self.assertEqual(re.findall(r"^(\w+) +\d+ records: ", text, re.MULTILINE), KERNELS)

    def test_replay_of_shapes(self):
        text = self.ran("replay", "2000", "--turns", "1", "--shapes")
        self.assertEqual(re.findall(r"^(\w+) of 2048 +\d+ records: ", text, re.MULTILINE), ["barriers", "atomics", "messages", "readers", "adders"])

    def test_questions(self):
        text = self.ran("questions", "20000", "--turns", "1")
        for question in ("replay", "races", "races --causes", "explain", "explain --long", "history"):
            self.assertEqual(len(re.findall(rf"^  {question}  +[0-9.]+ s, ", text, re.MULTILINE)), 5, question)

    def test_threads(self):
        """Each report of `run` is that of `replay`, else the status is 1."""
        text = self.ran("threads", "2000", "--turns", "1")
        self.assertEqual(re.findall(r"^(\w+): \d+ records, ", text, re.MULTILINE), KERNELS)

    def test_a_name_that_is_none(self):
        self.assertEqual(self.ran("reply", status=3), "")
