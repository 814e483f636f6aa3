"""How far the judging is, on a terminal."""

import os
import pathlib
import pty
import subprocess
import tempfile
import unittest

from testing.launches import put_right
from testing.program import TOP, python_with, read_terminal

PYTHON = python_with("rich")
JUDGE = TOP / "tools" / "gpurace-judge"


@unittest.skipUnless(PYTHON, "python3-rich is missing")
class Terminal(unittest.TestCase):
    def judged(self, *options):
        """What gpurace-judge writes to a terminal on its standard error, of three launches."""
        with tempfile.TemporaryDirectory() as room:
            for number in range(3):
                put_right(pathlib.Path(room), number)
            ours, theirs = pty.openpty()
            environ = {**os.environ, "GPURACE_PROGRAM": os.environ["GPURACE"], "TERM": "xterm"}
            with subprocess.Popen([PYTHON, *options, str(JUDGE), "--jobs", "1", room], stdout=subprocess.DEVNULL, stderr=theirs, env=environ) as run:
                os.close(theirs)
                shown = read_terminal(ours)
            os.close(ours)
            self.assertEqual(run.returncode, 0, shown)
            return shown.decode()

    def test_a_bar_is_shown_meanwhile(self):
        shown = self.judged()
        self.assertIn("judging", shown)
        self.assertIn("launch 0, right: nothing found", shown)

    def test_without_rich_lines_are_shown(self):
        """By a Python without packages."""
        shown = self.judged("-S")
        self.assertNotIn("judging", shown)
        self.assertIn("launch 0, right: nothing found", shown)
