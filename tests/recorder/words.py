"""What gpurace-record says of a command line that names no program."""

import pathlib
import subprocess
import sys
import tempfile
import unittest

from testing.program import TOP

RECORD = TOP / "tools" / "gpurace-record"


class Words(unittest.TestCase):
    def refused(self, *words):
        """What is said in a folder that has a program and a text."""
        with tempfile.TemporaryDirectory() as name:
            room = pathlib.Path(name)
            (room / "program").write_text("#!/bin/sh\n")
            (room / "program").chmod(0o700)
            (room / "text").write_text("a text\n")
            ran = subprocess.run([sys.executable, str(RECORD), *words], stdout=subprocess.PIPE, stderr=subprocess.PIPE, text=True, cwd=room, check=False)
        self.assertEqual((ran.returncode, ran.stdout), (3, ""))
        return ran.stderr

    def test_a_program_of_this_folder(self):
        self.assertEqual(self.refused("program"), "gpurace-record: there is no program program on the path; ./program is one\n")

    def test_a_file_that_is_no_program(self):
        self.assertEqual(self.refused("./text"), "gpurace-record: ./text is not executable\n")
        self.assertEqual(self.refused("text"), "gpurace-record: text is not executable\n")

    def test_nothing_of_that_name(self):
        self.assertEqual(self.refused("./nothing"), "gpurace-record: there is no program ./nothing\n")
        self.assertEqual(self.refused("nothing"), "gpurace-record: there is no program nothing\n")

    def test_a_file_of_the_simulator(self):
        self.assertEqual(self.refused("nothing.sim"), "gpurace-record: there is no file nothing.sim\n")

    def test_words_after_two_dashes_are_the_program_s(self):
        self.assertEqual(self.refused("--seed", "1", "--", "--json"), "gpurace-record: there is no program --json\n")
        self.assertEqual(self.refused("--", "./text", "--json"), "gpurace-record: ./text is not executable\n")

    def test_recording_alone_has_no_report(self):
        for words in (("--json", "made"), ("--report", "made"), ("--baseline", "made"), ("--error-exitcode", "7")):
            self.assertEqual(self.refused("--only-record", "--keep", "kept", *words, "./program"),
                             f"gpurace-record: --only-record judges nothing, so it takes no {words[0]}\n")
