"""What the program does on a terminal: help where nothing is asked for, and how far the reading is."""

import os
import pty
import subprocess
import time

from testing.program import END, ProgramTest, access, header, read_terminal


class Terminal(ProgramTest):
    def setUp(self):
        super().setUp()
        self.leader, self.follower = pty.openpty()
        self.addCleanup(os.close, self.leader)

    def shown(self):
        """What was written to the terminal."""
        os.close(self.follower)
        return read_terminal(self.leader)

    def slowly(self, words, pieces):
        """Runs a command whose standard error is the terminal, and whose standard input comes in pieces, with pauses."""
        with subprocess.Popen([os.environ["GPURACE"], *words], cwd=self.folder, stdin=subprocess.PIPE, stdout=subprocess.PIPE, stderr=self.follower) as ran:
            for piece in pieces:
                time.sleep(0.6)
                ran.stdin.write(piece)
                ran.stdin.flush()
            ran.stdin.close()
            output = ran.stdout.read()
        return ran.returncode, output

    def test_nothing_is_asked_for(self):
        ran = self.gpurace(stdin=self.follower, given=None)
        self.assertEqual((ran.returncode, ran.stderr), (0, b""))
        self.assertTrue(ran.stdout.startswith(b"Reports the data races"), ran.stdout[:100])
        os.close(self.follower)

    def test_how_far_the_reading_is(self):
        record = access(0, 0, 0, 16)
        status, output = self.slowly(["replay"], [header(0, 1) + 2 * record, 3 * record, END])
        self.assertEqual((status, output.split(b"\n")[1]), (0, b"groups 1 items 1 records 6"))
        text = self.shown()
        self.assertIn(b" records read, ", text)
        self.assertIn(b" a second", text)
        self.assertTrue(text.endswith(b"\r\x1b[K"), text)

    def test_how_far_the_reading_of_a_file_is(self):
        self.put("race", header(0, 1) + access(0, 0, 0, 16) + END)
        status, _ = self.slowly(["explain", "g", "16", "race", "-"], [header(1, 1), END])
        self.assertEqual(status, 0)
        os.close(self.follower)

    def test_nothing_is_shown_where_there_is_no_terminal(self):
        ran = self.gpurace("replay", given=header(0, 1) + END)
        self.assertEqual(ran.stderr, b"")
        os.close(self.follower)

    def test_a_quick_run_says_nothing(self):
        ran = self.gpurace("replay", given=header(0, 1) + END, stderr=self.follower)
        self.assertEqual((ran.returncode, self.shown()), (0, b""))
